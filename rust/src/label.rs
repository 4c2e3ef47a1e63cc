//! The levels of a file.

use crate::{name::Name, texts};
use core::fmt;

/// The format of a level. As text it is its name. Later versions may tell of more.
#[derive(Clone, Copy, Debug, PartialEq, Eq, Hash)]
#[non_exhaustive]
pub enum Format {
    /// Doom's, which is judged.
    Doom,
    /// Hexen's.
    Hexen,
    /// In text.
    Udmf,
    /// Its nodes are in a later format, and begin so.
    Extended([u8; 4]),
    /// The lump at this place after the label, from 1 to 10, isn't there or hasn't its usual name.
    Incomplete(u32),
    /// The lump at this place isn't inside its file.
    Outside(u32),
    /// Another one.
    Other(u32),
}

impl Format {
    pub(crate) fn of(number: u32, lump: u32, tag: [u8; 4]) -> Format {
        match number {
            0 => Format::Doom,
            1 => Format::Hexen,
            2 => Format::Udmf,
            3 => Format::Extended(tag),
            4 => Format::Incomplete(lump),
            5 => Format::Outside(lump),
            _ => Format::Other(number),
        }
    }

    fn number(self) -> u32 {
        match self {
            Format::Doom => 0,
            Format::Hexen => 1,
            Format::Udmf => 2,
            Format::Extended(_) => 3,
            Format::Incomplete(_) => 4,
            Format::Outside(_) => 5,
            Format::Other(number) => number,
        }
    }
}

impl fmt::Display for Format {
    fn fmt(&self, f: &mut fmt::Formatter<'_>) -> fmt::Result {
        f.write_str(texts::format(self.number()).unwrap_or("other"))
    }
}

/// A level of a file: the entry of its label, from 0 on, and its format.
#[derive(Clone, Copy, PartialEq, Eq, Hash)]
pub struct Label {
    /// The number of the label among the file's entries.
    pub entry: usize,
    /// The level's format.
    pub format: Format,
    name: Name,
}

impl Label {
    pub(crate) fn of(told: &crate::raw::Level) -> Label {
        Label { entry: told.entry, format: Format::of(told.format, told.lump, told.tag), name: Name::of(&told.name) }
    }

    /// The label's name, up to a NUL.
    pub fn name(&self) -> &[u8] {
        self.name.text()
    }
}

impl fmt::Debug for Label {
    fn fmt(&self, f: &mut fmt::Formatter<'_>) -> fmt::Result {
        f.debug_struct("Label").field("entry", &self.entry).field("name", &self.name).field("format", &self.format).finish()
    }
}

/// Which part of a map is asked for in cells, and how finely.
#[derive(Clone, Copy, Debug, PartialEq, Eq, Hash)]
pub struct View {
    /// The columns x0 to x1 and the rows y0 to y1, as (x0, y0, x1, y1); None for the part of the level's linedefs.
    pub frame: Option<(i16, i16, i16, i16)>,
    /// How many cells the longer side has at most, from 1 to 1024.
    pub cells: u32,
}

impl Default for View {
    fn default() -> View {
        View { frame: None, cells: 512 }
    }
}

/// How cells lie over a map: the cell of column i and row j shows the sector of the point (x + i * size, y + j * size).
#[repr(C)]
#[derive(Clone, Copy, Debug, Default, PartialEq, Eq, Hash)]
#[allow(missing_docs)]
pub struct Grid {
    pub size: u32,
    pub columns: u32,
    pub rows: u32,
    pub x: i32,
    pub y: i32,
}

/// Which sectors a part of a map shows.
#[derive(Clone, Debug, PartialEq, Eq, Hash)]
pub struct Cells {
    /// How the cells lie over the map.
    pub grid: Grid,
    /// The sector of each cell, row by row from the lowest, -1 where there is none.
    pub sectors: alloc::vec::Vec<i32>,
}

impl Cells {
    /// The sector of a cell, None in the void and beyond the cells.
    pub fn get(&self, column: u32, row: u32) -> Option<u16> {
        if column >= self.grid.columns {
            return None;
        }
        let at = row as usize * self.grid.columns as usize + column as usize;
        u16::try_from(*self.sectors.get(at)?).ok()
    }
}
