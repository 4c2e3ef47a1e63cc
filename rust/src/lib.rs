//! Proved calls over the levels of Doom's WAD files: safe Rust over `libwadlook`.
//!
//! ```
//! use wadlook::{Point, Wad};
//!
//! # // In a checkout the sample stands beside the crate, in a release within it.
//! # if !std::path::Path::new("sample").exists() {
//! #     std::env::set_current_dir("..").unwrap();
//! # }
//! let bytes = std::fs::read("sample/base.wad").unwrap();
//! let level = Wad::new(&bytes).level("E1M1");
//! let places = level.places(&[Point { x: 0, y: 5 }])?;
//! assert_eq!(places[0].map(|place| place.sector), Some(1));
//! # Ok::<(), wadlook::Error>(())
//! ```
//!
//! [`Wad::levels`] lists the levels of a file. Doom's format is judged: a level of another one is refused where it is asked for by its
//! entry, by [`Wad::level_at`]. By its name it is read as Doom's, and then the answers mean nothing.
//!
//! [`Question`] does what the words of `wadlens` do, over files that are held in memory:
//!
//! ```
//! # if !std::path::Path::new("sample").exists() {
//! #     std::env::set_current_dir("..").unwrap();
//! # }
//! let bytes = std::fs::read("sample/base.wad").unwrap();
//! let files = [wadlook::File::new("sample/base.wad", &bytes)];
//! for found in (wadlook::Question { map: true, ..Default::default() }).check(&files) {
//!     println!("{}", found?);
//! }
//! # Ok::<(), wadlook::Stopped>(())
//! ```
//!
//! `include/wadlook.h` says what each call promises. These declarations aren't checked against it but by tests. Each safe
//! function owes the library slices of memory that is borrowed for the call, which is what its types say.
#![no_std]
#![warn(missing_debug_implementations, missing_docs)]

extern crate alloc;

use alloc::{vec, vec::Vec};
use core::fmt;

mod asked;
mod code;
mod found;
mod hidden;
mod label;
mod line;
mod name;
mod question;
mod raw;
mod refused;
mod run;
mod texts;

use asked::Asked;

pub use code::{Code, Codes};
pub use found::{Found, Index, Kind, Spot, Where};
pub use label::{Cells, Format, Grid, Label, View};
use name::Name;
pub use question::{assemble, compare, compare_commands, cut, cut_level, demos, explain, listing, Findings, Question};
pub use refused::{Error, Refused};
pub use run::{End, File, Ran, Stopped, Word};

/// A point, in map units from -16384 to 16383.
#[repr(C)]
#[derive(Clone, Copy, Debug, Default, PartialEq, Eq, Hash)]
pub struct Point {
    /// To the east.
    pub x: i32,
    /// To the north.
    pub y: i32,
}

impl From<(i32, i32)> for Point {
    fn from((x, y): (i32, i32)) -> Point {
        Point { x, y }
    }
}

/// Where a point lies.
#[repr(C)]
#[derive(Clone, Copy, Debug, Default, PartialEq, Eq, Hash)]
pub struct Place {
    /// The number of the ssector.
    pub ssector: u16,
    /// The number of its sector.
    pub sector: u16,
}

impl Place {
    /// The place, or None of a point that was out of range.
    pub fn somewhere(self) -> Option<Place> {
        (self.ssector != u16::MAX).then_some(self)
    }
}

/// The whole points of the columns x0 to x1 and the rows y0 to y1, with both ends.
#[repr(C)]
#[derive(Clone, Copy, Debug, PartialEq, Eq, Hash)]
#[allow(missing_docs)]
pub struct Rect {
    pub x0: i32,
    pub y0: i32,
    pub x1: i32,
    pub y1: i32,
}

/// A sector, and how many of a rectangle's points lie in it.
#[repr(C)]
#[derive(Clone, Copy, Debug, Default, PartialEq, Eq, Hash)]
#[allow(missing_docs)]
pub struct Count {
    pub sector: u32,
    pub points: u32,
}

/// An entry's number, from 0, and its lump: `size` bytes of the file from `place` on.
#[repr(C)]
#[derive(Clone, Copy, Debug, Default, PartialEq, Eq, Hash)]
#[allow(missing_docs)]
pub struct Lump {
    pub entry: usize,
    pub place: usize,
    pub size: usize,
}

/// A fault or a note, and the record or lump at which it holds.
#[derive(Clone, Copy, Debug, PartialEq, Eq, Hash)]
#[allow(missing_docs)]
pub struct Finding {
    pub code: Code,
    pub index: u32,
}

impl Finding {
    /// What it says, in words.
    pub fn text(&self) -> &'static str {
        self.code.text()
    }
}

/// A block of BLOCKMAP, and its list's words as they stand, two bytes each, which [`Block::lines`] reads.
#[derive(Clone, Copy, Debug, PartialEq, Eq, Hash)]
#[allow(missing_docs)]
pub struct Block<'a> {
    pub column: u32,
    pub row: u32,
    bytes: &'a [u8],
    wide: bool,
}

impl<'a> Block<'a> {
    /// The numbers of the list. The first is mostly 0 and no linedef.
    pub fn lines(&self) -> impl Iterator<Item = i32> + 'a {
        let wide = self.wide;
        self.bytes.chunks_exact(2).map(move |word| {
            let number = u16::from_le_bytes([word[0], word[1]]);
            if wide {
                i32::from(number)
            } else {
                i32::from(number as i16)
            }
        })
    }
}

/// What one player does in one tic.
#[repr(C)]
#[derive(Clone, Copy, Debug, Default, PartialEq, Eq, Hash)]
#[allow(missing_docs)]
pub struct Command {
    pub turn: u16,
    pub forward: i8,
    pub side: i8,
    pub buttons: u8,
}

/// What a demo's header says, and how many commands and bytes after the end marker there are.
#[repr(C)]
#[derive(Clone, Copy, Debug, Default, PartialEq, Eq, Hash)]
#[allow(missing_docs)]
pub struct DemoInfo {
    pub commands: usize,
    pub after: usize,
    pub players: u32,
    pub version: u8,
    pub skill: u8,
    pub episode: u8,
    pub map: u8,
    pub deathmatch: u8,
    pub respawn: u8,
    pub fast: u8,
    pub no_monsters: u8,
    pub viewpoint: u8,
    pub player: [u8; 4],
}

/// A WAD file's bytes.
#[derive(Clone, Copy)]
pub struct Wad<'a> {
    bytes: &'a [u8],
}

impl<'a> Wad<'a> {
    /// The file of these bytes. They are read at each call.
    pub fn new(bytes: &'a [u8]) -> Wad<'a> {
        Wad { bytes }
    }

    /// The entry that many entries behind the last one of a name; behind a level's label 1 to 10 are its lumps.
    pub fn find(self, name: impl AsRef<[u8]>, after: usize) -> Result<Lump, Error> {
        self.entry(Name::of(name.as_ref()), after)
    }

    /// The bytes of that entry's lump.
    pub fn lump(self, name: impl AsRef<[u8]>, after: usize) -> Result<&'a [u8], Error> {
        self.find(name, after).map(|lump| self.bytes_of(lump))
    }

    /// The level of a name, of which the first eight bytes count and are kept; its indexes are read as signed. Each call
    /// looks it up, and answers where there is none.
    pub fn level(self, name: impl AsRef<[u8]>) -> Level<'a> {
        Level { wad: self, asked: Asked::Name(Name::of(name.as_ref())), wide: false }
    }

    /// The level whose label is an entry. Each call looks whether it is in Doom's format.
    pub fn level_at(self, entry: usize) -> Level<'a> {
        Level { wad: self, asked: Asked::Entry(entry), wide: false }
    }

    /// The levels of the file in the order of their entries, those whose name a later entry has, too.
    pub fn levels(self) -> Result<Vec<Label>, Error> {
        let mut told = vec![raw::Level::default(); 64];
        loop {
            let mut count = 0;
            // SAFETY: as in `entry`.
            let status =
                unsafe { raw::wadlook_levels(self.bytes.as_ptr(), self.bytes.len(), told.as_mut_ptr(), told.len(), &mut count) };
            Error::of(status, None)?;
            if count <= told.len() {
                return Ok(told[..count].iter().map(Label::of).collect());
            }
            told.resize(count, raw::Level::default());
        }
    }

    /// The lump of an entry.
    fn lump_at(self, entry: usize) -> Result<Lump, Error> {
        let mut lump = Lump::default();
        // SAFETY: as in `entry`.
        let status = unsafe { raw::wadlook_find_at(self.bytes.as_ptr(), self.bytes.len(), entry, &mut lump) };
        Error::of(status, Some(Asked::Entry(entry))).map(|()| lump)
    }

    fn entry(self, name: Name, after: usize) -> Result<Lump, Error> {
        let (asked, mut lump) = (name.bytes(), Lump::default());
        // SAFETY: each pointer and length are those of one slice that is borrowed for the call; `lump` is borrowed mutably.
        let status =
            unsafe { raw::wadlook_find(self.bytes.as_ptr(), self.bytes.len(), asked.as_ptr(), asked.len(), after, &mut lump) };
        Error::of(status, Some(Asked::Name(name))).map(|()| lump)
    }

    fn bytes_of(self, lump: Lump) -> &'a [u8] {
        &self.bytes[lump.place..lump.place + lump.size]
    }
}

impl fmt::Debug for Wad<'_> {
    fn fmt(&self, f: &mut fmt::Formatter<'_>) -> fmt::Result {
        f.debug_struct("Wad").field("len", &self.bytes.len()).finish_non_exhaustive()
    }
}

/// A level of a file. What asks for a sound one answers `Unsound` at another.
#[derive(Clone, Copy)]
pub struct Level<'a> {
    wad: Wad<'a>,
    asked: Asked,
    wide: bool,
}

/// Calls the form of a call for the name of a level, or that for an entry.
macro_rules! ask {
    ($level:expr, $by_name:ident, $by_entry:ident, $($more:expr),*) => {{
        let (level, wad) = ($level, $level.wad.bytes);
        // SAFETY: each pointer and length are those of one slice that is borrowed for the call; what is written to is borrowed
        // mutably.
        let status = unsafe {
            match &level.asked {
                Asked::Name(name) => {
                    let name = name.bytes();
                    raw::$by_name(wad.as_ptr(), wad.len(), name.as_ptr(), name.len(), level.wide, $($more),*)
                }
                Asked::Entry(entry) => raw::$by_entry(wad.as_ptr(), wad.len(), *entry, level.wide, $($more),*),
            }
        };
        level.ended(status)
    }};
}

impl<'a> Level<'a> {
    /// The same level with its indexes read as unsigned.
    pub fn wide(self) -> Level<'a> {
        Level { wide: true, ..self }
    }

    /// Writes the place of each point to the front of `places`, which may be longer. Takes no memory but what the audit takes.
    pub fn places_into(&self, points: &[Point], places: &mut [Place]) -> Result<(), Error> {
        ask!(self, wadlook_points, wadlook_points_at, points.as_ptr(), points.len(), places.as_mut_ptr(), places.len())
    }

    /// The place of each point, None where one is out of range.
    pub fn places(&self, points: &[Point]) -> Result<Vec<Option<Place>>, Error> {
        let mut places = vec![Place::default(); points.len()];
        self.places_into(points, &mut places)?;
        Ok(places.into_iter().map(Place::somewhere).collect())
    }

    /// The level audited once, for one point after another.
    pub fn prepare(&self) -> Result<Prepared<'a>, Error> {
        let mut sectors = vec![0; 32768]; // no sound level has more ssectors
        let mut count = 0;
        match ask!(self, wadlook_prepare, wadlook_prepare_at, sectors.as_mut_ptr(), sectors.len(), &mut count) {
            Err(error) if error.why() == Refused::NoRoom => return Err(error.but(Refused::Unsound)),
            ended => ended?,
        }
        sectors.truncate(count);
        Ok(Prepared { nodes: self.lump(7)?, sectors })
    }

    /// The place of one point, also of a level with faults: None where the walk down its nodes breaks off.
    pub fn under(&self, point: Point) -> Result<Option<Place>, Error> {
        let (wad, entry, mut place) = (self.wad.bytes, self.label()?, Place::default());
        // SAFETY: as in `ask`.
        let status = unsafe { raw::wadlook_under(wad.as_ptr(), wad.len(), entry, self.wide, point, &mut place) };
        self.ended(status).map(|()| place.somewhere())
    }

    /// The sectors that the cells of a view show.
    pub fn cells(&self, view: View) -> Result<Cells, Error> {
        let (wad, entry) = (self.wad.bytes, self.label()?);
        let (x0, y0, x1, y1) = view.frame.unwrap_or_default();
        let view = raw::View { x0, y0, x1, y1, cells: view.cells, framed: view.frame.is_some() };
        let mut sectors = Vec::new();
        loop {
            let mut grid = Grid::default();
            // SAFETY: as in `ask`.
            let status = unsafe {
                raw::wadlook_cells(wad.as_ptr(), wad.len(), entry, self.wide, &view, sectors.as_mut_ptr(), sectors.len(), &mut grid)
            };
            match self.ended(status) {
                Err(error) if error.why() == Refused::NoRoom => sectors.resize(grid.columns as usize * grid.rows as usize, -1),
                ended => return ended.map(|()| Cells { grid, sectors }),
            }
        }
    }

    /// How many points of a rectangle lie in each sector that has some, by sectors.
    pub fn census(&self, rect: Rect) -> Result<Vec<Count>, Error> {
        let mut counts = vec![Count::default(); 256];
        loop {
            let mut count = 0;
            ask!(self, wadlook_census, wadlook_census_at, &rect, counts.as_mut_ptr(), counts.len(), &mut count)?;
            let all = count <= counts.len();
            counts.resize(count, Count::default());
            if all {
                return Ok(counts);
            }
        }
    }

    /// The level's faults and then its notes, by code and then by index.
    pub fn findings(&self) -> Result<Vec<Finding>, Error> {
        let mut found = vec![raw::Finding { code: 0, index: 0 }; 64];
        loop {
            let mut totals = raw::Totals::default();
            ask!(self, wadlook_audit, wadlook_audit_at, found.as_mut_ptr(), found.len(), &mut totals)?;
            let count = totals.faults + totals.notes;
            if count <= found.len() {
                return Ok(found[..count].iter().map(told).collect());
            }
            found.resize(count, raw::Finding { code: 0, index: 0 });
        }
    }

    /// The entry of the label, of which no byte is asked: they may be outside the file.
    fn label(&self) -> Result<usize, Error> {
        match self.asked {
            Asked::Name(name) => match self.wad.entry(name, 0) {
                Err(error) if error.why() == Refused::LumpOutside => self.wad.entry(name, 1).map(|lump| lump.entry - 1),
                found => found.map(|lump| lump.entry),
            },
            Asked::Entry(entry) => Ok(entry),
        }
    }

    /// The lump that stands so many entries behind the label.
    fn entry(&self, after: usize) -> Result<Lump, Error> {
        match self.asked {
            Asked::Name(name) => self.wad.entry(name, after),
            Asked::Entry(entry) => self.wad.lump_at(entry.saturating_add(after)),
        }
    }

    /// Its bytes.
    fn lump(&self, after: usize) -> Result<&'a [u8], Error> {
        self.entry(after).map(|lump| self.wad.bytes_of(lump))
    }

    /// Refuses a level that was asked for by its entry and isn't in Doom's format.
    fn want_format(&self) -> Result<(), Error> {
        match self.asked {
            Asked::Name(_) => Ok(()),
            Asked::Entry(_) => self.under(Point::default()).map(drop),
        }
    }

    /// Whether REJECT refuses the sight from a sector to another; `Unknown` where it ends before their bit.
    pub fn is_blocked(&self, from: u32, to: u32) -> Result<bool, Error> {
        self.want_format()?;
        let reject = self.lump(9)?;
        let sectors = self.entry(8)?.size / 26;
        let mut blocked = 0;
        // SAFETY: as in `entry`.
        let status = unsafe { raw::wadlook_sight(reject.as_ptr(), reject.len(), sectors as u32, from, to, &mut blocked) };
        self.ended(status).map(|()| blocked == 1)
    }

    /// The block that holds a point, and its list.
    pub fn block(&self, point: Point) -> Result<Block<'a>, Error> {
        self.want_format()?;
        let lump = self.lump(10)?;
        let mut block = raw::Block::default();
        // SAFETY: as in `entry`.
        let status = unsafe { raw::wadlook_block(lump.as_ptr(), lump.len(), self.wide, point, &mut block) };
        self.ended(status)?;
        let bytes = &lump[2 * block.first..2 * (block.first + block.count)];
        Ok(Block { column: block.column, row: block.row, bytes, wide: self.wide })
    }

    /// A PWAD of the level alone. By an entry it is one of any format, with the lumps that belong to it there.
    pub fn extract(&self) -> Result<Vec<u8>, Error> {
        let (wad, mut out) = (self.wad.bytes, Vec::new());
        loop {
            let mut written = 0;
            // SAFETY: as in `ask`.
            let status = unsafe {
                match &self.asked {
                    Asked::Name(name) => {
                        let name = name.bytes();
                        raw::wadlook_extract(
                            wad.as_ptr(),
                            wad.len(),
                            name.as_ptr(),
                            name.len(),
                            out.as_mut_ptr(),
                            out.len(),
                            &mut written,
                        )
                    }
                    Asked::Entry(entry) => {
                        raw::wadlook_extract_at(wad.as_ptr(), wad.len(), *entry, out.as_mut_ptr(), out.len(), &mut written)
                    }
                }
            };
            match self.ended(status) {
                Err(error) if error.why() == Refused::NoRoom => out.resize(written, 0),
                ended => return ended.map(|()| out),
            }
        }
    }

    /// What the status of a call on this level says.
    fn ended(&self, status: u32) -> Result<(), Error> {
        Error::of(status, Some(self.asked))
    }
}

impl fmt::Debug for Level<'_> {
    fn fmt(&self, f: &mut fmt::Formatter<'_>) -> fmt::Result {
        let mut shown = f.debug_struct("Level");
        match &self.asked {
            Asked::Name(name) => shown.field("name", name),
            Asked::Entry(entry) => shown.field("entry", entry),
        };
        shown.field("wide", &self.wide).finish_non_exhaustive()
    }
}

fn told(finding: &raw::Finding) -> Finding {
    let code = Code::at(finding.code).unwrap_or(Code::Note(finding.code));
    Finding { code, index: finding.index }
}

/// A sound level that was audited once.
pub struct Prepared<'a> {
    nodes: &'a [u8],
    sectors: Vec<u16>,
}

impl Prepared<'_> {
    /// The place of a point, None where it is out of range. Takes no memory.
    pub fn place(&self, point: Point) -> Option<Place> {
        // SAFETY: as in `entry`.
        let place =
            unsafe { raw::wadlook_point(self.nodes.as_ptr(), self.nodes.len(), self.sectors.as_ptr(), self.sectors.len(), point) };
        place.somewhere()
    }
}

impl fmt::Debug for Prepared<'_> {
    fn fmt(&self, f: &mut fmt::Formatter<'_>) -> fmt::Result {
        f.debug_struct("Prepared").field("ssectors", &self.sectors.len()).finish_non_exhaustive()
    }
}

/// What a demo's bytes say, and its commands: of each tic one for each player that takes part.
pub fn read_demo(bytes: &[u8]) -> Result<(DemoInfo, Vec<Command>), Error> {
    let mut commands = vec![Command::default(); 4096];
    loop {
        let mut info = DemoInfo::default();
        // SAFETY: as in `entry`.
        let status = unsafe { raw::wadlook_demo(bytes.as_ptr(), bytes.len(), commands.as_mut_ptr(), commands.len(), &mut info) };
        Error::of(status, None)?;
        let all = info.commands <= commands.len();
        commands.resize(info.commands, Command::default());
        if all {
            return Ok((info, commands));
        }
    }
}
