//! What is found in files, as `wadlens check` tells it.

use crate::{line::Line, texts, Code};
use alloc::{format, string::String};
use core::fmt;

/// What something is found at: a number of the header's `wadlook_kind`. As text it is its name.
#[derive(Clone, Copy, Debug, PartialEq, Eq, Hash)]
pub struct Kind(pub u32);

impl Kind {
    /// A level as a whole.
    pub const LEVEL: Kind = Kind(10);
    /// A file that is refused.
    pub const FILE: Kind = Kind(11);

    fn named(name: &str) -> Kind {
        (0..)
            .map_while(|kind| texts::kind(kind).map(|text| (kind, text)))
            .find(|it| it.1 == name)
            .map_or(Kind::LEVEL, |it| Kind(it.0))
    }
}

impl fmt::Display for Kind {
    fn fmt(&self, f: &mut fmt::Formatter<'_>) -> fmt::Result {
        f.write_str(texts::kind(self.0).unwrap_or("other"))
    }
}

/// The number of what something is found at. Later versions may tell of more.
#[derive(Clone, Copy, Debug, PartialEq, Eq, Hash)]
#[non_exhaustive]
pub enum Index {
    /// A level has none, and neither has a file.
    Whole,
    /// That of a record.
    Record(u64),
    /// The column and the row of a block.
    Block(u64, u64),
}

/// A place on the map.
#[derive(Clone, Copy, Debug, PartialEq, Eq, Hash)]
#[allow(missing_docs)]
pub struct Spot {
    pub x: i32,
    pub y: i32,
}

impl fmt::Display for Spot {
    fn fmt(&self, f: &mut fmt::Formatter<'_>) -> fmt::Result {
        write!(f, "({}, {})", self.x, self.y)
    }
}

/// Where something is on the map. As text it is what a line ends with. Later versions may tell of more.
#[derive(Clone, Copy, Debug, PartialEq, Eq, Hash)]
#[non_exhaustive]
pub enum Where {
    /// No place is told.
    Nowhere,
    /// At a place.
    At(Spot),
    /// From one place to another.
    Between(Spot, Spot),
    /// At a linedef.
    OfLinedef(u64),
}

impl fmt::Display for Where {
    fn fmt(&self, f: &mut fmt::Formatter<'_>) -> fmt::Result {
        match self {
            Where::Nowhere => Ok(()),
            Where::At(spot) => write!(f, ", at {spot}"),
            Where::Between(from, to) => write!(f, ", from {from} to {to}"),
            Where::OfLinedef(linedef) => write!(f, ", of linedef {linedef}"),
        }
    }
}

/// A finding or a warning, at a level of a file. As text it is the line that `wadlens check` prints of it.
#[derive(Clone, Debug, PartialEq, Eq, Hash)]
#[non_exhaustive]
pub struct Found {
    /// The file's path, as lines show it.
    pub file: String,
    /// The name of the level's label; empty of a file that is refused.
    pub level: String,
    /// The label's entry.
    pub entry: usize,
    /// Whether the label's name, looked up, gives another entry.
    pub is_hidden: bool,
    /// None where the message alone says what is wrong: a file is refused, a level isn't judged, its ten lumps stand in another
    /// order, or its nodes weren't built.
    pub code: Option<Code>,
    /// What it is found at.
    pub kind: Kind,
    /// The number of that.
    pub index: Index,
    /// What is wrong, in words.
    pub message: String,
    /// Where it is.
    pub place: Where,
}

impl Found {
    /// What a line of JSON tells, if it says what is wrong.
    pub(crate) fn of(file: &str, line: &str) -> Option<Found> {
        let mut found = Found {
            file: file.into(),
            level: String::new(),
            entry: 0,
            is_hidden: false,
            code: None,
            kind: Kind::LEVEL,
            index: Index::Whole,
            message: String::new(),
            place: Where::Nowhere,
        };
        let (mut format, mut decides, mut broken) = (None, String::new(), None);
        Line::of(line).object(|name, line| match name {
            "level" if line.is_at('"') => found.level = line.string(),
            "entry" => found.entry = line.number() as usize,
            "code" => found.code = Code::named(&line.string()),
            "kind" => found.kind = Kind::named(&line.string()),
            "index" if line.is_at('[') => {
                let (column, row) = line.pair();
                found.index = Index::Block(column as u64, row as u64);
            }
            "index" => found.index = Index::Record(line.number() as u64),
            "message" => found.message = line.string(),
            "refused" => (found.kind, found.message) = (Kind::FILE, line.string()),
            "place" => found.place = place(line),
            "order" => found.message = unordered(line),
            "format" => format = Some(line.string()),
            "lump" | "tag" => decides = line.string(),
            "broken" => broken = Some(line.string()),
            _ => line.pass(),
        });
        if let Some(format) = format {
            found.message = unjudged(&format, &decides, broken.as_deref().unwrap_or("not read"));
        }
        (!found.message.is_empty()).then_some(found)
    }
}

fn unjudged(format: &str, decides: &str, why: &str) -> String {
    match format {
        "incomplete" => format!("incomplete: no {decides} where it belongs"),
        "outside" => format!("outside: {decides}"),
        "extended" => format!("extended nodes {decides}: {why}"),
        _ => format!("{format}: {why}"),
    }
}

/// The words for the names of two lumps, the second of which belongs before the first.
fn unordered(line: &mut Line<'_>) -> String {
    line.take('[');
    let first = line.string();
    line.take(',');
    let second = line.string();
    line.take(']');
    format!("lumps in another order: {first} before {second}")
}

fn spot(line: &mut Line<'_>) -> Spot {
    let (x, y) = line.pair();
    Spot { x: x as i32, y: y as i32 }
}

fn place(line: &mut Line<'_>) -> Where {
    let mut place = Where::Nowhere;
    line.object(|name, line| {
        place = match (name, place) {
            ("linedef", _) => Where::OfLinedef(line.number() as u64),
            ("to", Where::At(from)) => Where::Between(from, spot(line)),
            _ => Where::At(spot(line)),
        }
    });
    place
}

impl fmt::Display for Found {
    fn fmt(&self, f: &mut fmt::Formatter<'_>) -> fmt::Result {
        if self.level.is_empty() && self.code.is_none() {
            return write!(f, "wadlens: {}: {}", self.file, self.message);
        }
        write!(f, "{}: {}", self.file, self.level)?;
        if self.is_hidden {
            write!(f, " (entry {})", self.entry)?;
        }
        let Some(code) = self.code else { return write!(f, ": {}", self.message) };
        write!(f, ": {code} {}", self.kind)?;
        match self.index {
            Index::Whole => Ok(()),
            Index::Record(index) => write!(f, " {index}"),
            Index::Block(column, row) => write!(f, " ({column}, {row})"),
        }?;
        write!(f, ": {}{}", self.message, self.place)
    }
}
