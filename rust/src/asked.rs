//! What a call was asked of.

use crate::name::Name;
use core::fmt;

/// A name, or the number of an entry.
#[derive(Clone, Copy, Debug, PartialEq, Eq, Hash)]
pub(crate) enum Asked {
    Name(Name),
    Entry(usize),
}

impl fmt::Display for Asked {
    fn fmt(&self, f: &mut fmt::Formatter<'_>) -> fmt::Result {
        match self {
            Asked::Name(name) => name.fmt(f),
            Asked::Entry(entry) => write!(f, "entry {entry}"),
        }
    }
}
