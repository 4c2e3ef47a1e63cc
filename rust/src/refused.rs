//! Why a call was refused, and of which name.

use crate::{asked::Asked, texts};
use core::fmt;

macro_rules! refusals {
    ($($number:literal $name:ident,)*) => {
        /// Why a call was refused: a status of `include/wadlook.h`. As text it is the reason in words. Later versions may have more.
        #[derive(Clone, Copy, Debug, PartialEq, Eq, Hash)]
        #[non_exhaustive]
        #[repr(u32)]
        pub enum Refused {
            $(#[doc = concat!("Status ", $number, " of the header.")] $name = $number,)*
        }

        impl Refused {
            /// What a status says: None where it is 0.
            fn of(status: u32) -> Option<Refused> {
                match status {
                    0 => None,
                    $($number => Some(Refused::$name),)*
                    _ => Some(Refused::Other),
                }
            }
        }

        impl fmt::Display for Refused {
            fn fmt(&self, f: &mut fmt::Formatter<'_>) -> fmt::Result {
                f.write_str(texts::status(*self as u32).unwrap_or("another status than the header has"))
            }
        }
    };
}

refusals! {
    1 Unsound,
    2 Memory,
    3 NoRoom,
    4 Short,
    5 Magic,
    6 Count,
    7 Directory,
    8 NoName,
    9 LumpMissing,
    10 LumpOutside,
    11 TooLarge,
    12 DemoEmpty,
    13 DemoVersion,
    14 DemoShort,
    15 DemoNoPlayer,
    16 DemoNoMarker,
    17 NoRect,
    18 OutOfRange,
    19 NoBlockMap,
    20 NoBlock,
    21 OffsetOutside,
    22 NoEnd,
    23 NoSector,
    24 Unknown,
    28 NoLevel,
    29 OtherFormat,
    30 NoView,
    31 NothingToDraw,
    255 Other,
}

impl core::error::Error for Refused {}

/// A call that was refused. As text it is the name or the entry that was asked for, if any, and the reason:
/// `MAP99: no entry of this name`.
#[derive(Clone, Copy, Debug, PartialEq, Eq, Hash)]
pub struct Error {
    why: Refused,
    asked: Option<Asked>,
}

impl Error {
    /// Why the call was refused.
    pub fn why(self) -> Refused {
        self.why
    }

    /// The name of a level or of an entry that was asked for: its first eight bytes, up to a NUL. None where no name was asked for.
    pub fn name(&self) -> Option<&[u8]> {
        match &self.asked {
            Some(Asked::Name(name)) => Some(name.text()),
            _ => None,
        }
    }

    /// The entry of a label that was asked for. None where no entry was asked for.
    pub fn entry(&self) -> Option<usize> {
        match self.asked {
            Some(Asked::Entry(entry)) => Some(entry),
            _ => None,
        }
    }

    /// The same with another reason.
    pub(crate) fn but(self, why: Refused) -> Error {
        Error { why, ..self }
    }

    /// What a status says: `Ok` where it is 0.
    pub(crate) fn of(status: u32, asked: Option<Asked>) -> Result<(), Error> {
        Refused::of(status).map_or(Ok(()), |why| Err(Error { why, asked }))
    }
}

impl From<Error> for Refused {
    fn from(error: Error) -> Refused {
        error.why
    }
}

impl fmt::Display for Error {
    fn fmt(&self, f: &mut fmt::Formatter<'_>) -> fmt::Result {
        match self.asked {
            Some(asked) => write!(f, "{asked}: {}", self.why),
            None => self.why.fmt(f),
        }
    }
}

impl core::error::Error for Error {}
