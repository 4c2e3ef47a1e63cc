//! Codes, and sets of them.

use crate::{raw, texts};
use alloc::vec::Vec;
use core::fmt;

/// What can be found at a level. As text it is `F1`, `N1` or `W1`. Later versions may tell of more.
#[derive(Clone, Copy, Debug, PartialEq, Eq, Hash)]
#[non_exhaustive]
pub enum Code {
    /// F1 to F18: the level isn't sound.
    Fault(u32),
    /// N1 to N12.
    Note(u32),
    /// W1 to W25, which [`Question`](crate::Question) asks for with `map`.
    Warning(u32),
}

const FAULTS: u32 = 18;
const NOTES: u32 = 12;

impl Code {
    /// The code of a rank in a report, from 0 on.
    pub fn at(rank: u32) -> Option<Code> {
        texts::code_name(rank)?;
        Some(match rank {
            0..FAULTS => Code::Fault(rank + 1),
            _ if rank < FAULTS + NOTES => Code::Note(rank - FAULTS + 1),
            _ => Code::Warning(rank - FAULTS - NOTES + 1),
        })
    }

    /// The code that a word is, in capital or small letters: `F3`.
    pub fn named(word: &str) -> Option<Code> {
        (0..).map_while(Code::at).find(|code| code.name().eq_ignore_ascii_case(word))
    }

    /// Its rank in a report, from 0 for F1 on.
    pub fn rank(self) -> u32 {
        match self {
            Code::Fault(number) => number.wrapping_sub(1),
            Code::Note(number) => FAULTS + number.wrapping_sub(1),
            Code::Warning(number) => FAULTS + NOTES + number.wrapping_sub(1),
        }
    }

    /// What it says, in few words.
    pub fn text(self) -> &'static str {
        // A number of no code has none.
        if Code::at(self.rank()) != Some(self) {
            return "";
        }
        texts::code(self.rank()).unwrap_or_default()
    }

    fn name(self) -> &'static str {
        texts::code_name(self.rank()).unwrap_or_default()
    }
}

impl fmt::Display for Code {
    fn fmt(&self, f: &mut fmt::Formatter<'_>) -> fmt::Result {
        match self {
            Code::Fault(number) => write!(f, "F{number}"),
            Code::Note(number) => write!(f, "N{number}"),
            Code::Warning(number) => write!(f, "W{number}"),
        }
    }
}

/// A set of codes.
#[derive(Clone, Copy, Debug, Default, PartialEq, Eq, Hash)]
pub struct Codes {
    bits: u64,
    // Whether `game` is named.
    game: bool,
}

/// The codes that words name, as `wadlook_codes` reads them.
fn bits_of(words: &str) -> Option<u64> {
    let text: Vec<u8> = words.bytes().chain([0]).collect();
    let mut bits = 0;
    // SAFETY: the text ends with a NUL, and `bits` is borrowed mutably.
    unsafe { raw::wadlook_codes(text.as_ptr().cast(), &mut bits) }.then_some(bits)
}

impl Codes {
    /// No codes.
    pub const NONE: Codes = Codes { bits: 0, game: false };

    /// The notes and warnings that words name, with commas between them: codes, ranges of one letter that rise, and the groups
    /// `game`, `notes` and `warnings`, as in `N2,W7-W8,game`. None where a word names none.
    pub fn named(words: &str) -> Option<Codes> {
        if words.is_empty() {
            return Some(Codes::NONE);
        }
        words.split(',').try_fold(Codes::NONE, |codes, word| match word.trim() {
            "" => None,
            word if word.eq_ignore_ascii_case("game") => Some(Codes { game: true, ..codes }),
            word => bits_of(word).map(|bits| Codes { bits: codes.bits | bits, ..codes }),
        })
    }

    /// These and another one.
    pub fn with(self, code: Code) -> Codes {
        Codes { bits: self.bits | 1u64.checked_shl(code.rank()).unwrap_or(0), ..self }
    }

    /// Whether a code is among them.
    pub fn has(self, code: Code) -> bool {
        self.all().checked_shr(code.rank()).unwrap_or(0) & 1 == 1
    }

    /// The bits of all, also of those that `game` names.
    pub(crate) fn all(self) -> u64 {
        self.bits | if self.game { bits_of("game").unwrap_or(0) } else { 0 }
    }

    /// The bits of those that are named otherwise, and whether `game` is named: where they are as grave as a fault, it is judged of each
    /// finding whether the game ends at it.
    pub(crate) fn failing(self) -> (u64, bool) {
        (self.bits, self.game)
    }
}
