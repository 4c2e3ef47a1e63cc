//! One run of a word of `wadlens`, over files that are held in memory.

use crate::{raw, texts, Code, View};
use alloc::{string::String, vec, vec::Vec};
use core::fmt;

/// A file: the path by which answers name it, and its bytes.
#[derive(Clone, Copy)]
pub struct File<'a> {
    pub(crate) path: &'a [u8],
    pub(crate) bytes: &'a [u8],
}

impl<'a> File<'a> {
    /// The file of a path and of bytes.
    pub fn new<P: AsRef<[u8]> + ?Sized>(path: &'a P, bytes: &'a [u8]) -> File<'a> {
        File { path: path.as_ref(), bytes }
    }
}

impl fmt::Debug for File<'_> {
    fn fmt(&self, f: &mut fmt::Formatter<'_>) -> fmt::Result {
        write!(f, "File(\"{}\", {} bytes)", self.path.escape_ascii(), self.bytes.len())
    }
}

/// How a run ended: the statuses of `wadlens`, and two more. As text it is what the library says of it.
#[derive(Clone, Copy, Debug, PartialEq, Eq, Hash)]
#[non_exhaustive]
#[repr(u32)]
pub enum End {
    /// Nothing is wrong.
    Clean = 0,
    /// There is a fault, or what is as grave; two demos differ.
    Faulty = 1,
    /// A file is refused, or a level isn't judged.
    Refused = 2,
    /// A growth was refused.
    NoMemory = 3,
    /// The limit was reached.
    Stopped = 4,
    /// The question has no meaning, or isn't asked of so many files.
    Mistaken = 5,
}

impl End {
    fn of(number: u32) -> End {
        match number {
            0 => End::Clean,
            1 => End::Faulty,
            2 => End::Refused,
            3 => End::NoMemory,
            4 => End::Stopped,
            _ => End::Mistaken,
        }
    }
}

impl fmt::Display for End {
    fn fmt(&self, f: &mut fmt::Formatter<'_>) -> fmt::Result {
        f.write_str(texts::end(*self as u32).unwrap_or_default())
    }
}

/// A word of `wadlens` that makes no files, with what it alone takes.
#[derive(Clone, Copy, Debug)]
#[non_exhaustive]
pub enum Word<'a> {
    /// `check`, in lines or in objects of JSON.
    Check {
        /// Whether it writes objects.
        json: bool,
    },
    /// `survey`
    Survey,
    /// `demos`, in lines or in objects of JSON.
    Demos {
        /// Whether it writes objects.
        json: bool,
    },
    /// `picture` of the level of a name, of a set of 1 to 64 files.
    Picture {
        /// The level's name.
        name: &'a [u8],
        /// The part that is drawn in cells.
        view: View,
    },
    /// `cut --entry`, of one file.
    Cut(u64),
    /// `cut --level`, of one file.
    CutLevel(&'a [u8]),
    /// `compare`, of two files.
    Compare {
        /// Whether the commands are compared alone.
        commands: bool,
    },
    /// `listing`, of one file.
    Listing,
    /// `assemble`, of a listing and of no file.
    Assemble(&'a [u8]),
    /// `explain` of one code or of all, and of no file.
    Explain(Option<Code>),
}

impl<'a> Word<'a> {
    /// Its number in `include/wadlook.h`.
    fn number(self) -> u32 {
        match self {
            Word::Check { json } => 5 * u32::from(json),
            Word::Survey => 1,
            Word::Demos { json } => 2 + u32::from(json),
            Word::Cut(_) => 4,
            Word::CutLevel(_) => 6,
            Word::Picture { .. } => 7,
            Word::Compare { commands } => 8 + 5 * u32::from(commands),
            Word::Assemble(_) => 9,
            Word::Explain(code) => 11 - u32::from(code.is_some()),
            Word::Listing => 12,
        }
    }

    /// Whether it takes base files.
    pub(crate) fn takes_bases(self) -> bool {
        matches!(self, Word::Check { .. } | Word::Survey | Word::Demos { .. })
    }

    fn name(self) -> &'a [u8] {
        match self {
            Word::CutLevel(name) | Word::Picture { name, .. } => name,
            _ => &[],
        }
    }

    /// The same question with what the word takes.
    pub(crate) fn asked(self, question: raw::Question) -> raw::Question {
        let name = self.name();
        let asked = raw::Question { word: self.number(), name: name.as_ptr(), name_len: name.len(), ..question };
        match self {
            Word::Picture { view, .. } => viewed(asked, view),
            Word::Cut(entry) => raw::Question { number: entry, ..asked },
            Word::Explain(Some(code)) => raw::Question { number: code.rank().into(), ..asked },
            _ => asked,
        }
    }

    fn input(self) -> &'a [u8] {
        match self {
            Word::Assemble(listing) => listing,
            _ => &[],
        }
    }
}

fn viewed(asked: raw::Question, view: View) -> raw::Question {
    let (x0, y0, x1, y1) = view.frame.unwrap_or_default();
    // Of the library 0 asks for 512.
    let cells = if view.cells == 0 { u32::MAX } else { view.cells };
    raw::Question { cells, x0, y0, x1, y1, framed: view.frame.is_some(), ..asked }
}

/// What a run wrote, and how it ended.
#[derive(Clone, Debug, PartialEq, Eq)]
pub struct Ran {
    /// What `wadlens` writes to standard output.
    pub answer: Vec<u8>,
    /// What it writes to standard error.
    pub messages: Vec<u8>,
    /// How it ended.
    pub end: End,
}

impl Ran {
    /// The answer, unless the run only says why there is none.
    pub(crate) fn answered(self) -> Result<Vec<u8>, Stopped> {
        let failed = matches!(self.end, End::NoMemory | End::Stopped | End::Mistaken);
        if failed || (self.end != End::Clean && self.answer.is_empty() && !self.messages.is_empty()) {
            return Err(self.stopped());
        }
        Ok(self.answer)
    }

    pub(crate) fn stopped(self) -> Stopped {
        Stopped { end: self.end, messages: text_of(&self.messages) }
    }
}

/// A run that gave no answer. As text it is what `wadlens` tells.
#[derive(Clone, Debug, PartialEq, Eq)]
pub struct Stopped {
    /// How it ended.
    pub end: End,
    messages: String,
}

impl fmt::Display for Stopped {
    fn fmt(&self, f: &mut fmt::Formatter<'_>) -> fmt::Result {
        match self.end {
            End::NoMemory | End::Stopped | End::Mistaken => self.end.fmt(f),
            _ => f.write_str(self.messages.trim_end()),
        }
    }
}

impl core::error::Error for Stopped {}

pub(crate) fn text_of(bytes: &[u8]) -> String {
    String::from_utf8_lossy(bytes).into_owned()
}

/// What the library answers: asked again with the room that is enough, where there was too little.
pub(crate) fn run(word: Word<'_>, question: raw::Question, files: &[File<'_>]) -> Ran {
    let (question, input) = (word.asked(question), word.input());
    let files: Vec<raw::File> = files
        .iter()
        .map(|file| raw::File {
            path: file.path.as_ptr(),
            path_len: file.path.len(),
            bytes: file.bytes.as_ptr(),
            bytes_len: file.bytes.len(),
        })
        .collect();
    let (mut answer, mut messages) = (vec![0; 1 << 20], vec![0; 1 << 12]);
    loop {
        let mut told = raw::Told::default();
        // SAFETY: the question's name, the files and the input are borrowed for the call, and so are the vectors, mutably.
        let end = unsafe {
            raw::wadlook_run(
                &question,
                files.as_ptr(),
                files.len(),
                input.as_ptr(),
                input.len(),
                answer.as_mut_ptr(),
                answer.len(),
                messages.as_mut_ptr(),
                messages.len(),
                &mut told,
            )
        };
        let whole = told.answer <= answer.len() && told.messages <= messages.len();
        answer.resize(told.answer, 0);
        messages.resize(told.messages, 0);
        if whole {
            return Ran { answer, messages, end: End::of(end) };
        }
    }
}
