//! The words of `wadlens` that make no files, over files that are held in memory.

use crate::{
    hidden::{shown, Labels},
    raw, run,
    run::text_of,
    Code, Codes, File, Found, Ran, Stopped, View, Word,
};
use alloc::{string::String, vec::Vec};
use core::fmt;

/// How files are judged, and what of them is told.
#[derive(Clone, Copy, Debug)]
pub struct Question<'a> {
    /// Files that each of the others stands on, as its game's: 63 at most.
    pub base: &'a [File<'a>],
    /// Whether warnings are looked for.
    pub map: bool,
    /// Whether indexes are read as numbers from 0 to 65535.
    pub wide: bool,
    /// Whether each warning is as grave as a fault.
    pub strict: bool,
    /// Notes and warnings that aren't told.
    pub ignore: Codes,
    /// Notes and warnings that are as grave as a fault.
    pub fail: Codes,
    /// How many of one code in one level are told at most; 0 for all.
    pub most: u64,
    /// At how many bytes an answer ends; 0 for none. The end is then [`End::Stopped`](crate::End::Stopped).
    pub limit: usize,
}

impl Default for Question<'_> {
    fn default() -> Self {
        Question { base: &[], map: false, wide: false, strict: false, ignore: Codes::NONE, fail: Codes::NONE, most: 0, limit: 0 }
    }
}

impl<'a> Question<'a> {
    /// What is found in the levels of some files, one after another. A file is judged when its first finding is asked for.
    pub fn check<'f>(&self, files: &'f [File<'f>]) -> Findings<'f>
    where
        'a: 'f,
    {
        Findings { question: *self, files: files.iter(), lines: Lines::default() }
    }

    /// An object of JSON for each level and for each file that is refused, as `wadlens survey` writes it.
    pub fn survey(&self, files: &[File<'_>]) -> Result<Vec<String>, Stopped> {
        self.run(Word::Survey, files).answered().map(lines_of)
    }

    /// A level as the text of an SVG. The files are one set: a later one hides the names of those before it. `view` is the part that
    /// is drawn in cells.
    pub fn picture(&self, name: impl AsRef<[u8]>, files: &[File<'_>], view: View) -> Result<String, Stopped> {
        self.run(Word::Picture { name: name.as_ref(), view }, files).answered().map(|svg| text_of(&svg))
    }

    /// What a word writes, byte for byte as `wadlens` does. Files of `base` count for reports alone: `check`, `survey` and `demos`.
    pub fn run(&self, word: Word<'_>, files: &[File<'_>]) -> Ran {
        let bases = if word.takes_bases() { self.base } else { &[] };
        let all: Vec<File<'_>> = bases.iter().chain(files).copied().collect();
        let (failing, game_ends) = self.fail.failing();
        let question = raw::Question {
            number: self.most,
            ignored: self.ignore.all(),
            failing,
            limit: self.limit,
            bases: bases.len(),
            wide: self.wide,
            map: self.map,
            strict: self.strict,
            game_ends,
            ..raw::Question::default()
        };
        run::run(word, question, &all)
    }
}

/// What a word writes without a question.
fn ran(word: Word<'_>, files: &[File<'_>]) -> Ran {
    Question::default().run(word, files)
}

/// An object of JSON for each demo of some files, as `wadlens demos --json` writes it.
pub fn demos(files: &[File<'_>]) -> Result<Vec<String>, Stopped> {
    ran(Word::Demos { json: true }, files).answered().map(lines_of)
}

/// A PWAD of the level whose label is an entry, in any format.
pub fn cut(file: File<'_>, entry: u64) -> Result<Vec<u8>, Stopped> {
    ran(Word::Cut(entry), &[file]).answered()
}

/// A PWAD of the level of a name, in any format.
pub fn cut_level(file: File<'_>, name: impl AsRef<[u8]>) -> Result<Vec<u8>, Stopped> {
    ran(Word::CutLevel(name.as_ref()), &[file]).answered()
}

/// Where two demo files first differ, in one line without its end; None where their headers and commands are the same.
pub fn compare(a: File<'_>, b: File<'_>) -> Result<Option<String>, Stopped> {
    compared(ran(Word::Compare { commands: false }, &[a, b]))
}

/// Where two demo files first differ, without their headers: in how many players there are, and in what their commands do.
pub fn compare_commands(a: File<'_>, b: File<'_>) -> Result<Option<String>, Stopped> {
    compared(ran(Word::Compare { commands: true }, &[a, b]))
}

fn compared(ran: Ran) -> Result<Option<String>, Stopped> {
    match ran.end {
        crate::End::Clean => Ok(None),
        crate::End::Faulty => Ok(Some(text_of(&ran.answer).trim_end().into())),
        _ => Err(ran.stopped()),
    }
}

/// What a demo file of any engine holds: a line of its header, lines of its options, a line for each command, and its totals.
pub fn listing(file: File<'_>) -> Result<String, Stopped> {
    ran(Word::Listing, &[file]).answered().map(|text| text_of(&text))
}

/// A demo from its listing, as `wadlook demo` prints it.
pub fn assemble(listing: &[u8]) -> Result<Vec<u8>, Stopped> {
    ran(Word::Assemble(listing), &[]).answered()
}

/// What a code means, what the game does then, and what helps; without a code the list of all.
pub fn explain(code: Option<Code>) -> Result<String, Stopped> {
    ran(Word::Explain(code), &[]).answered().map(|text| text_of(&text))
}

fn lines_of(answer: Vec<u8>) -> Vec<String> {
    text_of(&answer).lines().map(String::from).collect()
}

/// The lines of a file's answer that are left.
#[derive(Default)]
struct Lines {
    file: String,
    text: String,
    at: usize,
    labels: Labels,
}

impl Lines {
    /// What the next line tells that is a finding, or why something isn't judged.
    fn next_found(&mut self) -> Option<Found> {
        while let Some(line) = self.text[self.at..].lines().next() {
            self.at += line.len() + 1;
            if let Some(mut found) = Found::of(&self.file, line) {
                found.is_hidden = !found.level.is_empty() && self.labels.is_hidden(found.entry);
                return Some(found);
            }
        }
        None
    }
}

/// What is found in files, one after another. It ends behind an `Err`.
pub struct Findings<'f> {
    question: Question<'f>,
    files: core::slice::Iter<'f, File<'f>>,
    lines: Lines,
}

impl fmt::Debug for Findings<'_> {
    fn fmt(&self, f: &mut fmt::Formatter<'_>) -> fmt::Result {
        f.debug_struct("Findings").field("question", &self.question).field("files", &self.files).finish_non_exhaustive()
    }
}

impl Iterator for Findings<'_> {
    type Item = Result<Found, Stopped>;

    fn next(&mut self) -> Option<Self::Item> {
        loop {
            if let Some(found) = self.lines.next_found() {
                return Some(Ok(found));
            }
            let file = *self.files.next()?;
            match self.question.run(Word::Check { json: true }, &[file]).answered() {
                Ok(answer) => {
                    self.lines = Lines { file: shown(file.path), text: text_of(&answer), at: 0, labels: Labels::of(file.bytes) };
                }
                Err(stopped) => {
                    self.files = [].iter();
                    return Some(Err(stopped));
                }
            }
        }
    }
}

impl core::iter::FusedIterator for Findings<'_> {}
