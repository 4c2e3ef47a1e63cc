//! `words COMMAND [OPTION]... FILE...`: answers as the program `wadlens` does, by `Question::run` over files that it reads first. What it
//! takes are the words that make no files; it tells of no mistake in words. `found [OPTION]... FILE...` prints what `Question::check` finds. Its
//! status is 8 where a file can't be read, and 9 at wrong words.

use std::io::{self, BufWriter, Read, Write};
use std::process::ExitCode;
use std::{env, fs};
use wadlook::{Code, Codes, File, Question, View, Word};

type Told<T> = Result<T, Box<dyn std::error::Error>>;

/// What the words ask for.
#[derive(Default)]
struct Asked {
    command: String,
    json: bool,
    quiet: bool,
    commands: bool,
    map: bool,
    wide: bool,
    strict: bool,
    ignore: Vec<String>,
    fail: Vec<String>,
    most: u64,
    entry: u64,
    level: Option<String>,
    view: View,
    bases: Vec<String>,
    rest: Vec<String>,
}

impl Asked {
    fn of(mut words: impl Iterator<Item = String>) -> Told<Asked> {
        let command = words.next().ok_or("no command")?;
        let mut asked = Asked { most: if command == "found" { 0 } else { 20 }, command, ..Asked::default() };
        while let Some(word) = words.next() {
            if word == "--" {
                asked.rest.extend(words.by_ref());
            } else if word == "-" || !word.starts_with('-') {
                asked.rest.push(word);
            } else if !asked.take_flag(&word) {
                let (name, value) = match word.split_once('=') {
                    Some((name, value)) => (name.to_string(), value.to_string()),
                    None => (word, words.next().ok_or("an option lacks its value")?),
                };
                asked.take_option(&name, value)?;
            }
        }
        Ok(asked)
    }

    /// Whether the word is a flag.
    fn take_flag(&mut self, word: &str) -> bool {
        let flag = match word {
            "--json" => &mut self.json,
            "--quiet" => &mut self.quiet,
            "--commands" => &mut self.commands,
            "--map" => &mut self.map,
            "--wide" => &mut self.wide,
            "--strict" => &mut self.strict,
            _ => return false,
        };
        *flag = true;
        true
    }

    fn take_option(&mut self, name: &str, value: String) -> Told<()> {
        match name {
            "--max" => self.most = value.parse()?,
            "--entry" => self.entry = value.parse()?,
            "--level" => self.level = Some(value),
            "--cells" => self.view.cells = value.parse()?,
            "--frame" => self.view.frame = Some(frame_of(&value)?),
            "--ignore" => self.ignore.push(value),
            "--fail" => self.fail.push(value),
            "--base" => self.bases.push(value),
            _ => return Err("no such option".into()),
        }
        Ok(())
    }

    /// How many of the words that are left stand before the files: a level's name, or a code.
    fn named(&self) -> usize {
        match self.command.as_str() {
            "picture" => 1,
            "explain" => self.rest.len(),
            _ => 0,
        }
    }

    fn word<'a>(&'a self, input: &'a [u8]) -> Told<Word<'a>> {
        Ok(match self.command.as_str() {
            "check" | "found" => Word::Check { json: self.json },
            "survey" => Word::Survey,
            "demos" => Word::Demos { json: self.json },
            "picture" => Word::Picture { name: self.rest.first().ok_or("no name")?.as_bytes(), view: self.view },
            "cut" => self.level.as_ref().map_or(Word::Cut(self.entry), |name| Word::CutLevel(name.as_bytes())),
            "compare" => Word::Compare { commands: self.commands },
            "listing" => Word::Listing,
            "assemble" => Word::Assemble(input),
            "explain" => match self.rest.first() {
                Some(code) => Word::Explain(Some(Code::named(code).ok_or("no such code")?)),
                None => Word::Explain(None),
            },
            _ => return Err("no such command".into()),
        })
    }
}

fn frame_of(text: &str) -> Told<(i16, i16, i16, i16)> {
    let bounds = text.split(',').map(str::parse).collect::<Result<Vec<i16>, _>>()?;
    let [x0, y0, x1, y1] = bounds[..] else { return Err("no frame".into()) };
    Ok((x0, y0, x1, y1))
}

fn codes_of(words: &[String]) -> Told<Codes> {
    Ok(Codes::named(&words.join(",")).ok_or("no such codes")?)
}

/// The bytes of each file, as far as the library looks at them.
fn read_all(paths: &[String]) -> io::Result<Vec<Vec<u8>>> {
    const MOST: u64 = 268_435_457;
    let read = |path: &String| {
        let mut bytes = Vec::new();
        fs::File::open(path)?.take(MOST).read_to_end(&mut bytes)?;
        Ok(bytes)
    };
    paths.iter().map(read).collect()
}

fn files_of<'a>(paths: &'a [String], bytes: &'a [Vec<u8>]) -> Vec<File<'a>> {
    paths.iter().zip(bytes).map(|(path, bytes)| File::new(path, bytes)).collect()
}

fn answer(asked: &Asked) -> Told<ExitCode> {
    let paths = &asked.rest[asked.named()..];
    let (Ok(bytes), Ok(base_bytes)) = (read_all(paths), read_all(&asked.bases)) else { return Ok(ExitCode::from(8)) };
    let mut input = Vec::new();
    if asked.command == "assemble" {
        io::stdin().read_to_end(&mut input)?;
    }
    let (files, base) = (files_of(paths, &bytes), files_of(&asked.bases, &base_bytes));
    let question = Question {
        base: &base,
        map: asked.map,
        wide: asked.wide,
        strict: asked.strict,
        ignore: codes_of(&asked.ignore)?,
        fail: codes_of(&asked.fail)?,
        most: asked.most,
        ..Question::default()
    };
    let mut out = BufWriter::new(io::stdout());
    if asked.command == "found" {
        for found in question.check(&files) {
            match found {
                Ok(found) => writeln!(out, "{found}")?,
                Err(stopped) => writeln!(out, "{stopped}")?,
            }
        }
        return Ok(ExitCode::SUCCESS);
    }
    let ran = question.run(asked.word(&input)?, &files);
    if !asked.quiet {
        out.write_all(&ran.answer)?;
    }
    io::stderr().write_all(&ran.messages)?;
    Ok(ExitCode::from(ran.end as u8))
}

fn main() -> ExitCode {
    match Asked::of(env::args().skip(1)).and_then(|asked| answer(&asked)) {
        Ok(status) => status,
        Err(why) => {
            eprintln!("words: {why}");
            ExitCode::from(9)
        }
    }
}
