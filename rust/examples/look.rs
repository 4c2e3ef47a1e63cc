//! `look CMD [--wide] NAME FILE`: answers as the program `wadlook` does of one file, by the calls of this crate. CMD is
//! audit, points, census, sight, blocks, demo or extract; `point` answers as points does, by a call for each line; `find`
//! lists the entry of a name and those behind it: number, place and size.

use std::io::{self, BufWriter, Read, Write};
use std::process::ExitCode;
use std::{env, fs};
use wadlook::{read_demo, Code, Error, Level, Place, Point, Rect, Refused, Wad};

/// Why a run ends, in the program's words.
struct Stop(String);

impl From<io::Error> for Stop {
    fn from(why: io::Error) -> Stop {
        Stop(why.to_string())
    }
}

impl From<Refused> for Stop {
    fn from(why: Refused) -> Stop {
        let words = match why {
            Refused::Unsound => "audit",
            Refused::Short => "file 1: 1 short",
            Refused::Magic => "file 1: 2 magic",
            Refused::Count => "file 1: 3 count",
            Refused::Directory => "file 1: 4 directory",
            Refused::NoName => "8 no label",
            Refused::TooLarge => "7 too large",
            Refused::DemoEmpty => "demo 1",
            Refused::DemoShort => "demo 3",
            Refused::DemoNoPlayer => "demo 4",
            Refused::NoBlockMap => "no blockmap",
            _ => return Stop(why.to_string()),
        };
        Stop(words.into())
    }
}

impl From<Error> for Stop {
    fn from(error: Error) -> Stop {
        error.why().into()
    }
}

type Told = Result<(), Stop>;

// ---- Lines ----------------------------------------------------------------------------------------------------------

/// The numbers of each line, cut to 32 bits; None of another form than so many, with single spaces, in at most 64 bytes.
type Lines<const N: usize> = Vec<Option<[i32; N]>>;

fn number(text: &[u8]) -> Option<i32> {
    let digits = text.strip_prefix(b"-").unwrap_or(text);
    if digits.is_empty() || !digits.iter().all(u8::is_ascii_digit) {
        return None;
    }
    let size = digits.iter().fold(0, |size: i32, digit| size.saturating_mul(10).saturating_add(i32::from(digit - b'0')));
    Some(if digits.len() < text.len() { -size } else { size })
}

fn numbers<const N: usize>(line: &[u8]) -> Option<[i32; N]> {
    let line = line.strip_suffix(b"\r").unwrap_or(line);
    if line.len() > 64 {
        return None;
    }
    let mut found = [0; N];
    let mut texts = line.split(|&byte| byte == b' ');
    for each in &mut found {
        *each = number(texts.next()?)?;
    }
    texts.next().is_none().then_some(found)
}

fn read_lines<const N: usize>() -> io::Result<Lines<N>> {
    let mut input = Vec::new();
    io::stdin().read_to_end(&mut input)?;
    Ok(input.split_inclusive(|&byte| byte == b'\n').map(|line| numbers(line.strip_suffix(b"\n").unwrap_or(line))).collect())
}

/// Writes the answer to each line, which is None where its numbers are out of range.
fn each_line<const N: usize>(
    out: &mut impl Write,
    lines: &Lines<N>,
    mut answer: impl FnMut([i32; N]) -> Result<Option<String>, Stop>,
) -> Told {
    for line in lines {
        match line {
            None => writeln!(out, "refused: form")?,
            Some(numbers) => match answer(*numbers)? {
                None => writeln!(out, "refused: range")?,
                Some(told) => writeln!(out, "{told}")?,
            },
        }
    }
    Ok(())
}

// ---- Commands -------------------------------------------------------------------------------------------------------

fn audit(level: Level<'_>, out: &mut impl Write) -> Result<bool, Stop> {
    let findings = level.findings()?;
    let faults = findings.iter().filter(|each| matches!(each.code, Code::Fault(_))).count();
    for each in &findings {
        writeln!(out, "{} {} {}", each.code, each.index, each.text())?;
    }
    writeln!(out, "faults {faults} notes {}", findings.len() - faults)?;
    Ok(faults > 0)
}

fn placed(x: i32, y: i32, place: Option<Place>) -> Option<String> {
    place.map(|place| format!("{x} {y} sector {} ssector {}", place.sector, place.ssector))
}

fn points(level: Level<'_>, out: &mut impl Write) -> Told {
    let lines = read_lines()?;
    let points: Vec<Point> = lines.iter().flatten().map(|&[x, y]| Point { x, y }).collect();
    let mut places = level.places(&points)?.into_iter();
    each_line(out, &lines, |[x, y]| Ok(placed(x, y, places.next().flatten())))
}

fn point(level: Level<'_>, out: &mut impl Write) -> Told {
    let prepared = level.prepare()?;
    each_line(out, &read_lines()?, |[x, y]| Ok(placed(x, y, prepared.place(Point { x, y }))))
}

fn census(level: Level<'_>, out: &mut impl Write) -> Told {
    level.census(Rect { x0: 0, y0: 0, x1: 0, y1: 0 })?; // a level that isn't sound is refused before any line
    each_line(out, &read_lines()?, |[x0, y0, x1, y1]| {
        let counts = match level.census(Rect { x0, y0, x1, y1 }).map_err(Error::why) {
            Err(Refused::NoRect) => return Ok(None),
            counts => counts?,
        };
        let points: u32 = counts.iter().map(|each| each.points).sum();
        let each: String = counts.iter().map(|each| format!(" {}:{}", each.sector, each.points)).collect();
        Ok(Some(format!("{x0} {y0} {x1} {y1} points {points}{each}")))
    })
}

fn sight(level: Level<'_>, out: &mut impl Write) -> Told {
    each_line(out, &read_lines()?, |[a, b]| {
        let told = match level.is_blocked(a as u32, b as u32).map_err(Error::why) {
            Err(Refused::NoSector) => return Ok(None),
            Err(Refused::Unknown) => "unknown",
            blocked => {
                if blocked? {
                    "blocked"
                } else {
                    "clear"
                }
            }
        };
        Ok(Some(format!("{a} {b} {told}")))
    })
}

fn blocks(wad: Wad<'_>, name: &str, level: Level<'_>, out: &mut impl Write) -> Told {
    if let Err(Refused::NoBlockMap) = level.block(Point::default()).map_err(Error::why) {
        return Err(Refused::NoBlockMap.into());
    }
    let lump = wad.lump(name, 10)?;
    let column = |z: i32, at: usize| (z - i32::from(i16::from_le_bytes([lump[at], lump[at + 1]]))) / 128;
    each_line(out, &read_lines()?, |[x, y]| {
        let fault = match level.block(Point { x, y }).map_err(Error::why) {
            Err(Refused::OutOfRange) => return Ok(None),
            Err(Refused::NoBlock) => return Ok(Some(format!("{x} {y} no block"))),
            Err(Refused::OffsetOutside) => 1,
            Err(Refused::NoEnd) => 2,
            block => {
                let block = block?;
                let lines: String = block.lines().map(|line| format!(" {line}")).collect();
                return Ok(Some(format!("{x} {y} block {} {} lines{lines}", block.column, block.row)));
            }
        };
        // The call tells no block where its list is faulty.
        Ok(Some(format!("{x} {y} block {} {} fault {fault}", column(x, 0), column(y, 2))))
    })
}

/// Why an entry isn't there, which is told otherwise where it is no part of a level.
fn no_lump(error: Error) -> Stop {
    match error.why() {
        Refused::NoName => Stop("5 no such lump".into()),
        Refused::LumpOutside => Stop("6 outside file".into()),
        why => why.into(),
    }
}

fn demo(wad: Wad<'_>, name: &str, out: &mut impl Write) -> Told {
    let lump = wad.lump(name, 0).map_err(no_lump)?;
    let (info, commands) = read_demo(lump).map_err(|error| match (error.why(), lump) {
        (Refused::DemoVersion, [version, ..]) => Stop(format!("demo 2 version {version}")),
        (Refused::DemoNoMarker, [version, ..]) => {
            let each = if *version == 111 { 5 } else { 4 };
            Stop(format!("demo 5 at {}", 13 + (lump.len() - 13) / each * each)) // behind the whole commands
        }
        (why, _) => why.into(),
    })?;
    write!(out, "demo version {} skill {} episode {} map {} ", info.version, info.skill, info.episode, info.map)?;
    write!(out, "deathmatch {} respawn {} fast {} ", info.deathmatch, info.respawn, info.fast)?;
    write!(out, "nomonsters {} viewpoint {} ", info.no_monsters, info.viewpoint)?;
    let [a, b, c, d] = info.player;
    writeln!(out, "players {a} {b} {c} {d}")?;
    let playing: Vec<usize> = (1..=4).filter(|k| info.player[k - 1] != 0).collect();
    for (k, it) in commands.iter().enumerate() {
        let (tic, player) = (k / playing.len(), playing[k % playing.len()]);
        writeln!(out, "{tic} {player} {} {} {} {:02x}", it.forward, it.side, it.turn, it.buttons)?;
    }
    let (tics, odd) = (commands.len() / playing.len(), commands.len() % playing.len());
    Ok(writeln!(out, "tics {tics} odd {odd} after {}", info.after)?)
}

fn find(wad: Wad<'_>, name: &str, out: &mut impl Write) -> Told {
    for after in 0.. {
        match wad.find(name, after) {
            Err(error) if error.why() == Refused::LumpMissing => break,
            lump => {
                let lump = lump.map_err(no_lump)?;
                writeln!(out, "{} {} {}", lump.entry, lump.place, lump.size)?;
            }
        }
    }
    Ok(())
}

/// A level that lacks a lump is refused by its first finding: the audit alone tells which.
fn opened(level: Level<'_>) -> Told {
    match level.findings()?.first() {
        Some(first) if matches!(first.code, Code::Fault(1 | 2)) => Err(Stop(format!("{} {}", first.code, first.index))),
        _ => Ok(()),
    }
}

fn look(words: &[&str], out: &mut impl Write) -> Result<bool, Stop> {
    let (command, wide, name, path) = match *words {
        [command, "--wide", name, path] => (command, true, name, path),
        [command, name, path] => (command, false, name, path),
        _ => return Err(Stop("usage".into())),
    };
    let bytes = fs::read(path)?;
    let wad = Wad::new(&bytes);
    let level = if wide { wad.level(name).wide() } else { wad.level(name) };
    match command {
        "audit" => return audit(level, out),
        "demo" => demo(wad, name, out)?,
        "find" => find(wad, name, out)?,
        _ => {
            opened(level)?;
            match command {
                "points" => points(level, out)?,
                "point" => point(level, out)?,
                "census" => census(level, out)?,
                "sight" => sight(level, out)?,
                "blocks" => blocks(wad, name, level, out)?,
                "extract" => out.write_all(&level.extract()?)?,
                _ => return Err(Stop("usage".into())),
            }
        }
    }
    Ok(false)
}

fn main() -> ExitCode {
    let words: Vec<String> = env::args().skip(1).collect();
    let words: Vec<&str> = words.iter().map(String::as_str).collect();
    let mut out = BufWriter::new(io::stdout().lock());
    let ended = look(&words, &mut out).and_then(|has_faults| Ok(out.flush().map(|()| has_faults)?));
    match ended {
        Ok(has_faults) => ExitCode::from(u8::from(has_faults)),
        Err(Stop(why)) => {
            eprintln!("refused: {why}");
            ExitCode::from(2)
        }
    }
}
