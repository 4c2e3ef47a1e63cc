//! The calls on worked cases over the sample level (`sample/README.md`).

use std::collections::HashMap;
use wadlook::{
    assemble, compare, compare_commands, cut, cut_level, explain, listing, read_demo, Code, Codes, Command, Count, End, Error,
    File, Finding, Format, Found, Index, Kind, Level, Lump, Place, Point, Question, Rect, Refused, Spot, View, Wad, Where, Word,
};

const TWO_COMMANDS: [u8; 23] = [109, 3, 1, 1, 0, 0, 0, 0, 0, 1, 0, 0, 0, 25, 0, 0, 0, 206, 128, 255, 128, 128, 7];

fn base() -> Vec<u8> {
    std::fs::read(concat!(env!("CARGO_MANIFEST_DIR"), "/../sample/base.wad")).unwrap()
}

fn with_words(place: usize, words: &[i16]) -> Vec<u8> {
    let mut wad = base();
    for (k, word) in words.iter().enumerate() {
        wad[place + 2 * k..place + 2 * k + 2].copy_from_slice(&word.to_le_bytes());
    }
    wad
}

fn sector(level: Level<'_>, x: i32, y: i32) -> Result<Option<u16>, Refused> {
    Ok(level.places(&[Point { x, y }])?[0].map(|place| place.sector))
}

/// Why a call was refused.
fn why<T: std::fmt::Debug>(ended: Result<T, Error>) -> Refused {
    ended.unwrap_err().why()
}

/// The level of a name that is made for the call.
fn level_of(wad: Wad<'_>, number: u32) -> Level<'_> {
    let name = format!("E1M{number}");
    wad.level(&name)
}

#[test]
fn points() {
    let wad = base();
    let level = Wad::new(&wad).level("E1M1");
    assert_eq!(sector(level, 1, 5), Ok(Some(0)));
    assert_eq!(sector(level, 0, 5), Ok(Some(1)));
    assert_eq!(sector(level.wide(), -1, 5), Ok(Some(1)));
    assert_eq!(sector(level, 16384, 0), Ok(None));
    assert_eq!(level.places(&[]), Ok(vec![]));
    let mut places = [Place::default(); 1];
    assert_eq!(why(level.places_into(&[Point::default(); 2], &mut places)), Refused::NoRoom);
    assert_eq!(sector(Wad::new(&wad).level("E2M9"), 0, 5), Err(Refused::NoName));
    assert_eq!(sector(Wad::new(&wad[..11]).level("E1M1"), 0, 5), Err(Refused::Short));
    assert_eq!(sector(Wad::new(&[]).level("E1M1"), 0, 5), Err(Refused::Short));
}

#[test]
fn points_of_pairs() {
    let wad = base();
    let pairs = [(1, 5), (0, 5), (-1, 5)];
    let points = pairs.map(Point::from);
    assert_eq!(points[0], Point { x: 1, y: 5 });
    let places = Wad::new(&wad).level("E1M1").places(&points).unwrap();
    assert_eq!(places.iter().flatten().map(|place| place.sector).collect::<Vec<_>>(), [0, 1, 1]);
    let known: HashMap<_, _> = points.into_iter().zip(places).collect();
    assert_eq!(known[&(0, 5).into()], Some(Place { ssector: 1, sector: 1 }));
}

#[test]
fn one_point_after_another() {
    let wad = base();
    let level = Wad::new(&wad).level("e1m1").prepare().unwrap();
    assert_eq!(level.place(Point { x: 0, y: 5 }), Some(Place { ssector: 1, sector: 1 }));
    assert_eq!(level.place(Point { x: 1, y: 5 }), Some(Place { ssector: 0, sector: 0 }));
    assert_eq!(level.place(Point { x: 0, y: -16385 }), None);
}

#[test]
fn names_are_kept() {
    let mut wad = base();
    let level = level_of(Wad::new(&wad), 1);
    assert_eq!(sector(level, 0, 5), Ok(Some(1)));
    assert_eq!(level.is_blocked(0, 1), Ok(false));
    assert_eq!(level.block(Point { x: 0, y: 5 }).map(|block| (block.column, block.row)), Ok((0, 0)));
    assert_eq!(level.extract(), Ok(base()));
    assert_eq!(why(level_of(Wad::new(&wad), 2).findings()), Refused::NoName);
    let prepared = level_of(Wad::new(&wad), 1).prepare().unwrap();
    assert_eq!(prepared.place(Point { x: 0, y: 5 }), Some(Place { ssector: 1, sector: 1 }));
    for name in ["e1m1", "E1M1\0", "E1M1\0ABCDEFG"] {
        assert_eq!(sector(Wad::new(&wad).level(name), 0, 5), Ok(Some(1)), "{name:?}");
    }
    for name in ["", "\0E1M1", "E1M", "E1M1 ", "E1M1É", "ÉÉÉÉÉ"] {
        assert_eq!(why(Wad::new(&wad).level(name).findings()), Refused::NoName, "{name:?}");
        assert_eq!(why(Wad::new(&wad).find(name, 0)), Refused::NoName, "{name:?}");
    }
    wad[233 + 8..233 + 16].copy_from_slice(b"E1M1ABCD");
    for name in ["E1M1ABCD", "e1m1abcdé", "E1M1ABCDEFGHIJKLM"] {
        assert_eq!(sector(Wad::new(&wad).level(name), 0, 5), Ok(Some(1)), "{name:?}");
        assert_eq!(Wad::new(&wad).find(name, 7), Ok(Lump { entry: 7, place: 136, size: 28 }), "{name:?}");
    }
    for name in ["E1M1", "E1M1ABC", "E1M1ABC\0"] {
        assert_eq!(why(Wad::new(&wad).level(name).findings()), Refused::NoName, "{name:?}");
    }
}

#[test]
fn refusals_name_what_was_asked() {
    let wad = base();
    let wad = Wad::new(&wad);
    let told = |error: Error| (error.to_string(), error.name().map(<[u8]>::to_vec));
    let absent = ("E2M9: no entry of this name".to_string(), Some(b"E2M9".to_vec()));
    let level = wad.level("E2M9");
    assert_eq!(told(level.findings().unwrap_err()), absent);
    assert_eq!(told(level.places(&[]).unwrap_err()), absent);
    assert_eq!(told(level.prepare().unwrap_err()), absent);
    assert_eq!(told(level.census(Rect { x0: 0, y0: 0, x1: 0, y1: 0 }).unwrap_err()), absent);
    assert_eq!(told(level.is_blocked(0, 0).unwrap_err()), absent);
    assert_eq!(told(level.block(Point::default()).unwrap_err()), absent);
    assert_eq!(told(level.extract().unwrap_err()), absent);
    assert_eq!(told(wad.find("E2M9", 0).unwrap_err()), absent);
    assert_eq!(told(wad.lump("E2M9", 0).unwrap_err()), absent);
    assert_eq!(wad.lump("REJECT", 2).unwrap_err().to_string(), "REJECT: the list of entries ends before the lump");
    assert_eq!(wad.find("ÉÉÉÉÉ", 0).unwrap_err().to_string(), r"\xc3\x89\xc3\x89\xc3\x89\xc3\x89: no entry of this name");
    assert_eq!(told(read_demo(&[]).unwrap_err()), ("a demo of no bytes".to_string(), None));
    let error = wad.find("E2M9", 0).unwrap_err();
    assert_eq!(Refused::from(error), Refused::NoName);
    assert_eq!(format!("{error:?}"), r#"Error { why: NoName, asked: Some(Name("E2M9")) }"#);
    let error = wad.level_at(3).findings().unwrap_err();
    assert_eq!((error.to_string(), error.name(), error.entry()), ("entry 3: no level starts at this entry".into(), None, Some(3)));
}

#[test]
fn names_are_bytes() {
    let mut wad = base();
    wad[233 + 8..233 + 12].copy_from_slice(b"\xc9\xff1\0");
    let file = Wad::new(&wad);
    let labels = file.levels().unwrap();
    assert_eq!(sector(file.level(labels[0].name()), 0, 5), Ok(Some(1)));
    assert_eq!(file.find(b"\xc9\xff1", 7), Ok(Lump { entry: 7, place: 136, size: 28 }));
    assert_eq!(file.lump(String::from("REJECT"), 0), Ok(&[0][..]));
    assert!(cut_level(File::new("a.wad", &wad), labels[0].name()).is_ok());
}

#[test]
fn shown_without_their_bytes() {
    let wad = base();
    let level = Wad::new(&wad).level("e1m1");
    let other = Wad::new(&wad).level("\"ÉABCDEFG").wide();
    assert_eq!(format!("{:?}", Wad::new(&wad)), "Wad { len: 409, .. }");
    assert_eq!(format!("{level:?}"), r#"Level { name: "e1m1", wide: false, .. }"#);
    assert_eq!(format!("{other:?}"), r#"Level { name: "\"\xc3\x89ABCDE", wide: true, .. }"#);
    assert_eq!(format!("{:?}", level.prepare()), "Ok(Prepared { ssectors: 2, .. })");
}

#[test]
fn faults() {
    let wad = with_words(136 + 24, &[-32768, -32768]); // one ssector twice
    let level = Wad::new(&wad).level("E1M1");
    let fault = |code, index| Finding { code: Code::Fault(code), index };
    assert_eq!(level.findings(), Ok(vec![fault(15, 0), fault(16, 1)]));
    assert_eq!(sector(level, 0, 5), Err(Refused::Unsound));
    assert_eq!(why(level.prepare()), Refused::Unsound);
    assert_eq!(Wad::new(&base()).level("E1M1").findings(), Ok(vec![]));
    assert_eq!(Wad::new(&base()).level("THINGS").findings(), Ok(vec![fault(1, 10)]));
    let mut renamed = base();
    renamed[233 + 16 * 7 + 12] = b'Z';
    let note = Finding { code: Code::Note(1), index: 7 };
    assert_eq!(Wad::new(&renamed).level("E1M1").findings(), Ok(vec![note]));
}

#[test]
fn census() {
    let wad = base();
    let level = Wad::new(&wad).level("E1M1");
    let counts = vec![Count { sector: 0, points: 2 }, Count { sector: 1, points: 4 }];
    assert_eq!(level.census(Rect { x0: -1, y0: 0, x1: 1, y1: 1 }), Ok(counts));
    assert_eq!(why(level.census(Rect { x0: 1, y0: 0, x1: 0, y1: 0 })), Refused::NoRect);
}

#[test]
fn lumps_sight_and_blocks() {
    let wad = base();
    let level = Wad::new(&wad).level("E1M1");
    assert_eq!(Wad::new(&wad).find("E1M1", 7), Ok(Lump { entry: 7, place: 136, size: 28 }));
    assert_eq!(Wad::new(&wad).lump("REJECT", 0), Ok(&[0][..]));
    assert_eq!(why(Wad::new(&wad).lump("REJECT", 2)), Refused::LumpMissing);
    assert_eq!(level.is_blocked(0, 1), Ok(false));
    assert_eq!(why(level.is_blocked(2, 1)), Refused::NoSector);
    let block = level.block(Point { x: 0, y: 5 }).unwrap();
    assert_eq!((block.column, block.row, block.lines().collect::<Vec<_>>()), (0, 0, vec![0, 0]));
    assert_eq!(why(level.block(Point { x: -9, y: 5 })), Refused::NoBlock);
    let lists = with_words(217, &[0, 0, 1, 1, 5, 0, -2, -1]);
    let level = Wad::new(&lists).level("E1M1");
    let lines = |level: Level<'_>| level.block(Point::default()).unwrap().lines().collect::<Vec<_>>();
    assert_eq!((lines(level), lines(level.wide())), (vec![0, -2], vec![0, 65534]));
}

#[test]
fn cuts() {
    let wad = base();
    for len in 0..wad.len() {
        let wanted = if len < 12 { Refused::Short } else { Refused::Directory };
        assert_eq!(why(Wad::new(&wad[..len]).level("E1M1").findings()), wanted, "wad_cut {len}");
    }
    for len in 0..22 {
        let wanted = match len {
            0 => Refused::DemoEmpty,
            1..=12 => Refused::DemoShort,
            _ => Refused::DemoNoMarker,
        };
        assert_eq!(why(read_demo(&TWO_COMMANDS[..len])), wanted, "demo_cut {len}");
    }
    assert_eq!(read_demo(&TWO_COMMANDS[..22]).map(|(info, commands)| (commands.len(), info.after)), Ok((2, 0)));
}

#[test]
fn a_level_alone() {
    let mut wad = base();
    wad[0] = b'I';
    assert_eq!(Wad::new(&wad).level("E1M1").extract(), Ok(base()));
    assert_eq!(why(Wad::new(&wad).level("E2M9").extract()), Refused::NoName);
}

#[test]
fn demos() {
    let (info, commands) = read_demo(&TWO_COMMANDS).unwrap();
    assert_eq!((info.version, info.map, info.players, info.player, info.after), (109, 1, 1, [1, 0, 0, 0], 1));
    assert_eq!(commands.len(), 2);
    assert_eq!(commands[1], Command { turn: 255, forward: -50, side: -128, buttons: 128 });
    assert_eq!(why(read_demo(&[])), Refused::DemoEmpty);
    assert_eq!(Refused::DemoEmpty.to_string(), "a demo of no bytes");
    let mut many = TWO_COMMANDS[..13].to_vec();
    many.resize(13 + 40000, 0);
    many.push(128);
    assert_eq!(read_demo(&many).unwrap().1.len(), 10000);
}

/// A text of the repository.
fn text(path: &str) -> String {
    std::fs::read_to_string(format!("{}/../{path}", env!("CARGO_MANIFEST_DIR"))).unwrap()
}

#[test]
fn texts_are_the_reports() {
    let report = text("crates/look_engines/specs/Engines/Audit.antt");
    let told: Vec<&str> = report.lines().filter_map(|line| line.strip_prefix("meaning ")).collect();
    let faults = (1..=18).map(Code::Fault);
    let own: Vec<String> = faults
        .chain((1..=12).map(Code::Note))
        .map(|code| format!("{code} = codes \"{}\"", Finding { code, index: 0 }.text()))
        .collect();
    assert_eq!(own, told.into_iter().filter(|line| line.contains("= codes")).collect::<Vec<_>>());
    assert_eq!(Finding { code: Code::Fault(19), index: 0 }.text(), "");
}

#[test]
fn statuses_are_the_headers() {
    let header = text("include/wadlook.h");
    let statuses = header.lines().skip_while(|line| *line != "enum wadlook_status {").take_while(|line| *line != "};");
    let numbers = statuses.filter_map(|line| line.strip_prefix("    WADLOOK_")?.split_once(" = "));
    let told: Vec<(String, u32)> = numbers
        .map(|(name, rest)| {
            let number = rest.split(|c: char| !c.is_ascii_digit()).next().unwrap();
            (name.replace('_', "").to_lowercase(), number.parse().unwrap())
        })
        .filter(|(_, number)| *number > 0)
        .collect();
    let all = [
        Refused::Unsound,
        Refused::Memory,
        Refused::NoRoom,
        Refused::Short,
        Refused::Magic,
        Refused::Count,
        Refused::Directory,
        Refused::NoName,
        Refused::LumpMissing,
        Refused::LumpOutside,
        Refused::TooLarge,
        Refused::DemoEmpty,
        Refused::DemoVersion,
        Refused::DemoShort,
        Refused::DemoNoPlayer,
        Refused::DemoNoMarker,
        Refused::NoRect,
        Refused::OutOfRange,
        Refused::NoBlockMap,
        Refused::NoBlock,
        Refused::OffsetOutside,
        Refused::NoEnd,
        Refused::NoSector,
        Refused::Unknown,
        Refused::NoLevel,
        Refused::OtherFormat,
        Refused::NoView,
        Refused::NothingToDraw,
    ];
    let own: Vec<(String, u32)> = all.iter().map(|why| (format!("{why:?}").to_lowercase(), *why as u32)).collect();
    assert_eq!(own, told);
}

fn found(question: Question<'_>, files: &[File<'_>]) -> Vec<String> {
    question.check(files).map(|found| found.unwrap().to_string()).collect()
}

#[test]
fn words_check() {
    let wad = base();
    let files = [File::new("a\nb.wad", &wad)];
    assert_eq!(found(Question::default(), &files), Vec::<String>::new());
    let map = Question { map: true, ignore: Codes::named("W1").unwrap(), ..Question::default() };
    let told = [
        "a\\x0ab.wad: E1M1: W7 level: no player 2 start",
        "a\\x0ab.wad: E1M1: W8 level: 0 deathmatch starts",
        "a\\x0ab.wad: E1M1: W19 level: no exit",
    ];
    assert_eq!(found(map, &files), told);
    let two = [File::new("a.wad", &wad), File::new("none.wad", b"")];
    assert_eq!(found(Question::default(), &two), ["wadlens: none.wad: shorter than a WAD header"]);
    let refused = Question::default().check(&two).next().unwrap().unwrap();
    assert_eq!((refused.kind, refused.kind.to_string(), refused.index), (Kind::FILE, "file".into(), Index::Whole));
}

#[test]
fn words_without_codes() {
    let mut wad = base();
    wad[233 + 16 * 7 + 4] = 0; // NODES without bytes
    let all = found(Question::default(), &[File::new("a.wad", &wad)]);
    assert_eq!(all[0], "a.wad: E1M1: NODES is empty: 1 ssectors can't be reached; build the nodes");
    let mut wad = base();
    wad[233 + 16 * 3 + 8..][..8].copy_from_slice(b"SEGS\0\0\0\0");
    wad[233 + 16 * 5 + 8..][..8].copy_from_slice(b"SIDEDEFS");
    let told =
        ["a.wad: E1M1: incomplete: no SIDEDEFS where it belongs", "a.wad: E1M1: lumps in another order: SEGS before SIDEDEFS"];
    assert_eq!(found(Question::default(), &[File::new("a.wad", &wad)]), told);
}

#[test]
fn words_run() {
    let wad = base();
    let files = [File::new("a.wad", &wad), File::new("b.wad", b"")];
    let ran = Question::default().run(Word::Check { json: false }, &files);
    assert_eq!(ran.answer, b"1 levels in 2 files: 0 faults, 0 notes, 0 not judged\n");
    assert_eq!((&ran.messages[..], ran.end), (&b"wadlens: b.wad: shorter than a WAD header\n"[..], End::Refused));
    let ran = Question { limit: 5, ..Question::default() }.run(Word::Check { json: false }, &files[..1]);
    assert_eq!((&ran.answer[..], ran.end), (&b"1 lev"[..], End::Stopped));
    let stopped = Question { limit: 5, map: true, ..Question::default() }.check(&files).next().unwrap().unwrap_err();
    assert_eq!((stopped.end, stopped.to_string()), (End::Stopped, End::Stopped.to_string()));
    let based = Question { base: &files[..1], ..Question::default() };
    assert_eq!(based.run(Word::Cut(0), &files[..1]).answer, wad);
    assert_eq!(based.run(Word::Survey, &[]).end, End::Mistaken);
    assert_eq!(End::NoMemory.to_string(), "no memory left");
}

#[test]
fn words_found() {
    let wad = base();
    let files = [File::new("a.wad", &wad)];
    let all: Vec<Found> = Question { map: true, ..Question::default() }.check(&files).map(Result::unwrap).collect();
    let first = &all[0];
    assert_eq!((first.code, first.kind.to_string(), first.index), (Code::named("w1"), "sector".into(), Index::Record(0)));
    assert_eq!((first.place, first.entry, first.is_hidden), (Where::At(Spot { x: 0, y: 0 }), 0, false));
    assert_eq!(first.to_string(), "a.wad: E1M1: W1 sector 0: isn't closed, at (0, 0)");
    assert_eq!(all.len(), 7);
}

#[test]
fn words_others() {
    let wad = base();
    let file = File::new("a.wad", &wad);
    assert!(Question::default().survey(&[file]).unwrap()[0].starts_with("{\"file\":\"a.wad\",\"level\":\"E1M1\",\"entry\":0,"));
    assert!(Question::default().picture("E1M1", &[file], View::default()).unwrap().starts_with("<svg"));
    let none = Question::default().picture("E1M2", &[file], View::default()).unwrap_err();
    assert_eq!((none.to_string(), none.end), ("wadlens: E1M2: no level of this name".into(), End::Refused));
    let no_view = Question::default().picture("E1M1", &[file], View { frame: None, cells: 0 }).unwrap_err();
    assert_eq!(no_view.end, End::Mistaken);
    assert_eq!(cut(file, 0).unwrap(), Wad::new(&wad).level_at(0).extract().unwrap());
    assert_eq!(cut(file, 0).unwrap(), cut_level(file, "E1M1").unwrap());
    assert!(explain(Code::named("F3")).unwrap().starts_with("F3: "));
    assert_eq!(
        assemble(b"x\n").unwrap_err().to_string(),
        "wadlens: standard input: line 1 is no line of a listing: a demo's header is wanted"
    );
    let demo = File::new("a.lmp", &TWO_COMMANDS);
    assert_eq!(compare(demo, demo), Ok(None));
    // A skill of 2 in place of 3, which the commands don't tell.
    let mut easier = TWO_COMMANDS;
    easier[1] = 2;
    let other = File::new("b.lmp", &easier);
    assert_eq!(compare(demo, other), Ok(Some("header: skill 3, 2".into())));
    assert_eq!(compare_commands(demo, other), Ok(None));
    assert!(listing(demo).unwrap().starts_with("demo version 109 skill 3 episode 1 map 1 "));
    assert_eq!(listing(file).unwrap_err().end, End::Refused);
    assert_eq!(wadlook::demos(&[demo]).unwrap().len(), 1);
}

#[test]
fn codes() {
    let codes = Codes::named("n2, W7-W8,notes").unwrap();
    assert!(codes.has(Code::Note(12)) && codes.has(Code::Warning(8)) && !codes.has(Code::Warning(9)));
    assert_eq!([Codes::named("W8-W7"), Codes::named("N1-W1"), Codes::named("X1"), Codes::named("N1,")], [None; 4]);
    assert!(Codes::named("Game").unwrap().has(Code::Note(11)) && !Codes::named("").unwrap().has(Code::Note(11)));
    assert_eq!(Code::Warning(9).text(), "texture not there");
    assert_eq!(Code::named("F18").map(Code::rank), Some(17));
}

#[test]
fn by_entries() {
    let wad = base();
    let labels = Wad::new(&wad).levels().unwrap();
    assert_eq!((labels.len(), labels[0].name(), labels[0].format), (1, &b"E1M1"[..], Format::Doom));
    let level = Wad::new(&wad).level_at(labels[0].entry);
    assert_eq!(sector(level, 0, 5), Ok(Some(1)));
    assert_eq!(level.under(Point { x: 1, y: 5 }).unwrap().map(|place| place.sector), Some(0));
    assert_eq!(why(Wad::new(&wad).level_at(1).findings()), Refused::NoLevel);
    assert_eq!(Refused::NoLevel.to_string(), "no level starts at this entry");
    let view = View { frame: Some((-1, 0, 2, 0)), cells: 4 };
    let cells = level.cells(view).unwrap();
    assert_eq!((cells.grid.size, cells.grid.columns, cells.grid.rows, cells.sectors.len()), (1, 4, 1, 4));
    assert_eq!((cells.get(2, 0), cells.get(4, 0)), (Some(0), None));
    assert_eq!(why(level.cells(View { cells: 0, ..view })), Refused::NoView);
    assert_eq!((level.is_blocked(0, 1), level.block(Point { x: 0, y: 5 }).map(|block| block.column)), (Ok(false), Ok(0)));
}

#[test]
fn another_format_is_refused() {
    let mut wad = base();
    wad[136..140].copy_from_slice(b"XNOD");
    let wad = Wad::new(&wad);
    assert_eq!(wad.levels().unwrap()[0].format, Format::Extended(*b"XNOD"));
    let level = wad.level_at(0);
    let point = Point::default();
    let rect = Rect { x0: 0, y0: 0, x1: 0, y1: 0 };
    let all = [
        why(level.findings()),
        why(level.places(&[point])),
        why(level.prepare()),
        why(level.census(rect)),
        why(level.under(point)),
        why(level.cells(View::default())),
        why(level.is_blocked(0, 0)),
        why(level.block(point)),
    ];
    assert_eq!(all, [Refused::OtherFormat; 8]);
    assert!(level.extract().is_ok());
    assert_eq!(why(wad.level_at(usize::MAX).is_blocked(0, 0)), Refused::NoLevel);
}
