//! The calls and structs of `include/wadlook.h`.

use core::ffi::c_char;

#[repr(C)]
#[derive(Clone, Copy)]
pub struct Finding {
    pub code: u32,
    pub index: u32,
}

#[repr(C)]
#[derive(Default)]
pub struct Totals {
    pub faults: usize,
    pub notes: usize,
}

#[repr(C)]
#[derive(Default)]
pub struct Block {
    pub column: u32,
    pub row: u32,
    pub first: usize,
    pub count: usize,
}

#[repr(C)]
#[derive(Clone, Copy, Default)]
pub struct Level {
    pub entry: usize,
    pub name: [u8; 8],
    pub format: u32,
    pub lump: u32,
    pub tag: [u8; 4],
}

#[repr(C)]
pub struct View {
    pub x0: i16,
    pub y0: i16,
    pub x1: i16,
    pub y1: i16,
    pub cells: u32,
    pub framed: bool,
}

#[repr(C)]
pub struct Question {
    pub name: *const u8,
    pub name_len: usize,
    pub number: u64,
    pub ignored: u64,
    pub failing: u64,
    pub limit: usize,
    pub bases: usize,
    pub word: u32,
    pub cells: u32,
    pub x0: i16,
    pub y0: i16,
    pub x1: i16,
    pub y1: i16,
    pub framed: bool,
    pub wide: bool,
    pub map: bool,
    pub strict: bool,
    pub game_ends: bool,
}

impl Default for Question {
    fn default() -> Question {
        Question {
            name: core::ptr::null(),
            name_len: 0,
            number: 0,
            ignored: 0,
            failing: 0,
            limit: 0,
            bases: 0,
            word: 0,
            cells: 0,
            x0: 0,
            y0: 0,
            x1: 0,
            y1: 0,
            framed: false,
            wide: false,
            map: false,
            strict: false,
            game_ends: false,
        }
    }
}

#[repr(C)]
pub struct File {
    pub path: *const u8,
    pub path_len: usize,
    pub bytes: *const u8,
    pub bytes_len: usize,
}

#[repr(C)]
#[derive(Default)]
pub struct Told {
    pub answer: usize,
    pub messages: usize,
}

extern "C" {
    pub fn wadlook_status_text(status: u32) -> *const c_char;
    pub fn wadlook_end_text(end: u32) -> *const c_char;
    pub fn wadlook_code_name(code: u32) -> *const c_char;
    pub fn wadlook_code_text(code: u32) -> *const c_char;
    pub fn wadlook_kind_text(kind: u32) -> *const c_char;
    pub fn wadlook_format_text(format: u32) -> *const c_char;
    pub fn wadlook_codes(words: *const c_char, set: *mut u64) -> bool;
    pub fn wadlook_levels(wad: *const u8, wad_len: usize, levels: *mut Level, levels_len: usize, count: *mut usize) -> u32;
    pub fn wadlook_points_at(
        wad: *const u8,
        wad_len: usize,
        entry: usize,
        wide: bool,
        points: *const crate::Point,
        points_len: usize,
        places: *mut crate::Place,
        places_len: usize,
    ) -> u32;
    pub fn wadlook_prepare_at(
        wad: *const u8,
        wad_len: usize,
        entry: usize,
        wide: bool,
        sectors: *mut u16,
        sectors_len: usize,
        count: *mut usize,
    ) -> u32;
    pub fn wadlook_under(
        wad: *const u8,
        wad_len: usize,
        entry: usize,
        wide: bool,
        point: crate::Point,
        place: *mut crate::Place,
    ) -> u32;
    pub fn wadlook_census_at(
        wad: *const u8,
        wad_len: usize,
        entry: usize,
        wide: bool,
        rect: *const crate::Rect,
        counts: *mut crate::Count,
        counts_len: usize,
        count: *mut usize,
    ) -> u32;
    pub fn wadlook_cells(
        wad: *const u8,
        wad_len: usize,
        entry: usize,
        wide: bool,
        view: *const View,
        sectors: *mut i32,
        sectors_len: usize,
        grid: *mut crate::Grid,
    ) -> u32;
    pub fn wadlook_audit_at(
        wad: *const u8,
        wad_len: usize,
        entry: usize,
        wide: bool,
        findings: *mut Finding,
        findings_len: usize,
        totals: *mut Totals,
    ) -> u32;
    pub fn wadlook_find_at(wad: *const u8, wad_len: usize, entry: usize, lump: *mut crate::Lump) -> u32;
    pub fn wadlook_extract_at(
        wad: *const u8,
        wad_len: usize,
        entry: usize,
        out: *mut u8,
        out_len: usize,
        written: *mut usize,
    ) -> u32;
    pub fn wadlook_run(
        question: *const Question,
        files: *const File,
        files_len: usize,
        input: *const u8,
        input_len: usize,
        answer: *mut u8,
        answer_len: usize,
        messages: *mut u8,
        messages_len: usize,
        told: *mut Told,
    ) -> u32;
    pub fn wadlook_points(
        wad: *const u8,
        wad_len: usize,
        name: *const u8,
        name_len: usize,
        wide: bool,
        points: *const crate::Point,
        points_len: usize,
        places: *mut crate::Place,
        places_len: usize,
    ) -> u32;
    pub fn wadlook_prepare(
        wad: *const u8,
        wad_len: usize,
        name: *const u8,
        name_len: usize,
        wide: bool,
        sectors: *mut u16,
        sectors_len: usize,
        count: *mut usize,
    ) -> u32;
    pub fn wadlook_point(
        nodes: *const u8,
        nodes_len: usize,
        sectors: *const u16,
        sectors_len: usize,
        point: crate::Point,
    ) -> crate::Place;
    pub fn wadlook_census(
        wad: *const u8,
        wad_len: usize,
        name: *const u8,
        name_len: usize,
        wide: bool,
        rect: *const crate::Rect,
        counts: *mut crate::Count,
        counts_len: usize,
        count: *mut usize,
    ) -> u32;
    pub fn wadlook_audit(
        wad: *const u8,
        wad_len: usize,
        name: *const u8,
        name_len: usize,
        wide: bool,
        findings: *mut Finding,
        findings_len: usize,
        totals: *mut Totals,
    ) -> u32;
    pub fn wadlook_find(
        wad: *const u8,
        wad_len: usize,
        name: *const u8,
        name_len: usize,
        after: usize,
        lump: *mut crate::Lump,
    ) -> u32;
    pub fn wadlook_sight(reject: *const u8, reject_len: usize, sectors: u32, from: u32, to: u32, blocked: *mut u32) -> u32;
    pub fn wadlook_block(blockmap: *const u8, blockmap_len: usize, wide: bool, point: crate::Point, block: *mut Block) -> u32;
    pub fn wadlook_extract(
        wad: *const u8,
        wad_len: usize,
        name: *const u8,
        name_len: usize,
        out: *mut u8,
        out_len: usize,
        written: *mut usize,
    ) -> u32;
    pub fn wadlook_demo(
        bytes: *const u8,
        bytes_len: usize,
        commands: *mut crate::Command,
        commands_len: usize,
        info: *mut crate::DemoInfo,
    ) -> u32;
}
