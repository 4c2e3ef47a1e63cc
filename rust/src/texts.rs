//! The library's texts of its numbers.

use crate::raw;
use core::ffi::{c_char, CStr};

/// A text that the library keeps, where there is one.
fn kept(text: *const c_char) -> Option<&'static str> {
    if text.is_null() {
        return None;
    }
    // SAFETY: the header says that a text ends with a NUL and stays.
    unsafe { CStr::from_ptr(text) }.to_str().ok()
}

/// What a status says.
pub fn status(number: u32) -> Option<&'static str> {
    // SAFETY: the call takes any number.
    kept(unsafe { raw::wadlook_status_text(number) })
}

/// How a run ended.
pub fn end(number: u32) -> Option<&'static str> {
    // SAFETY: as above.
    kept(unsafe { raw::wadlook_end_text(number) })
}

/// A code as it is printed, by its rank.
pub fn code_name(rank: u32) -> Option<&'static str> {
    // SAFETY: as above.
    kept(unsafe { raw::wadlook_code_name(rank) })
}

/// What a code says, by its rank.
pub fn code(rank: u32) -> Option<&'static str> {
    // SAFETY: as above.
    kept(unsafe { raw::wadlook_code_text(rank) })
}

/// What a code is found at.
pub fn kind(number: u32) -> Option<&'static str> {
    // SAFETY: as above.
    kept(unsafe { raw::wadlook_kind_text(number) })
}

/// A format as it is named.
pub fn format(number: u32) -> Option<&'static str> {
    // SAFETY: as above.
    kept(unsafe { raw::wadlook_format_text(number) })
}
