//! Which labels of a file a look-up misses, and how a path is shown.

use crate::{name::Name, run::text_of};
use alloc::{collections::BTreeMap, string::String, vec::Vec};

/// The entries of a file's directory by their names, and the last of each name.
#[derive(Default)]
pub struct Labels {
    names: Vec<[u8; 8]>,
    last: BTreeMap<[u8; 8], usize>,
}

impl Labels {
    pub fn of(wad: &[u8]) -> Labels {
        let mut labels = Labels::default();
        let word = |at: usize| wad.get(at..at + 4).map_or(0, |it| u32::from_le_bytes([it[0], it[1], it[2], it[3]]) as usize);
        let (count, place) = (word(4), word(8));
        for row in wad.get(place..).unwrap_or_default().chunks_exact(16).take(count) {
            let mut name = [0; 8];
            name.copy_from_slice(&row[8..]);
            labels.last.insert(name, labels.names.len());
            labels.names.push(name);
        }
        labels
    }

    /// Whether a look-up of an entry's name gives another entry or none.
    pub fn is_hidden(&self, entry: usize) -> bool {
        let Some(name) = self.names.get(entry) else { return false };
        let mut asked = *Name::of(Name::of(name).text()).bytes();
        asked.make_ascii_uppercase();
        *name != asked || self.last.get(name) != Some(&entry)
    }
}

/// A path as lines show it: no control as it is.
pub fn shown(path: &[u8]) -> String {
    let is_wide = |first: u8, second: u8| first == 0xc2 && (0x80..=0x9f).contains(&second);
    let mut out = Vec::new();
    for (k, &byte) in path.iter().enumerate() {
        let before = k.checked_sub(1).map_or(0, |k| path[k]);
        let behind = path.get(k + 1).copied().unwrap_or(0);
        if byte < 32 || byte == 127 || is_wide(byte, behind) || is_wide(before, byte) {
            out.extend_from_slice(alloc::format!("\\x{byte:02x}").as_bytes());
        } else {
            out.push(byte);
        }
    }
    text_of(&out)
}
