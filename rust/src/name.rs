//! Names of entries.

use core::fmt;

/// The first eight bytes of a name. A NUL ends it.
#[derive(Clone, Copy, PartialEq, Eq, Hash)]
pub(crate) struct Name([u8; 8]);

impl Name {
    pub(crate) fn of(name: &[u8]) -> Name {
        let mut kept = [0; 8];
        for (to, from) in kept.iter_mut().zip(name) {
            *to = *from;
        }
        Name(kept)
    }

    /// All eight bytes, for a call.
    pub(crate) fn bytes(&self) -> &[u8; 8] {
        &self.0
    }

    /// Those before a NUL.
    pub(crate) fn text(&self) -> &[u8] {
        self.0.split(|&byte| byte == 0).next().unwrap_or_default()
    }
}

impl fmt::Display for Name {
    fn fmt(&self, f: &mut fmt::Formatter<'_>) -> fmt::Result {
        self.text().escape_ascii().fmt(f)
    }
}

impl fmt::Debug for Name {
    fn fmt(&self, f: &mut fmt::Formatter<'_>) -> fmt::Result {
        write!(f, "\"{self}\"")
    }
}
