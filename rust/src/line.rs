//! The lines of JSON that the library writes: objects without blanks, of strings, numbers, arrays of two numbers, truth values, and
//! objects of these.

use alloc::string::String;

/// A text that is read from left to right.
pub struct Line<'a> {
    rest: &'a str,
}

impl<'a> Line<'a> {
    pub fn of(text: &'a str) -> Line<'a> {
        Line { rest: text }
    }

    /// Passes over a character, if it is the next one.
    pub fn take(&mut self, wanted: char) -> bool {
        self.rest.strip_prefix(wanted).map(|rest| self.rest = rest).is_some()
    }

    pub fn is_at(&self, wanted: char) -> bool {
        self.rest.starts_with(wanted)
    }

    pub fn number(&mut self) -> i64 {
        let end = self.rest.find(|c: char| c != '-' && !c.is_ascii_digit()).unwrap_or(self.rest.len());
        let (number, rest) = self.rest.split_at(end);
        self.rest = rest;
        number.parse().unwrap_or_default()
    }

    /// `[1,2]`
    pub fn pair(&mut self) -> (i64, i64) {
        self.take('[');
        let first = self.number();
        self.take(',');
        let second = self.number();
        self.take(']');
        (first, second)
    }

    /// A string, without its quotes and escapes.
    pub fn string(&mut self) -> String {
        self.take('"');
        let mut text = String::new();
        let mut chars = self.rest.chars();
        while let Some(c) = chars.next() {
            match c {
                '"' => break,
                '\\' => match chars.next() {
                    // A control character: `\u00XX`.
                    Some('u') => {
                        let hex = chars.as_str().get(..4).unwrap_or_default();
                        text.extend(u32::from_str_radix(hex, 16).ok().and_then(char::from_u32));
                        chars = chars.as_str().get(4..).unwrap_or_default().chars();
                    }
                    escaped => text.extend(escaped),
                },
                _ => text.push(c),
            }
        }
        self.rest = chars.as_str();
        text
    }

    /// Passes over a value.
    pub fn pass(&mut self) {
        let mut depth = 0;
        loop {
            match self.rest.chars().next() {
                Some('"') => {
                    self.string();
                    continue;
                }
                Some('{' | '[') => depth += 1,
                Some('}' | ']') if depth == 0 => return,
                Some('}' | ']') => depth -= 1,
                Some(',') if depth == 0 => return,
                Some(_) => {}
                None => return,
            }
            self.rest = &self.rest[1..];
        }
    }

    /// The members of an object: `member` is given each name, and passes over the value.
    pub fn object(&mut self, mut member: impl FnMut(&str, &mut Line<'a>)) {
        self.take('{');
        loop {
            let name = self.string();
            self.take(':');
            member(&name, self);
            if !self.take(',') {
                break;
            }
        }
        self.take('}');
    }
}
