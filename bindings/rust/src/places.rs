//! Lines and columns.

use crate::ffi;

/// A place in a text.
#[derive(Clone, Copy, Debug, PartialEq, Eq, Hash, PartialOrd, Ord)]
pub struct Place {
    /// The line, from 1. A line feed ends its line.
    pub line: usize,
    /// The column, from 1.
    pub column: usize,
}

/// What columns count.
#[derive(Clone, Copy, Debug, PartialEq, Eq, Hash)]
pub enum Columns {
    /// Bytes.
    Bytes,
    /// Characters. In a text that isn't UTF-8 each byte counts as one but those from 0x80 to 0xBF.
    Characters,
    /// The units of UTF-16, as the protocol of language servers does.
    Utf16,
}

impl Columns {
    /// How many columns the end of a text takes that stands in one line and has this many characters.
    pub(crate) fn width(self, line: &[u8], characters: usize) -> usize {
        // So begins each character that is two units in UTF-16.
        let is_pair = |byte: &&u8| (0xF0..0xF5).contains(*byte);
        match self {
            Columns::Bytes => line.len(),
            Columns::Characters => characters,
            Columns::Utf16 => characters + line.iter().filter(is_pair).count(),
        }
    }
}

/// Finds the places of offsets in a text. Asked in their order, it finds all of them in one pass.
///
/// ```
/// use bajofeki::{Columns, Place, Places};
///
/// let mut places = Places::new("a\né=1");
/// assert_eq!(places.at(4), Place { line: 2, column: 2 });
/// let mut places = Places::new("😀=1").columns(Columns::Utf16);
/// assert_eq!(places.at(4), Place { line: 1, column: 3 });
/// ```
#[derive(Clone, Debug)]
pub struct Places<'a> {
    text: &'a [u8],
    columns: Columns,
    at: usize,
    place: Place,
}

impl<'a> Places<'a> {
    /// Places in this text, whose columns are in characters.
    pub fn new(text: &'a (impl AsRef<[u8]> + ?Sized)) -> Places<'a> {
        Places {
            text: text.as_ref(),
            columns: Columns::Characters,
            at: 0,
            place: Place { line: 1, column: 1 },
        }
    }

    /// The same places, whose columns count this.
    #[must_use]
    pub fn columns(self, columns: Columns) -> Places<'a> {
        Places {
            columns,
            ..Places::new(self.text)
        }
    }

    /// The place of this offset in bytes; of an offset past the end that of the end.
    pub fn at(&mut self, at: usize) -> Place {
        if at < self.at {
            *self = self.clone().columns(self.columns);
        }
        let on = ffi::position(&self.text[self.at..], at - self.at);
        let passed = &self.text[self.at..self.at + on.at];
        let line = passed.rsplit(|byte| *byte == b'\n').next();
        let width = self.columns.width(line.unwrap_or(passed), on.column - 1);
        let before = if on.line == 1 { self.place.column } else { 1 };
        self.at += on.at;
        self.place = Place {
            line: self.place.line + on.line - 1,
            column: before + width,
        };
        self.place
    }
}
