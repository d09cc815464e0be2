//! A text that is edited.

use std::fmt;
use std::ops::Range;

use crate::ffi::{HeldDocument, Piece as RawPiece};
use crate::pieces::piece_of;
use crate::{Columns, Lexer, OutOfMemory, Piece, Place, TextError};

/// What an edit changed of the pieces of a document. Pieces are numbered from 0, and places are in bytes.
#[derive(Clone, Copy, Debug, PartialEq, Eq, Hash)]
pub struct Change {
    /// How many pieces at the front stay.
    pub first: usize,
    /// How many old pieces after those are gone.
    pub removed: usize,
    /// How many pieces came in their place. All others are the old ones, shifted.
    pub inserted: usize,
    /// Where the first piece that is gone, or came, begins.
    pub start: usize,
    /// Where the last piece that is gone ended in the old text.
    pub old_end: usize,
    /// Where the last piece that came ends in the new text.
    pub new_end: usize,
}

/// A text that is edited, with its pieces. The library keeps a second copy of it, and 12 bytes a piece.
///
/// ```
/// use bajofeki::{Columns, Document, Lexer, Place};
///
/// let lexer = Lexer::new("LET = 'let'\nNAME = /[a-z]+/\nSPACE skip = ' '\n")?;
/// let mut document = Document::new(&lexer, "let x")?;
/// let change = document.edit(4..5, "yz")?;
/// assert_eq!((document.text(), change.new_end), ("let yz", 6));
/// assert_eq!(document.piece_at(4)?.map(|piece| piece.text), Some("yz"));
/// let place = Place { line: 1, column: 5 };
/// assert_eq!(document.place(4, Columns::Utf16), Some(place));
/// assert_eq!(document.offset(place, Columns::Utf16), Some(4));
/// # Ok::<(), Box<dyn std::error::Error>>(())
/// ```
pub struct Document<'a> {
    lexer: &'a Lexer,
    text: String,
    held: HeldDocument<'a>,
}

impl<'a> Document<'a> {
    /// The text with its pieces.
    ///
    /// # Errors
    ///
    /// As for [`Document::edit`].
    pub fn new(lexer: &'a Lexer, text: &str) -> Result<Document<'a>, TextError> {
        let mut document = Document {
            lexer,
            text: String::new(),
            held: HeldDocument::begin(&lexer.held).map_err(TextError::new)?,
        };
        document.edit(0..0, text)?;
        Ok(document)
    }

    /// The text.
    pub fn text(&self) -> &str {
        &self.text
    }

    /// Its lexer.
    pub fn lexer(&self) -> &'a Lexer {
        self.lexer
    }

    /// Replaces a range of the text, in bytes, and cuts anew the pieces that depend on it.
    ///
    /// # Errors
    ///
    /// [`TextError::NoBoundary`], [`TextError::TooLarge`] or [`TextError::OutOfMemory`]. Then nothing has changed.
    pub fn edit(&mut self, range: Range<usize>, new: &str) -> Result<Change, TextError> {
        if self.text.try_reserve(new.len()).is_err() {
            return Err(TextError::OutOfMemory);
        }
        let edit = self.held.edit(range.start, range.end, new.as_bytes());
        if edit.code != 0 {
            return Err(TextError::new(edit.code));
        }
        self.text.replace_range(range, new);
        Ok(Change {
            first: edit.first,
            removed: edit.removed,
            inserted: edit.inserted,
            start: edit.start,
            old_end: edit.old_end,
            new_end: edit.new_end,
        })
    }

    /// The pieces that hold a byte of the range, each whole; all of them hold one of `0..document.text().len()`.
    ///
    /// # Errors
    ///
    /// [`OutOfMemory`], if they get no memory.
    pub fn pieces(&self, range: Range<usize>) -> Result<Vec<Piece<'_>>, OutOfMemory> {
        let (mut pieces, mut room) = (Vec::new(), 64);
        loop {
            pieces.try_reserve_exact(room).map_err(|_| OutOfMemory)?;
            pieces.resize(room, RawPiece::default());
            let found = self.held.pieces(range.start, range.end, &mut pieces);
            if found.code != 0 {
                return Err(OutOfMemory);
            }
            if found.count <= room {
                pieces.truncate(found.count);
                break;
            }
            room = found.count;
        }
        let mut given = Vec::new();
        given
            .try_reserve_exact(pieces.len())
            .map_err(|_| OutOfMemory)?;
        given.extend(
            pieces
                .iter()
                .map(|it| piece_of(self.lexer, &*self.text, *it)),
        );
        Ok(given)
    }

    /// The piece that holds the byte at an offset; `None` at the end of the text, and after it.
    ///
    /// # Errors
    ///
    /// As for [`Document::pieces`].
    pub fn piece_at(&self, at: usize) -> Result<Option<Piece<'_>>, OutOfMemory> {
        let pieces = self.pieces(at..at.saturating_add(1))?;
        Ok(pieces.first().copied())
    }

    /// The place of an offset; `None` if it's in a character, or past the end.
    pub fn place(&self, at: usize, columns: Columns) -> Option<Place> {
        let found = self.held.place(at);
        let start = self.held.offset(found.line, 1).at;
        let line = self.text.get(start..at)?;
        Some(Place {
            line: found.line,
            column: 1 + columns.width(line.as_bytes(), found.column - 1),
        })
    }

    /// The offset of a place, of which the column may be the one after the last of its line; `None` if there is no such place.
    pub fn offset(&self, place: Place, columns: Columns) -> Option<usize> {
        let start = self.held.offset(place.line, 1);
        let line = self.text[start.at..].split('\n').next();
        let line = line.filter(|_| start.line > 0)?;
        let mut column = 1;
        for (at, c) in line.char_indices() {
            if column == place.column {
                return Some(start.at + at);
            }
            let bytes = &line.as_bytes()[at..at + c.len_utf8()];
            column += columns.width(bytes, 1);
        }
        (column == place.column).then_some(start.at + line.len())
    }
}

impl fmt::Debug for Document<'_> {
    fn fmt(&self, f: &mut fmt::Formatter<'_>) -> fmt::Result {
        f.debug_struct("Document")
            .field("text", &self.text)
            .finish_non_exhaustive()
    }
}
