//! A text that comes in chunks.

use std::fmt;

use crate::ffi::{HeldStream, Piece as RawPiece, DONE, FULL};
use crate::pieces::{piece_of, ROOM};
use crate::{Lexer, Piece, TextError};

/// A text that comes in chunks of any bytes. Each of its pieces is given once no later chunk can change it. What isn't UTF-8 matches
/// nothing, so it lies in a fault.
///
/// ```
/// use bajofeki::{Lexer, Stream};
///
/// let lexer = Lexer::new("NAME = /[a-z]+/\nSPACE skip = ' '\n")?;
/// let mut stream = Stream::new(&lexer);
/// stream.feed("let x")?;
/// let parts: Vec<_> = stream.pieces()?.iter().map(|piece| piece.text).collect();
/// assert_eq!(parts, [&b"let"[..], b" "]);
/// stream.feed(b"y")?;
/// stream.finish()?;
/// assert_eq!(stream.pieces()?[0].text, b"xy");
/// # Ok::<(), Box<dyn std::error::Error>>(())
/// ```
pub struct Stream<'a> {
    lexer: &'a Lexer,
    /// Nothing until the first chunk comes.
    held: Option<HeldStream<'a>>,
    /// What has come from the offset `at` on, of which the front stands in pieces.
    text: Vec<u8>,
    at: usize,
    pieces: Vec<RawPiece>,
    /// How many of `pieces` were given.
    given: usize,
}

impl<'a> Stream<'a> {
    /// A text of which nothing has come.
    pub fn new(lexer: &'a Lexer) -> Stream<'a> {
        Stream {
            lexer,
            held: None,
            text: Vec::new(),
            at: 0,
            pieces: Vec::new(),
            given: 0,
        }
    }

    /// More of the text comes, as a `str` or as bytes, which may end in a character.
    ///
    /// # Errors
    ///
    /// [`TextError::Ended`] after [`Stream::finish`], or [`TextError::OutOfMemory`]. Then nothing has changed.
    pub fn feed(&mut self, chunk: impl AsRef<[u8]>) -> Result<(), TextError> {
        self.take(chunk.as_ref(), false)
    }

    /// The text has ended.
    ///
    /// # Errors
    ///
    /// As for [`Stream::feed`].
    pub fn finish(&mut self) -> Result<(), TextError> {
        self.take(&[], true)
    }

    fn take(&mut self, chunk: &[u8], is_last: bool) -> Result<(), TextError> {
        self.let_given_go();
        if self.text.try_reserve(chunk.len()).is_err() {
            return Err(TextError::OutOfMemory);
        }
        if self.held.is_none() {
            self.held = Some(HeldStream::begin(&self.lexer.held).map_err(TextError::new)?);
        }
        let held = self.held.as_mut();
        let code = held.map_or(DONE, |it| it.feed(chunk, is_last));
        if code != DONE {
            return Err(TextError::new(code));
        }
        self.text.extend_from_slice(chunk);
        Ok(())
    }

    /// The further pieces that no later chunk can change.
    ///
    /// # Errors
    ///
    /// [`TextError::OutOfMemory`]; then a later call gives them.
    pub fn pieces(&mut self) -> Result<Vec<Piece<'_, [u8]>>, TextError> {
        self.let_given_go();
        let mut code = self.held.as_ref().map_or(DONE, |_| FULL);
        while code == FULL {
            let count = self.pieces.len();
            if self.pieces.try_reserve(ROOM).is_err() {
                return Err(TextError::OutOfMemory);
            }
            self.pieces.resize(count + ROOM, RawPiece::default());
            let (held, room) = (self.held.as_mut(), &mut self.pieces[count..]);
            let (of, found) = held.map_or((DONE, 0), |it| it.next(room));
            self.pieces.truncate(count + found);
            code = of;
        }
        if code != DONE {
            return Err(TextError::new(code));
        }
        let mut given = Vec::new();
        if given.try_reserve_exact(self.pieces.len()).is_err() {
            return Err(TextError::OutOfMemory);
        }
        self.given = self.pieces.len();
        let text = &self.text[..self.given_bytes()];
        for piece in &self.pieces {
            let start = piece.start - self.at;
            let found = piece_of(self.lexer, text, RawPiece { start, ..*piece });
            given.push(Piece {
                start: piece.start,
                ..found
            });
        }
        Ok(given)
    }

    /// How many bytes of `text` stand in pieces that were given.
    fn given_bytes(&self) -> usize {
        let last = self.pieces[..self.given].last();
        last.map_or(0, |it| it.start + it.length - self.at)
    }

    fn let_given_go(&mut self) {
        let bytes = self.given_bytes();
        self.text.drain(..bytes);
        self.pieces.drain(..self.given);
        (self.at, self.given) = (self.at + bytes, 0);
    }
}

impl fmt::Debug for Stream<'_> {
    fn fmt(&self, f: &mut fmt::Formatter<'_>) -> fmt::Result {
        f.debug_struct("Stream")
            .field("at", &self.at)
            .finish_non_exhaustive()
    }
}
