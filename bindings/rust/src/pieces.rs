//! The pieces of a text.

use std::error::Error;
use std::fmt::{self, Display, Formatter};
use std::iter::FusedIterator;
use std::ops::Range;

use crate::ffi::{Cutting, Piece as RawPiece, DONE, FULL, TOO_DEEP};
use crate::Lexer;

/// How many pieces are asked for at once.
pub(crate) const ROOM: usize = 512;

/// What a piece is.
#[derive(Clone, Copy, Debug, PartialEq, Eq, Hash)]
pub enum Kind {
    /// A token: the longest match, of the rule that wins.
    Token,
    /// A token whose rule is skipped.
    Skipped,
    /// Characters at none of which a rule matches, up to the next match or the end of the text.
    Fault,
    /// The rest of the text, which isn't cut: its first token would put a mode on top of more than 1024 others. The last piece.
    TooDeep,
}

/// What can be cut: a `str`, or bytes, which needn't be UTF-8.
pub trait Text: AsRef<[u8]> {
    /// What its parts are.
    type Part: Text<Part = Self::Part> + ?Sized;

    /// The part in this range of bytes.
    fn part(&self, range: Range<usize>) -> &Self::Part;
}

macro_rules! is_text {
    ($($of:ty, $part:ty, [$($more:tt)*];)*) => {
        $(impl<$($more)*> Text for $of {
            type Part = $part;

            fn part(&self, range: Range<usize>) -> &$part {
                &self[range]
            }
        })*
    };
}

is_text! {
    str, str, [];
    String, str, [];
    [u8], [u8], [];
    [u8; N], [u8], [const N: usize];
    Vec<u8>, [u8], [];
}

impl<T: Text + ?Sized> Text for &T {
    type Part = T::Part;

    fn part(&self, range: Range<usize>) -> &T::Part {
        (**self).part(range)
    }
}

/// A part of a text.
#[derive(Debug, PartialEq, Eq, Hash)]
pub struct Piece<'a, T: ?Sized = str> {
    /// What it is.
    pub kind: Kind,
    /// The name of its rule; empty if it isn't a token.
    pub rule: &'a str,
    /// The number of its rule in [`Lexer::rules`]; `None` if it isn't a token. Of rules that are one kind it is the first.
    pub number: Option<usize>,
    /// What stands there.
    pub text: &'a T,
    /// Where it begins, in bytes.
    pub start: usize,
}

impl<T: ?Sized> Clone for Piece<'_, T> {
    fn clone(&self) -> Self {
        *self
    }
}

impl<T: ?Sized> Copy for Piece<'_, T> {}

impl<T: AsRef<[u8]> + ?Sized> Piece<'_, T> {
    /// Where it stands, in bytes.
    pub fn range(&self) -> Range<usize> {
        self.start..self.start + self.text.as_ref().len()
    }
}

/// The piece, with the name of its rule and its text.
pub(crate) fn piece_of<'a, T: Text + ?Sized>(
    lexer: &'a Lexer,
    text: &'a T,
    piece: RawPiece,
) -> Piece<'a, T::Part> {
    let (kind, number) = match piece.kind {
        0 => (Kind::Token, Some(piece.rule)),
        1 => (Kind::Skipped, Some(piece.rule)),
        2 => (Kind::Fault, None),
        _ => (Kind::TooDeep, None),
    };
    Piece {
        kind,
        rule: number.map_or("", |it| lexer.rules[it].name.as_str()),
        number,
        text: text.part(piece.start..piece.start + piece.length),
        start: piece.start,
    }
}

/// The pieces of a text, one after another: [`Lexer::pieces`].
#[derive(Debug)]
pub struct Pieces<'a, T: ?Sized = str> {
    lexer: &'a Lexer,
    text: &'a T,
    cutting: Cutting<'a>,
    pieces: Vec<RawPiece>,
    /// Of `pieces`, those from `next` to `count` are still to come.
    next: usize,
    count: usize,
    /// After them the cut goes on, unless the code says that it ended.
    code: u32,
}

/// A request for memory was refused.
#[derive(Clone, Copy, Debug, PartialEq, Eq)]
pub struct OutOfMemory;

impl Display for OutOfMemory {
    fn fmt(&self, f: &mut Formatter<'_>) -> fmt::Result {
        f.write_str("out of memory")
    }
}

impl Error for OutOfMemory {}

impl<'a, T: Text + ?Sized> Pieces<'a, T> {
    pub(crate) fn new(lexer: &'a Lexer, text: &'a T) -> Result<Pieces<'a, T>, OutOfMemory> {
        let mut pieces = Pieces {
            lexer,
            text,
            cutting: Cutting::begin(&lexer.held, text.as_ref()).map_err(|_| OutOfMemory)?,
            pieces: Vec::new(),
            next: 0,
            count: 0,
            code: DONE,
        };
        pieces.get_ready()?;
        Ok(pieces)
    }

    /// Begins again, with another text. The memory serves again: many short texts take less time than by [`Lexer::pieces`] for each.
    ///
    /// # Errors
    ///
    /// [`OutOfMemory`], if the cut gets no memory. Then it has no pieces.
    ///
    /// ```
    /// let lexer = bajofeki::Lexer::new("A = 'a'\nB = 'b'\n")?;
    /// let mut pieces = lexer.pieces("");
    /// for line in ["a", "", "b?"] {
    ///     pieces.begin_again(line)?;
    ///     assert_eq!(pieces.by_ref().count(), line.len());
    /// }
    /// # Ok::<(), Box<dyn std::error::Error>>(())
    /// ```
    pub fn begin_again(&mut self, text: &'a T) -> Result<(), OutOfMemory> {
        self.text = text;
        self.cutting.begin_again(text.as_ref());
        self.get_ready()
    }

    /// Once the cut has begun.
    fn get_ready(&mut self) -> Result<(), OutOfMemory> {
        (self.next, self.count, self.code) = (0, 0, DONE);
        let room = self.text.as_ref().len().clamp(1, ROOM);
        let more = room.saturating_sub(self.pieces.len());
        if self.cutting.code() != DONE || self.pieces.try_reserve_exact(more).is_err() {
            return Err(OutOfMemory);
        }
        self.pieces
            .resize(self.pieces.len() + more, RawPiece::default());
        self.code = FULL;
        Ok(())
    }

    fn cut_on(&mut self) {
        let cut = self.cutting.cut(&mut self.pieces);
        (self.next, self.count, self.code) = (0, cut.count, cut.code);
        if self.count == 0 && self.code == TOO_DEEP {
            self.pieces[0] = RawPiece {
                kind: TOO_DEEP,
                rule: 0,
                start: cut.end,
                length: self.text.as_ref().len() - cut.end,
            };
            (self.count, self.code) = (1, DONE);
        }
    }
}

impl<'a, T: Text + ?Sized> Iterator for Pieces<'a, T> {
    type Item = Piece<'a, T::Part>;

    fn next(&mut self) -> Option<Piece<'a, T::Part>> {
        if self.next == self.count && self.code != DONE {
            self.cut_on();
        }
        let piece = *self.pieces[..self.count].get(self.next)?;
        self.next += 1;
        Some(piece_of(self.lexer, self.text, piece))
    }
}

impl<T: Text + ?Sized> FusedIterator for Pieces<'_, T> {}
