//! Why a document isn't edited, or a stream takes no more.

use std::error::Error;
use std::fmt::{self, Display, Formatter};

use crate::ffi;

/// Why a document isn't edited, or a stream takes no more.
#[derive(Clone, Copy, Debug, PartialEq, Eq, Hash)]
#[non_exhaustive]
pub enum TextError {
    /// The range isn't one of whole characters of the document.
    NoBoundary,
    /// The document would have 4,294,967,295 bytes or more.
    TooLarge,
    /// The stream has ended.
    Ended,
    /// A request for memory was refused.
    OutOfMemory,
}

impl TextError {
    /// The error of a code of the library.
    pub(crate) fn new(code: u32) -> TextError {
        match code {
            ffi::BAD_RANGE => TextError::NoBoundary,
            ffi::TOO_LARGE => TextError::TooLarge,
            ffi::ENDED => TextError::Ended,
            _ => TextError::OutOfMemory,
        }
    }
}

impl Display for TextError {
    fn fmt(&self, f: &mut Formatter<'_>) -> fmt::Result {
        match self {
            TextError::NoBoundary => {
                f.write_str("the range isn't one of whole characters of the text")
            }
            TextError::TooLarge => f.write_str("the text would be too large"),
            TextError::Ended => f.write_str("the text has ended"),
            TextError::OutOfMemory => f.write_str("out of memory"),
        }
    }
}

impl Error for TextError {}
