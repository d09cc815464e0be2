//! Why there is no lexer.

use std::error::Error;
use std::fmt::{self, Display, Formatter, Write};

use crate::ffi::{Held, Report};

/// What is wrong with the rules.
#[derive(Clone, Copy, Debug, PartialEq, Eq, Hash)]
#[non_exhaustive]
pub enum RulesErrorKind {
    /// A line of the file is wrong.
    BadLine,
    /// The text of a rule doesn't parse.
    NotParsed,
    /// The end of a `from .. to` is empty or has more than 64 characters.
    BadEnd,
    /// A rule can't be compiled.
    NotCompiled,
    /// Two rules match the same word, and neither wins.
    Clash,
    /// There are no rules, or too many, or they are too large for a table.
    TooLarge,
    /// A request for memory was refused.
    OutOfMemory,
    /// The library that was linked isn't of this crate's version.
    OtherVersion,
}

/// Why there is no lexer. What a kind doesn't have is 0 or empty.
#[derive(Clone, Debug, PartialEq, Eq)]
#[non_exhaustive]
pub struct RulesError {
    /// What is wrong.
    pub kind: RulesErrorKind,
    /// Where the line is wrong, or where the text of the rule begins, from 1.
    pub line: usize,
    /// The column there, from 1, in characters.
    pub column: usize,
    /// The name of the rule; of a clash that of the later one.
    pub rule: String,
    /// The name of the earlier rule of a clash.
    pub other: String,
    /// Where the text of that one begins, from 1.
    pub other_line: usize,
    /// The column there, from 1, in characters.
    pub other_column: usize,
    /// The least word on which they clash. A value is a character's number, or a surrogate's.
    pub word: Vec<u32>,
    /// Where in the rule's text it stops to parse, in bytes.
    pub position: usize,
}

impl RulesError {
    /// An error that has its kind alone.
    pub(crate) fn of(kind: RulesErrorKind) -> RulesError {
        RulesError {
            kind,
            line: 0,
            column: 0,
            rule: String::new(),
            other: String::new(),
            other_line: 0,
            other_column: 0,
            word: Vec::new(),
            position: 0,
        }
    }

    pub(crate) fn new(report: Report, held: &Held) -> RulesError {
        RulesError::told(report, held)
            .unwrap_or_else(|_| RulesError::of(RulesErrorKind::OutOfMemory))
    }

    fn told(report: Report, held: &Held) -> Result<RulesError, u32> {
        let kind = match report.code {
            1 => RulesErrorKind::BadLine,
            2 => RulesErrorKind::NotParsed,
            3 => RulesErrorKind::BadEnd,
            4 => RulesErrorKind::NotCompiled,
            5 => RulesErrorKind::Clash,
            6 => RulesErrorKind::TooLarge,
            _ => RulesErrorKind::OutOfMemory,
        };
        // Where no rule is wrong the library has no names, and gives an empty one.
        let rule = held.name(report.rule)?;
        let other = match kind {
            RulesErrorKind::Clash => held.name(report.other)?,
            _ => String::new(),
        };
        Ok(RulesError {
            kind,
            line: report.line,
            column: report.column,
            rule,
            other,
            other_line: report.other_line,
            other_column: report.other_column,
            word: held.word()?,
            position: report.position,
        })
    }
}

/// As Rust writes a string, but for surrogates too.
fn quoted(word: &[u32]) -> Result<String, fmt::Error> {
    let mut text = String::new();
    for &value in word {
        match char::from_u32(value) {
            Some(c @ ('"' | '\\')) => write!(text, "\\{c}")?,
            Some(c) if !c.is_control() => text.push(c),
            Some(_) | None => write!(text, "\\u{{{value:x}}}")?,
        }
    }
    Ok(text)
}

impl Display for RulesError {
    fn fmt(&self, f: &mut Formatter<'_>) -> fmt::Result {
        if self.line > 0 {
            write!(f, "line {}, column {}: ", self.line, self.column)?;
        }
        let (rule, other) = (&self.rule, &self.other);
        match self.kind {
            RulesErrorKind::BadLine => write!(f, "this is no line of a file of rules"),
            RulesErrorKind::NotParsed => write!(
                f,
                "{rule}: the text of this rule doesn't parse from byte {} on",
                self.position
            ),
            RulesErrorKind::BadEnd => write!(
                f,
                "{rule}: the end of this rule is empty or has more than 64 characters"
            ),
            RulesErrorKind::NotCompiled => write!(f, "{rule}: this rule can't be compiled"),
            RulesErrorKind::Clash => {
                write!(
                    f,
                    "{rule} and {other} (line {}, column {}) clash: both match \"{}\", and neither wins",
                    self.other_line,
                    self.other_column,
                    quoted(&self.word)?
                )
            }
            RulesErrorKind::TooLarge => write!(
                f,
                "there are no rules, or too many, or they are too large for a table"
            ),
            RulesErrorKind::OutOfMemory => write!(f, "out of memory"),
            RulesErrorKind::OtherVersion => write!(f, "the linked library has another version"),
        }
    }
}

impl Error for RulesError {}
