//! Lexers of rules that come at run time. What they answer is proved: `bindings/README.md` says what that means.
//!
//! ```
//! use bajofeki::{Kind, Lexer};
//!
//! let lexer = Lexer::new("LET = 'let'\nNAME = /[a-z]+/\nSPACE skip = /\\s+/\n")?;
//! let found: Vec<_> = lexer.pieces("let x?").map(|piece| (piece.kind, piece.rule, piece.text)).collect();
//! assert_eq!(
//!     found,
//!     [
//!         (Kind::Token, "LET", "let"),
//!         (Kind::Skipped, "SPACE", " "),
//!         (Kind::Token, "NAME", "x"),
//!         (Kind::Fault, "", "?"),
//!     ]
//! );
//! # Ok::<(), bajofeki::RulesError>(())
//! ```
//!
//! All `unsafe` code is in the module `ffi`, which calls the library.

#![deny(unsafe_code)]
#![deny(missing_docs)]

mod check;
mod document;
#[allow(unsafe_code)]
mod ffi;
mod pieces;
mod places;
mod rules_error;
mod stream;
mod text_error;

pub use check::{check, check_json, diff, dot, Checked, NoRule, Outcome};
pub use check::{try_check, try_check_json, try_diff, try_dot, CheckError};
pub use document::{Change, Document};
pub use pieces::{Kind, OutOfMemory, Piece, Pieces, Text};
pub use places::{Columns, Place, Places};
pub use rules_error::{RulesError, RulesErrorKind};
pub use stream::Stream;
pub use text_error::TextError;

use std::alloc::{handle_alloc_error, Layout};
use std::fmt;

use ffi::{Markup, BAD_NAME};

/// A rule of a lexer.
#[derive(Clone, Debug, PartialEq, Eq)]
pub struct Rule {
    /// Its name, which several rules may have.
    pub name: String,
    /// Whether its tokens are skipped.
    pub is_skipped: bool,
    /// What a token of it does to the stack of modes, one after another.
    pub actions: Vec<Action>,
}

/// What a token of a rule does to the stack of modes. A text begins in mode 0, with none below it.
#[derive(Clone, Copy, Debug, PartialEq, Eq)]
pub enum Action {
    /// This mode takes the place of the one on top.
    Mode(usize),
    /// This mode comes on top.
    Push(usize),
    /// The one on top is taken away; the last one stays.
    Pop,
}

/// How many characters after a token can leave open whether a longer one comes.
#[derive(Clone, Copy, Debug, PartialEq, Eq)]
pub enum Lookahead {
    /// At most this many.
    AtMost(usize),
    /// Any number of them.
    Unbounded,
}

/// A lexer. Threads may share it: it is only read.
///
/// ```
/// let lexer = bajofeki::Lexer::new("NUMBER = /[0-9]+/\n")?;
/// std::thread::scope(|scope| {
///     for text in ["1", "22"] {
///         let lexer = &lexer;
///         scope.spawn(move || assert_eq!(lexer.pieces(text).count(), 1));
///     }
/// });
/// # Ok::<(), bajofeki::RulesError>(())
/// ```
pub struct Lexer {
    held: ffi::Held,
    rules: Vec<Rule>,
    modes: Vec<String>,
}

/// As many of these as there are, where refused memory is an error.
fn collected<T>(
    count: usize,
    get: impl Fn(usize) -> Result<T, RulesError>,
) -> Result<Vec<T>, RulesError> {
    let mut all = Vec::new();
    let room = all.try_reserve_exact(count);
    room.map_err(|_| RulesError::of(RulesErrorKind::OutOfMemory))?;
    for number in 0..count {
        all.push(get(number)?);
    }
    Ok(all)
}

fn actions(held: &ffi::Held, rule: usize) -> Result<Vec<Action>, RulesError> {
    let count = (0..)
        .take_while(|&place| held.action(rule, place).kind < 3)
        .count();
    collected(count, |place| {
        let action = held.action(rule, place);
        Ok(match action.kind {
            0 => Action::Mode(action.mode),
            1 => Action::Push(action.mode),
            _ => Action::Pop,
        })
    })
}

impl Lexer {
    /// The lexer of a file of rules, which `docs/PROGRAMS.md` describes.
    ///
    /// # Errors
    ///
    /// A [`RulesError`] says what is wrong with the rules, and where.
    ///
    /// ```
    /// use bajofeki::{Lexer, RulesErrorKind};
    ///
    /// let error = Lexer::new("IF = /if/\nNAME = /[a-z]+/\n").unwrap_err();
    /// assert_eq!(error.kind, RulesErrorKind::Clash);
    /// assert_eq!((error.line, error.other_line), (2, 1));
    /// assert_eq!(
    ///     error.to_string(),
    ///     r#"line 2, column 9: NAME and IF (line 1, column 7) clash: both match "if", and neither wins"#
    /// );
    /// ```
    pub fn new(rules: impl AsRef<[u8]>) -> Result<Lexer, RulesError> {
        if !is_of_this_version() {
            return Err(RulesError::of(RulesErrorKind::OtherVersion));
        }
        let out_of_memory = || RulesError::of(RulesErrorKind::OutOfMemory);
        let held = ffi::Held::build(rules.as_ref()).map_err(|_| out_of_memory())?;
        let report = held.report();
        if report.code != 0 {
            return Err(RulesError::new(report, &held));
        }
        let rules = collected(held.rules(), |rule| {
            Ok(Rule {
                name: held.name(rule).map_err(|_| out_of_memory())?,
                is_skipped: held.skips(rule),
                actions: actions(&held, rule)?,
            })
        })?;
        let name = |mode| held.mode_name(mode).map_err(|_| out_of_memory());
        let modes = collected(held.modes(), name)?;
        Ok(Lexer { held, rules, modes })
    }

    /// Its rules, in the order of their lines.
    ///
    /// ```
    /// let lexer = bajofeki::Lexer::new("A = 'a'\nSPACE skip = ' '\n")?;
    /// assert_eq!(lexer.rules()[1].name, "SPACE");
    /// assert!(lexer.rules()[1].is_skipped);
    /// # Ok::<(), bajofeki::RulesError>(())
    /// ```
    pub fn rules(&self) -> &[Rule] {
        &self.rules
    }

    /// Cuts a text, which is a `str` or bytes: its pieces are what it consists of, from its beginning to its end, skipped tokens and
    /// faults too.
    ///
    /// By its code it takes time linear in the text, and some memory for each byte of it. If that is refused, it ends the process
    /// as `Vec` does.
    ///
    /// ```
    /// let lexer = bajofeki::Lexer::new("A = /a+/\n")?;
    /// let parts: Vec<_> = lexer.pieces(b"aa\xFF").map(|piece| piece.text).collect();
    /// assert_eq!(parts, [&b"aa"[..], b"\xFF"]);
    /// # Ok::<(), bajofeki::RulesError>(())
    /// ```
    pub fn pieces<'a, T: Text + ?Sized>(&'a self, text: &'a T) -> Pieces<'a, T::Part> {
        had(self.try_pieces(text))
    }

    /// As [`Lexer::pieces`], where refused memory is an error.
    ///
    /// # Errors
    ///
    /// [`OutOfMemory`], if the cut gets no memory.
    ///
    /// ```
    /// let lexer = bajofeki::Lexer::new("A = 'a'\nB = 'b'\n")?;
    /// let numbers: Vec<_> = lexer.try_pieces("ba?")?.map(|piece| piece.number).collect();
    /// assert_eq!(numbers, [Some(1), Some(0), None]);
    /// # Ok::<(), Box<dyn std::error::Error>>(())
    /// ```
    pub fn try_pieces<'a, T: Text + ?Sized>(
        &'a self,
        text: &'a T,
    ) -> Result<Pieces<'a, T::Part>, OutOfMemory> {
        Pieces::new(self, text.part(0..text.as_ref().len()))
    }

    /// The text as HTML: each token in a `span` whose class is the name of its rule, each fault in a `mark`, and skipped tokens in
    /// neither. Memory is as for [`Lexer::pieces`].
    ///
    /// ```
    /// let lexer = bajofeki::Lexer::new("A = 'a'\nLESS skip = '<'\n")?;
    /// assert_eq!(lexer.html("a<?"), r#"<span class="A">a</span>&lt;<mark>?</mark>"#);
    /// # Ok::<(), bajofeki::RulesError>(())
    /// ```
    pub fn html(&self, text: &str) -> String {
        had(self.try_html(text))
    }

    /// As [`Lexer::html`], where refused memory is an error.
    ///
    /// # Errors
    ///
    /// [`OutOfMemory`], if the page gets no memory.
    pub fn try_html(&self, text: &str) -> Result<String, OutOfMemory> {
        self.page(text, Markup::Html)
    }

    /// The text in colours for a terminal, by escape sequences. It can't control the terminal. Memory is as for [`Lexer::pieces`].
    ///
    /// ```
    /// let lexer = bajofeki::Lexer::new("A = 'a'\n")?;
    /// assert_eq!(lexer.ansi("a"), "\x1b[31ma\x1b[0m");
    /// # Ok::<(), bajofeki::RulesError>(())
    /// ```
    pub fn ansi(&self, text: &str) -> String {
        had(self.try_ansi(text))
    }

    /// As [`Lexer::ansi`], where refused memory is an error.
    ///
    /// # Errors
    ///
    /// [`OutOfMemory`], if the page gets no memory.
    pub fn try_ansi(&self, text: &str) -> Result<String, OutOfMemory> {
        self.page(text, Markup::Ansi)
    }

    fn page(&self, text: &str, markup: Markup) -> Result<String, OutOfMemory> {
        let page = self.held.page(text.as_bytes(), markup);
        page.map_err(|_| OutOfMemory)
    }

    /// The lexer as one source file in C, as `tokens --emit c` writes it: C99 and C++, with names that begin with the prefix. `None` if
    /// that isn't an identifier of ASCII letters, digits and `_`. Memory is as for [`Lexer::pieces`].
    ///
    /// ```
    /// let lexer = bajofeki::Lexer::new("A = 'a'\n")?;
    /// assert!(lexer.c_source("lex").unwrap().contains("lex_kind_A"));
    /// assert_eq!(lexer.c_source("1ex"), None);
    /// # Ok::<(), bajofeki::RulesError>(())
    /// ```
    pub fn c_source(&self, prefix: &str) -> Option<String> {
        had(self.try_c_source(prefix))
    }

    /// As [`Lexer::c_source`], where refused memory is an error.
    ///
    /// # Errors
    ///
    /// [`OutOfMemory`], if the file gets no memory.
    pub fn try_c_source(&self, prefix: &str) -> Result<Option<String>, OutOfMemory> {
        source(self.held.c_source(prefix.as_bytes()))
    }

    /// The lexer as one source file in Rust, as `tokens --emit rust` writes it. `None` if the name of a rule begins with a digit, or is
    /// `_`, `self`, `super`, `crate` or `Self`. Memory is as for [`Lexer::pieces`].
    ///
    /// ```
    /// let lexer = bajofeki::Lexer::new("A = 'a'\n")?;
    /// assert!(lexer.rust_source().unwrap().contains("pub enum Kind"));
    /// # Ok::<(), bajofeki::RulesError>(())
    /// ```
    pub fn rust_source(&self) -> Option<String> {
        had(self.try_rust_source())
    }

    /// As [`Lexer::rust_source`], where refused memory is an error.
    ///
    /// # Errors
    ///
    /// [`OutOfMemory`], if the file gets no memory.
    pub fn try_rust_source(&self) -> Result<Option<String>, OutOfMemory> {
        source(self.held.rust_source())
    }

    /// The names of its modes, which are numbered from 0, in the order in which the file first names them.
    ///
    /// ```
    /// use bajofeki::{Action, Lexer};
    ///
    /// let lexer = Lexer::new("OPEN push IN = '('\n[IN]\nCLOSE pop = ')'\n")?;
    /// assert_eq!(lexer.modes(), ["INITIAL", "IN"]);
    /// assert_eq!(lexer.rules()[0].actions, [Action::Push(1)]);
    /// # Ok::<(), bajofeki::RulesError>(())
    /// ```
    pub fn modes(&self) -> &[String] {
        &self.modes
    }

    /// How many characters after a token of this mode can leave open whether a longer one comes; `None` if there is no such mode.
    ///
    /// ```
    /// use bajofeki::{Lexer, Lookahead};
    ///
    /// let lexer = Lexer::new("A = /a(bc)?/\n")?;
    /// assert_eq!(lexer.lookahead(0), Some(Lookahead::AtMost(1)));
    /// assert_eq!(lexer.lookahead(1), None);
    /// # Ok::<(), bajofeki::RulesError>(())
    /// ```
    pub fn lookahead(&self, mode: usize) -> Option<Lookahead> {
        let look = self.held.lookahead(mode);
        match look.code {
            0 => Some(Lookahead::AtMost(look.count)),
            1 => Some(Lookahead::Unbounded),
            _ => None,
        }
    }
}

impl fmt::Debug for Lexer {
    fn fmt(&self, f: &mut fmt::Formatter<'_>) -> fmt::Result {
        f.debug_struct("Lexer")
            .field("rules", &self.rules)
            .finish_non_exhaustive()
    }
}

/// A source file, unless a name can't stand in it.
fn source(found: Result<String, u32>) -> Result<Option<String>, OutOfMemory> {
    match found {
        Ok(source) => Ok(Some(source)),
        Err(BAD_NAME) => Ok(None),
        Err(_) => Err(OutOfMemory),
    }
}

/// What there was memory for. Without it the process ends, as by `Vec`.
fn had<T>(found: Result<T, OutOfMemory>) -> T {
    found.unwrap_or_else(|_| handle_alloc_error(Layout::new::<u8>()))
}

/// The version of the library's functions, which is the first number of the crate's.
pub fn version() -> u32 {
    ffi::version()
}

fn is_of_this_version() -> bool {
    env!("CARGO_PKG_VERSION_MAJOR").parse() == Ok(version())
}

// Lexers, pieces and errors go from thread to thread, and threads may share them. Documents and streams go, and are one thread's at a time.
const _: () = {
    const fn is_sent<T: Send>() {}
    is_sent::<Document<'_>>();
    is_sent::<Stream<'_>>();
    const fn is_shared<T: Send + Sync>() {}
    is_shared::<Lexer>();
    is_shared::<Pieces<'_>>();
    is_shared::<RulesError>();
};
