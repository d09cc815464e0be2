//! Where memory is refused to the crate, each call that can say so does, and nothing has changed.

use std::alloc::{GlobalAlloc, Layout, System};
use std::cell::Cell;
use std::fmt::Debug;

use bajofeki::{try_check, try_check_json, try_diff, try_dot, CheckError, Outcome};
use bajofeki::{Document, Lexer, OutOfMemory, RulesErrorKind, Stream, TextError};

thread_local! {
    /// How many further requests of this thread are granted.
    static GRANTED: Cell<usize> = const { Cell::new(usize::MAX) };
}

struct Refusing;

impl Refusing {
    fn is_granted() -> bool {
        GRANTED.with(|it| match it.get() {
            0 => false,
            usize::MAX => true,
            more => {
                it.set(more - 1);
                true
            }
        })
    }
}

// SAFETY: it's the system's allocator, which may refuse.
unsafe impl GlobalAlloc for Refusing {
    unsafe fn alloc(&self, layout: Layout) -> *mut u8 {
        if Refusing::is_granted() { System.alloc(layout) } else { std::ptr::null_mut() }
    }

    unsafe fn realloc(&self, at: *mut u8, layout: Layout, size: usize) -> *mut u8 {
        if Refusing::is_granted() { System.realloc(at, layout, size) } else { std::ptr::null_mut() }
    }

    unsafe fn dealloc(&self, at: *mut u8, layout: Layout) {
        System.dealloc(at, layout);
    }
}

#[global_allocator]
static HEAP: Refusing = Refusing;

/// The first request of a call is refused, then the second one, and so on, until all are granted; each time but the last it gives this.
fn refused<T: Debug, E: Debug + PartialEq>(error: E, mut call: impl FnMut() -> Result<T, E>) -> T {
    for granted in 0.. {
        GRANTED.with(|it| it.set(granted));
        let found = call();
        GRANTED.with(|it| it.set(usize::MAX));
        match found {
            Ok(found) => {
                assert!(granted > 0, "it asks for no memory");
                return found;
            }
            Err(found) => assert_eq!(found, error),
        }
    }
    unreachable!()
}

const RULES: &str = "LET = 'let'\nNAME = /[a-z]+/\nSPACE skip = /\\s+/\n";

#[test]
fn lexers_and_texts() {
    let kind = |rules| move || Lexer::new(rules).map_err(|it| it.kind);
    let lexer = refused(RulesErrorKind::OutOfMemory, kind(RULES));
    // The clash too has a name and a word to be kept.
    let clash = || match Lexer::new("ABC = /a/\nDEF = /a/\n") {
        Err(error) if error.kind == RulesErrorKind::Clash => Ok(error),
        found => Err(found.unwrap_err().kind),
    };
    assert_eq!(refused(RulesErrorKind::OutOfMemory, clash).other, "ABC");
    assert_eq!(refused(OutOfMemory, || lexer.try_pieces("let x").map(|it| it.count())), 3);
    assert_eq!(refused(OutOfMemory, || lexer.try_html("x")), lexer.html("x"));
    assert_eq!(refused(OutOfMemory, || lexer.try_ansi("x")), lexer.ansi("x"));
    assert_eq!(refused(OutOfMemory, || lexer.try_c_source("lex")), lexer.c_source("lex"));
    assert_eq!(refused(OutOfMemory, || lexer.try_rust_source()), lexer.rust_source());
    let mut document = refused(TextError::OutOfMemory, || Document::new(&lexer, "let x"));
    let new = "y".repeat(100);
    refused(TextError::OutOfMemory, || document.edit(5..5, &new));
    assert_eq!(document.text().len(), 105);
    assert_eq!(refused(OutOfMemory, || document.pieces(0..9).map(|it| it.len())), 3);
    let mut stream = Stream::new(&lexer);
    assert_eq!(stream.pieces(), Ok(vec![]));
    refused(TextError::OutOfMemory, || stream.feed("let x "));
    assert_eq!(refused(TextError::OutOfMemory, || stream.pieces().map(|it| it.len())), 3);
}

#[test]
fn rules() {
    let error = CheckError::OutOfMemory;
    let clash = "A = 'a'\nB = 'a'\n";
    let found = refused(error.clone(), || try_check(clash, "f"));
    assert_eq!((found.outcome, found), (Outcome::Refused, bajofeki::check(clash, "f")));
    let found = refused(error.clone(), || try_check_json("A\n", "f"));
    assert_eq!((found.outcome, found), (Outcome::Unread, bajofeki::check_json("A\n", "f")));
    assert_eq!(refused(error.clone(), || try_diff(RULES, "f", clash, "g")), bajofeki::diff(RULES, "f", clash, "g"));
    assert_eq!(Ok(refused(error.clone(), || try_dot(RULES, "f", None))), bajofeki::dot(RULES, "f", None));
    let no_rule = || match try_dot(RULES, "f", Some("B")) {
        Err(CheckError::NoRule(error)) => Ok(error),
        found => Err(found.unwrap_err()),
    };
    assert_eq!(Err(refused(error, no_rule)), bajofeki::dot(RULES, "f", Some("B")));
}
