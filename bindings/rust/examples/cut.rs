//! `cut RULES TEXT [RULES TEXT ..]`: cuts each text by its file of rules, and writes and ends as `bindings/c/cut.c` does.

use std::env;
use std::fs;
use std::io::{self, BufWriter, Write};
use std::process::exit;

use bajofeki::{Kind, Lexer, Places, RulesErrorKind};

fn quoted(text: &str) -> String {
    let mut all = String::new();
    for c in text.chars() {
        match c {
            '"' | '\\' => all.extend(['\\', c]),
            '\n' => all.push_str("\\n"),
            '\r' => all.push_str("\\r"),
            '\t' => all.push_str("\\t"),
            c if c.is_ascii_control() => all.push_str(&format!("\\u{{{:x}}}", c as u32)),
            c => all.push(c),
        }
    }
    all
}

/// Cuts a text, and gives the status.
fn cut_text(lexer: &Lexer, path: &str, front: &str, text: &str) -> io::Result<i32> {
    let mut out = BufWriter::new(io::stdout().lock());
    let mut places = Places::new(text);
    let mut status = 0;
    for piece in lexer.pieces(text) {
        let place = places.at(piece.start);
        let name = match piece.kind {
            Kind::Token => piece.rule,
            Kind::Skipped => continue,
            Kind::Fault => "!",
            Kind::TooDeep => {
                eprintln!(
                    "cut: {path}:{}:{}: more than 1024 modes lie below the top",
                    place.line, place.column
                );
                return Ok(1);
            }
        };
        writeln!(
            out,
            "{front}{}:{} {name} \"{}\"",
            place.line,
            place.column,
            quoted(piece.text)
        )?;
        status = if piece.kind == Kind::Fault { 1 } else { status };
    }
    out.flush()?;
    Ok(status)
}

fn main() -> Result<(), Box<dyn std::error::Error>> {
    let words: Vec<String> = env::args().skip(1).collect();
    if words.is_empty() || words.len() % 2 != 0 {
        eprintln!("cut: usage: cut RULES TEXT [RULES TEXT ..]");
        exit(4);
    }
    let mut greatest = 0;
    for pair in words.chunks(2) {
        let front = if words.len() > 2 {
            format!("{}:", pair[1])
        } else {
            String::new()
        };
        let text = fs::read_to_string(&pair[1])?;
        let status = match Lexer::new(fs::read(&pair[0])?) {
            Ok(lexer) => cut_text(&lexer, &pair[1], &front, &text)?,
            Err(error) => {
                eprintln!("cut: {}: {error}", pair[0]);
                match error.kind {
                    RulesErrorKind::BadLine
                    | RulesErrorKind::NotParsed
                    | RulesErrorKind::BadEnd => 3,
                    RulesErrorKind::OutOfMemory => 5,
                    _ => 2,
                }
            }
        };
        greatest = greatest.max(status);
    }
    exit(greatest)
}
