//! Cuts standard input by the lexer in lexer.rs, and writes the lines of pieces.c. It ends where there are too many modes. With an
//! argument the lexer has no memo.
#[path = "../../lexer.rs"]
mod lexer;

use std::io::{self, BufWriter, Read, Write};

fn main() -> io::Result<()> {
    let mut text = Vec::new();
    io::stdin().read_to_end(&mut text)?;
    let mut out = BufWriter::new(io::stdout());
    let mut memo = vec![0; lexer::Lexer::memo_size(text.len())];
    let lexer = match std::env::args().len() {
        1 => lexer::Lexer::linear(&text, &mut memo),
        _ => lexer::Lexer::new(&text),
    };
    for piece in lexer {
        let Ok(piece) = piece else { break };
        if piece.is_skipped() {
            continue;
        }
        let name = piece.kind.map_or("!", |kind| kind.name());
        let range = piece.range();
        writeln!(out, "{name} {} {}", range.start, range.end)?;
    }
    Ok(())
}
