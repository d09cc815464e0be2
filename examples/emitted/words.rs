//! Writes the tokens of standard input, and `!` before what no rule matches.
mod lexer;

use std::io::{Read, stdin};

fn main() -> Result<(), Box<dyn std::error::Error>> {
    let mut text = String::new();
    stdin().read_to_string(&mut text)?;
    for piece in lexer::Lexer::new(text.as_bytes()) {
        let piece = piece?;
        if !piece.is_skipped() {
            let name = piece.kind.map_or("!", |kind| kind.name());
            println!("{name} {}", &text[piece.range()]);
        }
    }
    Ok(())
}
