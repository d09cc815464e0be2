//! On random texts documents and streams have the pieces of a whole cut, and places are found back.

use bajofeki::{Columns, Document, Kind, Lexer, Piece, Place, Places, Stream, TextError};

const RULES: &str = "LET = 'let'
NAME = /[a-z]+/
SPACE skip = /\\s+/
TEXT = /\"[^\"]*\"/
OPEN push INITIAL = '('
";

/// Numbers that look random, the same at each run.
struct Chance(u64);

impl Chance {
    fn below(&mut self, count: usize) -> usize {
        self.0 = self
            .0
            .wrapping_mul(6_364_136_223_846_793_005)
            .wrapping_add(1);
        (self.0 >> 33) as usize % count
    }

    fn text(&mut self, most: usize) -> String {
        let characters: Vec<_> = "ab let(\n\"é漢😀 ?".chars().collect();
        let length = self.below(most + 1);
        (0..length)
            .map(|_| characters[self.below(characters.len())])
            .collect()
    }
}

fn check_places(document: &Document<'_>) {
    let text = document.text();
    for columns in [Columns::Bytes, Columns::Characters, Columns::Utf16] {
        let (mut places, mut finds) = (Vec::new(), Places::new(text).columns(columns));
        for at in 0..text.len() + 2 {
            let place = document.place(at, columns);
            assert_eq!(place.is_some(), text.is_char_boundary(at));
            if let Some(place) = place {
                assert_eq!(place, finds.at(at));
                assert_eq!(place, Places::new(text).columns(columns).at(at));
                assert_eq!(document.offset(place, columns), Some(at));
                places.push(place);
            }
        }
        for (line, column) in (0..300).map(|it| (it / 30, it % 30)) {
            let place = Place { line, column };
            let is_place = document.offset(place, columns).is_some();
            assert_eq!(is_place, places.contains(&place));
        }
    }
}

#[test]
fn documents() -> Result<(), Box<dyn std::error::Error>> {
    let (lexer, mut chance) = (Lexer::new(RULES)?, Chance(1));
    for _ in 0..40 {
        let mut text = chance.text(200);
        let mut document = Document::new(&lexer, &text)?;
        for _ in 0..10 {
            let (a, b) = (chance.below(text.len() + 1), chance.below(text.len() + 1));
            let (range, new) = (a.min(b)..a.max(b), chance.text(6));
            let old = document.pieces(0..text.len())?.len();
            let is_range = text.is_char_boundary(a) && text.is_char_boundary(b);
            match document.edit(range.clone(), &new) {
                Ok(change) => {
                    text.replace_range(range, &new);
                    let pieces: Vec<_> = lexer.pieces(&text).collect();
                    assert_eq!(pieces.len() + change.removed, old + change.inserted);
                    assert_eq!(document.pieces(0..usize::MAX)?, pieces);
                    for piece in pieces {
                        assert_eq!(document.piece_at(piece.range().end - 1)?, Some(piece));
                    }
                }
                Err(error) => assert!(error == TextError::NoBoundary && !is_range),
            }
            assert_eq!(document.text(), text);
        }
        // It may go to another thread.
        std::thread::scope(|scope| scope.spawn(move || check_places(&document)).join()).unwrap();
    }
    Ok(())
}

/// A piece without what borrows the text.
type Part = (Kind, Option<usize>, usize, Vec<u8>);

fn parts<'a, T: AsRef<[u8]> + ?Sized + 'a>(pieces: impl IntoIterator<Item = Piece<'a, T>>) -> Vec<Part> {
    let part = |piece: Piece<'_, T>| (piece.kind, piece.number, piece.start, piece.text.as_ref().to_vec());
    pieces.into_iter().map(part).collect()
}

#[test]
fn streams() -> Result<(), Box<dyn std::error::Error>> {
    let (lexer, mut chance) = (Lexer::new(RULES)?, Chance(2));
    for _ in 0..200 {
        let text = chance.text(80);
        let (mut stream, mut given, mut rest) = (Stream::new(&lexer), Vec::new(), text.as_bytes());
        while !rest.is_empty() {
            let (chunk, more) = rest.split_at(rest.len().min(chance.below(20)));
            stream.feed(chunk)?;
            given.extend(parts(stream.pieces()?));
            rest = more;
        }
        stream.finish()?;
        given.extend(parts(stream.pieces()?));
        assert_eq!(given, parts(lexer.pieces(&text)));
        assert_eq!(stream.feed(""), Err(TextError::Ended));
    }
    let mut stream = Stream::new(&lexer);
    // A space may go on with the character that has begun.
    stream.feed(b"let \xC3")?;
    assert_eq!(stream.pieces()?.len(), 1);
    stream.feed("(")?;
    stream.finish()?;
    let found: Vec<_> = stream.pieces()?.iter().map(|it| (it.kind, it.text)).collect();
    assert_eq!(found, [(Kind::Skipped, &b" "[..]), (Kind::Fault, b"\xC3"), (Kind::Token, b"(")]);
    Ok(())
}

#[test]
fn lines_in_one_memory() -> Result<(), Box<dyn std::error::Error>> {
    let (lexer, mut chance) = (Lexer::new(RULES)?, Chance(3));
    let lines: Vec<_> = (0..300).map(|n| chance.text(if n % 50 == 49 { 3000 } else { 60 })).collect();
    let mut pieces = lexer.pieces("");
    for line in &lines {
        pieces.begin_again(line)?;
        pieces.nth(1);
        pieces.begin_again(line)?;
        assert_eq!(parts(pieces.by_ref()), parts(lexer.pieces(line)));
    }
    Ok(())
}
