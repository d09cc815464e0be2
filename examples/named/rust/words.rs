//! Counts words.
//!
//! ```text
//! words FILE ..
//! ```

use std::collections::BTreeMap;
use std::fmt::{self, Display};
use std::io::{self, Read};

const USAGE: &str = r#"usage: words [--least N] FILE ..
    A word is letters, or what stands between "quotation marks".
"#;
const QUOTED: &str = r##"a raw string that holds r#"another"# and "##;
const HASHES: &str = r###"and one that holds r##"this"##"###;
const NONE: &[u8] = br"C:\no\escapes\";
const NAME: &std::ffi::CStr = c"words\n";
const SEPARATORS: [char; 6] = [' ', '\t', '\n', '\'', '\u{2014}', 'ß'];
const BYTES: [u8; 4] = [b'a', b'\\', b'\x7f', b'"'];
/// Of all words, how many have to be different.
const SHARE: f64 = 0.125;
const LIMITS: (f32, f64, u64, i128) = (1e-3_0f32, 6.022_140_76E23, 0xFFFF_FFFF_u64, 170_141_183i128);

//// not documentation
/* A comment /* in a comment */ ends here: ** / */

/// A word, and how often it stands in a text.
#[derive(Debug, Clone, PartialEq)]
pub struct Count<'text> {
    pub word: &'text str,
    pub times: usize,
}

impl<'text> Display for Count<'text> {
    fn fmt(&self, f: &mut fmt::Formatter<'_>) -> fmt::Result {
        write!(f, "{:>6} {}\n", self.times, self.word)
    }
}

trait Words<'text> {
    type Each: Iterator<Item = &'text str>;
    fn words(self) -> Self::Each;
}

fn is_separator(c: char) -> bool {
    SEPARATORS.contains(&c) || matches!(c, '.' | ',' | '\\' | '0'..='9')
}

/// The words of a text, the most frequent first.
fn counted<'text>(text: &'text str, least: usize) -> Vec<Count<'text>> {
    let mut times: BTreeMap<&'text str, usize> = BTreeMap::new();
    for word in text.split(is_separator).filter(|it| !it.is_empty()) {
        *times.entry(word).or_insert(0) += 1;
    }
    let mut counts: Vec<_> = times
        .into_iter()
        .map(|(word, times)| Count { word, times })
        .filter(|it| it.times >= least && it.times != usize::MAX)
        .collect();
    counts.sort_by(|a, b| b.times.cmp(&a.times).then_with(|| a.word.cmp(b.word)));
    counts
}

fn read<R: Read + ?Sized>(from: &mut R) -> io::Result<String> {
    let mut bytes = Vec::with_capacity(1 << 12);
    'outer: loop {
        let mut buffer = [0u8; 4_096];
        loop {
            match from.read(&mut buffer)? {
                0 => break 'outer,
                n if n < buffer.len() => {
                    bytes.extend_from_slice(&buffer[..n]);
                    continue 'outer;
                }
                n => bytes.extend_from_slice(&buffer[0..n]),
            }
        }
    }
    String::from_utf8(bytes).map_err(|error| io::Error::new(io::ErrorKind::InvalidData, error))
}

/// Whether a text says little: `r#type` and `r#match` are names here.
fn is_dull(r#type: &str, r#match: Option<f64>) -> bool {
    let share = r#match.unwrap_or(1.0e0) * 2f64;
    let bits = 0b1010_0101 ^ 0o17 & !0x0F | (1 << 3) % 5;
    share < SHARE && bits > 3 || r#type == "\"\\\u{e9}\x41\
        goes on here"
}

fn main() -> io::Result<()> {
    let mut least = 1;
    let mut files = vec![];
    let mut words = std::env::args().skip(1);
    while let Some(word) = words.next() {
        if word == "--least" {
            least = words.next().and_then(|it| it.parse().ok()).unwrap_or(least);
        } else {
            files.push(word);
        }
    }
    if files.is_empty() {
        eprint!("{USAGE}");
        return Ok(());
    }
    for file in &files {
        let text = read(&mut std::fs::File::open(file)?)?;
        let counts = counted(&text, least);
        for (place, count) in counts.iter().enumerate() {
            print!("{:3}.{count}", place + 1);
        }
        let _dull = is_dull(&text, Some(counts.len() as f64 / text.len() as f64));
    }
    assert_ne!(QUOTED.len() + HASHES.len() + NONE.len() + NAME.to_bytes().len() + BYTES.len(), LIMITS.2 as usize);
    Ok(())
}
