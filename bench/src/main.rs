//! What one call finds in a text, or makes of terminals, and the least time of some rounds. `../run` says how it is called.
#![tactic(auto)]

use anyhow::{Context, Result, bail};
use lalrpop_dense::DenseDfa;
use bajofeki::Stream;
use lalrpop_emit::LexerNumbers;
use lalrpop_lexer::lexer::dfa::{Dfa, NfaIndex, Precedence, build_dfa, clashes};
use lalrpop_lexer::lexer::dfa::interpret::interpret;
use lalrpop_lexer::lexer::re::Regex;
use lalrpop_lexer::{Lexer, Terminals, Tokens, read_terminals, tokens};
use lalrpop_rules::{Piece, RuleLexer};
use lalrpop_verdicts::{minimized, verdicts};
use std::alloc::{AllocError, Global};
use std::time::{CpuClock, Duration};
use std::{env, fs};

// What a round found: tokens, states, clashes or terminals; places at which nothing matches; and a sum over lengths and terminals.
#[derive(Clone, Copy)]
struct Found {
    count: u64,
    faults: u64,
    sum: u64,
}

impl Found {
    fn none() -> Found {
        Found {
            count: 0,
            faults: 0,
            sum: 0,
        }
    }

    fn add(&mut self, terminal: NfaIndex, length: usize) {
        self.count = self.count.wrapping_add(1);
        self.sum = self
            .sum
            .wrapping_mul(31)
            .wrapping_add(terminal.index() as u64)
            .wrapping_add((length as u64) << 32);
    }

    fn add_fault(&mut self) {
        self.faults = self.faults.wrapping_add(1);
    }

    fn of(count: usize) -> Found {
        Found {
            count: count as u64,
            ..Found::none()
        }
    }
}

trait Work {
    fn round(&mut self, alloc: Global, call: &str, text: &str) -> Result<Found, AllocError>;
}

// The file of terminals as it is.
#[derive(Drop)]
struct Bytes<'a>(&'a [u8]);

impl Work for Bytes<'_> {
    fn round(&mut self, alloc: Global, _call: &str, _text: &str) -> Result<Found, AllocError> {
        match read_terminals(alloc, self.0)? {
            Terminals::All { regexs, .. } => Ok(Found::of(regexs.len())),
            _ => Ok(Found::none()),
        }
    }
}

#[derive(Drop)]
struct Listed {
    regexs: Vec<Regex>,
    precedences: Vec<Precedence>,
}

fn list_of(alloc: Global, bytes: &[u8]) -> Option<Listed> {
    match read_terminals(alloc, bytes).ok()? {
        Terminals::All {
            regexs,
            precedences,
        } => Some(Listed {
            regexs,
            precedences,
        }),
        _ => None,
    }
}

fn built(alloc: Global, list: &Listed) -> Option<Dfa> {
    if list.regexs.len() != list.precedences.len() {
        return None;
    }
    build_dfa(alloc, &list.regexs, &list.precedences).ok()
}

fn clash_count(alloc: Global, list: &Listed) -> Option<usize> {
    if list.regexs.len() != list.precedences.len() {
        return None;
    }
    let found = clashes(alloc, &list.regexs, &list.precedences).ok()?;
    Some(found.len())
}

impl Work for Listed {
    fn round(&mut self, alloc: Global, call: &str, _text: &str) -> Result<Found, AllocError> {
        if call == "clashes" {
            return Ok(Found::of(clash_count(alloc, self).unwrap_or(0)));
        }
        match built(alloc, self) {
            Some(dfa) => Ok(Found::of(dfa.states().len())),
            None => Ok(Found::none()),
        }
    }
}

#[derive(Drop)]
struct Judged {
    list: Listed,
    dfa: Dfa,
}

fn judged_of(alloc: Global, list: Listed) -> Option<Judged> {
    let dfa = built(alloc, &list)?;
    Some(Judged { list, dfa })
}

impl Work for Judged {
    fn round(&mut self, alloc: Global, call: &str, _text: &str) -> Result<Found, AllocError> {
        if call == "minimized" {
            return Ok(Found::of(minimized(alloc, &self.dfa)?.states().len()));
        }
        match verdicts(alloc, &self.list.regexs, &self.dfa) {
            Ok(found) => Ok(Found::of(found.len())),
            Err(_) => Ok(Found::none()),
        }
    }
}

#[derive(Drop)]
struct Cutters {
    dfa: Dfa,
    dense: DenseDfa,
    lexer: Lexer,
}

fn cutters_of(alloc: Global, list: Listed) -> Option<Cutters> {
    let dfa = built(alloc, &list)?;
    let Listed {
        regexs,
        precedences,
    } = list;
    if regexs.len() != precedences.len() {
        return None;
    }
    let lexer = Lexer::new(alloc, regexs, precedences).ok()?;
    let dense = DenseDfa::new(alloc, dfa.clone().ok()?).ok()?;
    Some(Cutters { dfa, dense, lexer })
}

impl Work for Cutters {
    fn round(&mut self, alloc: Global, call: &str, text: &str) -> Result<Found, AllocError> {
        match call {
            "interpret" => Ok(by_longest(&self.dfa, text)),
            "longest" => Ok(by_longest(&self.dense, text)),
            "dfa_tokens" => Ok(found_in(tokens(&self.dfa, text))),
            "tokens" => Ok(found_in(self.lexer.tokens(alloc, text)?)),
            _ => made_again(alloc, &self.dfa),
        }
    }
}

fn made_again(alloc: Global, dfa: &Dfa) -> Result<Found, AllocError> {
    let dense = DenseDfa::new(alloc, dfa.clone()?)?;
    Ok(Found::of(dense.dfa().states().len()))
}

trait Matcher: Drop {
    fn longest_match<'text>(&self, text: &'text str) -> Option<(NfaIndex, &'text str)>;
}

impl Matcher for Dfa {
    #[inline(always)]
    fn longest_match<'text>(&self, text: &'text str) -> Option<(NfaIndex, &'text str)> {
        interpret(self, text)
    }
}

impl Matcher for DenseDfa {
    #[inline(always)]
    fn longest_match<'text>(&self, text: &'text str) -> Option<(NfaIndex, &'text str)> {
        self.longest(text)
    }
}

// A character is passed over where nothing matches.
fn by_longest<M: Matcher>(matcher: &M, text: &str) -> Found {
    let mut found = Found::none();
    let mut rest = text;
    for _ in 0..text.len() {
        let Some(first) = rest.chars().next() else {
            break;
        };
        let length = match matcher.longest_match(rest) {
            Some((terminal, word)) => {
                found.add(terminal, word.len());
                word.len()
            }
            None => {
                found.add_fault();
                first.len_utf8()
            }
        };
        rest = rest.get(length..).unwrap_or("");
    }
    found
}

fn found_in(items: Tokens<'_>) -> Found {
    let mut found = Found::none();
    for item in items {
        match item {
            Ok((terminal, word)) => found.add(terminal, word.len()),
            Err(_) => found.add_fault(),
        }
    }
    found
}

#[derive(Drop)]
struct Ruled {
    lexer: RuleLexer,
    numbers: LexerNumbers,
}

fn ruled_of(alloc: Global, bytes: &[u8]) -> Option<Ruled> {
    let lexer = RuleLexer::from_file(alloc, bytes).ok()?;
    let numbers = LexerNumbers::new(alloc, &lexer).ok()?;
    Some(Ruled { lexer, numbers })
}

impl Work for Ruled {
    fn round(&mut self, alloc: Global, call: &str, text: &str) -> Result<Found, AllocError> {
        match call {
            "pieces" => by_pieces(alloc, &self.lexer, text),
            "chunks" => by_chunks(alloc, &self.lexer, text),
            _ => by_numbers(alloc, &self.numbers, text.as_bytes()),
        }
    }
}

fn add_piece(found: &mut Found, piece: &Piece<'_>) {
    match piece {
        Piece::Token(token) | Piece::Skipped(token) => found.add(token.index, token.slice.len()),
        Piece::Fault { .. } => found.add_fault(),
    }
}

fn by_pieces(alloc: Global, lexer: &RuleLexer, text: &str) -> Result<Found, AllocError> {
    let mut found = Found::none();
    for piece in lexer.pieces(alloc, text)? {
        match piece {
            Ok(piece) => add_piece(&mut found, &piece),
            Err(error) => return Err(error),
        }
    }
    Ok(found)
}

// The pieces that no later chunk can change.
fn add_pieces(found: &mut Found, chunks: &mut Stream<'_>) -> Result<(), AllocError> {
    // A piece has one byte at least.
    for _ in 0..chunks.rest().len() {
        match chunks.next_piece() {
            Ok(Some(piece)) => match piece.rule {
                Some(rule) => found.add(NfaIndex::new(rule), chunks.slice().len()),
                None => found.add_fault(),
            },
            Ok(None) => break,
            Err(_) => return Err(AllocError),
        }
    }
    Ok(())
}

// A chunk is a line.
fn by_chunks(alloc: Global, lexer: &RuleLexer, text: &str) -> Result<Found, AllocError> {
    let mut found = Found::none();
    let mut chunks = Stream::new(alloc, lexer);
    for line in text.split_inclusive('\n') {
        // Nothing ends the text before the last chunk.
        if chunks.is_ended() {
            break;
        }
        chunks.feed(line.as_bytes())?;
        add_pieces(&mut found, &mut chunks)?;
    }
    chunks.finish();
    add_pieces(&mut found, &mut chunks)?;
    Ok(found)
}

fn by_numbers(alloc: Global, numbers: &LexerNumbers, text: &[u8]) -> Result<Found, AllocError> {
    let mut found = Found::none();
    for piece in &numbers.pieces(alloc, text)?.pieces {
        match piece.kind {
            Some(_) => found.add(NfaIndex::new(piece.rule), piece.length),
            None => found.add_fault(),
        }
    }
    Ok(found)
}

// The least time of the rounds, and what each of them found.
fn tell<R: CpuClock + Print + AllocGlobal, W: Work>(
    rt: &R,
    work: &mut W,
    call: &str,
    text: &str,
    rounds: u32,
) -> Result<()> {
    let mut found = Found::none();
    let mut least = Duration::MAX;
    for _ in 0..rounds {
        let from = rt.process_cpu_time()?;
        found = work.round(rt.alloc(), call, text)?;
        least = least.min(rt.process_cpu_time()?.saturating_sub(from));
    }
    let Found { count, faults, sum } = found;
    let micros = least.as_micros();
    println!(rt; "{call}: {count} found, {faults} faults, sum {sum:x}, {micros} us")?;
    if !text.is_empty() {
        let hundredths = least.as_nanos().saturating_mul(100) / text.len() as u128;
        println!(rt; "{}.{:02} ns a byte", hundredths / 100, hundredths % 100)?;
    }
    Ok(())
}

fn main(rt: HostRuntime) -> Result<()> {
    let alloc = rt.alloc();
    let mut words = env::args(&rt)?;
    words.next();
    let (Some(call), Some(list), Some(text), Some(rounds)) = (
        words.next(),
        words.next(),
        words.next(),
        words.next(),
    ) else {
        // `rt run` proves, builds and runs the program with no argument.
        return Ok(());
    };
    let list = fs::read_to_string(&rt, &list).context(format_args!("{list}"))?;
    let text = fs::read_to_string(&rt, &text).context(format_args!("{text}"))?;
    let rounds = rounds.parse::<u32>().unwrap_or(1);
    let bytes = list.as_bytes();
    match call.as_str() {
        "read" => tell(&rt, &mut Bytes(bytes), &call, &text, rounds),
        "build" | "clashes" => match list_of(alloc, bytes) {
            Some(mut list) => tell(&rt, &mut list, &call, &text, rounds),
            None => bail!("a line is no terminal"),
        },
        "minimized" | "verdicts" => {
            match list_of(alloc, bytes).and_then(|list| judged_of(alloc, list)) {
                Some(mut judged) => tell(&rt, &mut judged, &call, &text, rounds),
                None => bail!("no automaton of these terminals"),
            }
        }
        "pieces" | "chunks" | "bytes" => match ruled_of(alloc, bytes) {
            Some(mut ruled) => tell(&rt, &mut ruled, &call, &text, rounds),
            None => bail!("no lexer of these rules"),
        },
        _ => match list_of(alloc, bytes).and_then(|list| cutters_of(alloc, list)) {
            Some(mut cutters) => tell(&rt, &mut cutters, &call, &text, rounds),
            None => bail!("no lexer of these terminals"),
        },
    }
}
