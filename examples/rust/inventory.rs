//! Keeps the stock of a small warehouse.
//!
//! A journal is a text with one entry per line: what came in, what went out, and what was on the
//! shelf when somebody counted. The program reads journals, checks them, and prints what is left
//! and what it is worth.
//!
//! ```text
//! item  bolt-m8  "Bolt, M8 × 40"
//! in    bolt-m8  500 @ 0.08
//! out   bolt-m8  120 @ 0.15      # to the workshop
//! count bolt-m8  379
//! ```
//!
//! Build it with `rustc --edition 2021 inventory.rs`; `--test` builds its tests.

#![forbid(unsafe_code)]
#![warn(rust_2018_idioms)]

use std::collections::HashSet;
use std::env;
use std::error::Error;
use std::fs;
use std::process::ExitCode;

use journal::entries;
use report::Report;
use stock::{Average, Costing, Fifo, Ledger};

/// Amounts of money, exact to a hundredth of a cent.
pub mod money {
    use std::error::Error;
    use std::fmt;
    use std::iter::Sum;
    use std::ops::{Add, AddAssign, Mul, Sub, SubAssign};
    use std::str::FromStr;

    const DIGITS: usize = 4;
    const SCALE: i64 = 10_i64.pow(DIGITS as u32);

    /// An amount, counted in hundredths of a cent.
    #[derive(Clone, Copy, Debug, Default, PartialEq, Eq, PartialOrd, Ord, Hash)]
    pub struct Money(i64);

    /// The text is not an amount: digits, and up to four decimal places.
    #[derive(Clone, Copy, Debug, PartialEq, Eq)]
    pub struct NotMoney;

    impl Money {
        pub const ZERO: Self = Self(0);

        pub const fn from_cents(cents: i64) -> Self {
            Self(cents * (SCALE / 100))
        }

        /// What each of `count` gets, rounded to the nearest unit, or `None` if there is nobody.
        pub fn shared_by(self, count: u32) -> Option<Self> {
            let count = i64::from(count);
            let half = count / 2 * self.0.signum();
            (self.0 + half).checked_div(count).map(Self)
        }
    }

    macro_rules! operators {
        ($($operator:ident::$method:ident, $assigning:ident::$assign:ident => $symbol:tt);+ $(;)?) => {
            $(
                impl $operator for Money {
                    type Output = Money;

                    fn $method(self, other: Money) -> Money {
                        Money(self.0 $symbol other.0)
                    }
                }

                impl $assigning for Money {
                    fn $assign(&mut self, other: Money) {
                        *self = *self $symbol other;
                    }
                }
            )+
        };
    }

    operators! {
        Add::add, AddAssign::add_assign => +;
        Sub::sub, SubAssign::sub_assign => -;
    }

    impl Mul<u32> for Money {
        type Output = Self;

        fn mul(self, count: u32) -> Self {
            Self(self.0 * i64::from(count))
        }
    }

    impl Sum for Money {
        fn sum<I: Iterator<Item = Self>>(amounts: I) -> Self {
            amounts.fold(Self::ZERO, Add::add)
        }
    }

    impl fmt::Display for Money {
        /// At least two decimal places, and more only if they are not zero.
        fn fmt(&self, f: &mut fmt::Formatter<'_>) -> fmt::Result {
            let sign = if self.0 < 0 { "-" } else { "" };
            let (whole, rest) = (self.0.abs() / SCALE, self.0.abs() % SCALE);
            let mut text = format!("{sign}{whole}.{rest:0width$}", width = DIGITS);
            while text.ends_with('0') && !text[..text.len() - 2].ends_with('.') {
                text.pop();
            }
            f.pad(&text)
        }
    }

    impl FromStr for Money {
        type Err = NotMoney;

        fn from_str(text: &str) -> Result<Self, NotMoney> {
            let (negative, digits) = match text.strip_prefix('-') {
                Some(digits) => (true, digits),
                None => (false, text),
            };
            let (whole, decimals) = digits.split_once('.').unwrap_or((digits, "0"));
            let is_number =
                |part: &str| !part.is_empty() && part.bytes().all(|b| b.is_ascii_digit());
            if !is_number(whole) || !is_number(decimals) || decimals.len() > DIGITS {
                return Err(NotMoney);
            }
            let units: i64 = format!("{whole}{decimals:0<DIGITS$}")
                .parse()
                .map_err(|_| NotMoney)?;
            Ok(Self(if negative { -units } else { units }))
        }
    }

    impl fmt::Display for NotMoney {
        fn fmt(&self, f: &mut fmt::Formatter<'_>) -> fmt::Result {
            write!(f, "expected digits and up to {DIGITS} decimal places")
        }
    }

    impl Error for NotMoney {}
}

/// Journals: their entries, and how they are read.
pub mod journal {
    use super::money::{Money, NotMoney};
    use std::borrow::Cow;
    use std::error::Error;
    use std::fmt;
    use std::num::ParseIntError;

    /// One line of a journal. What it names is part of the journal's text.
    #[derive(Clone, Debug, PartialEq)]
    pub enum Entry<'a> {
        Item {
            code: &'a str,
            title: Cow<'a, str>,
        },
        In {
            code: &'a str,
            count: u32,
            price: Money,
        },
        Out {
            code: &'a str,
            count: u32,
            price: Money,
        },
        Count {
            code: &'a str,
            found: u32,
        },
    }

    /// What is wrong with a line.
    #[derive(Debug, PartialEq)]
    pub enum Fault<'a> {
        UnknownEntry(&'a str),
        Missing(&'static str),
        Unexpected(&'a str),
        OpenString,
        UnknownEscape(char),
        BadCount(ParseIntError),
        BadPrice(NotMoney),
    }

    /// A word, a quoted string or a sign. Quotes and escapes are not part of a string.
    #[derive(Debug, PartialEq)]
    enum Token<'a> {
        Word(&'a str),
        Text(Cow<'a, str>),
        At,
    }

    /// Cuts a line into tokens.
    struct Scanner<'a> {
        rest: &'a str,
    }

    impl<'a> Scanner<'a> {
        const NO_BREAK_SPACE: char = '\u{A0}';

        fn new(line: &'a str) -> Self {
            Self { rest: line }
        }

        /// Splits the rest after `length` bytes, and moves there.
        fn split(&mut self, length: usize) -> &'a str {
            let (front, rest) = self.rest.split_at(length);
            self.rest = rest;
            front
        }

        fn next(&mut self) -> Result<Option<Token<'a>>, Fault<'a>> {
            self.rest = self
                .rest
                .trim_start_matches([' ', '\t', Self::NO_BREAK_SPACE]);
            match self.rest.as_bytes() {
                [] | [b'#', ..] => Ok(None),
                [b'@', ..] => {
                    self.split(1);
                    Ok(Some(Token::At))
                }
                [b'"', ..] => self.string().map(|text| Some(Token::Text(text))),
                _ => {
                    let ends_word = |c: char| c.is_whitespace() || matches!(c, '"' | '#' | '@');
                    let length = self.rest.find(ends_word).unwrap_or(self.rest.len());
                    Ok(Some(Token::Word(self.split(length))))
                }
            }
        }

        /// A string in quotes. It is borrowed from the line unless an escape has to be replaced.
        fn string(&mut self) -> Result<Cow<'a, str>, Fault<'a>> {
            let body = &self.rest[1..];
            let mut owned = None::<String>;
            let mut start = 0;
            let mut characters = body.char_indices();
            while let Some((at, c)) = characters.next() {
                match c {
                    '"' => {
                        self.rest = &body[at + 1..];
                        return Ok(match owned {
                            Some(text) => Cow::Owned(text + &body[start..at]),
                            None => Cow::Borrowed(&body[..at]),
                        });
                    }
                    '\\' => {
                        let replacement = match characters.next() {
                            Some((_, 'n')) => '\n',
                            Some((_, 't')) => '\t',
                            Some((_, same @ ('\\' | '"' | '\''))) => same,
                            Some((_, other)) => return Err(Fault::UnknownEscape(other)),
                            None => break,
                        };
                        let text = owned.get_or_insert_with(String::new);
                        text.push_str(&body[start..at]);
                        text.push(replacement);
                        start = characters.offset();
                    }
                    _ => {}
                }
            }
            Err(Fault::OpenString)
        }

        fn word(&mut self, expected: &'static str) -> Result<&'a str, Fault<'a>> {
            match self.next()? {
                Some(Token::Word(word)) => Ok(word),
                _ => Err(Fault::Missing(expected)),
            }
        }

        fn count(&mut self) -> Result<u32, Fault<'a>> {
            self.word("a count")?
                .replace('_', "")
                .parse()
                .map_err(Fault::BadCount)
        }

        fn price(&mut self) -> Result<Money, Fault<'a>> {
            if !matches!(self.next()?, Some(Token::At)) {
                return Err(Fault::Missing("'@'"));
            }
            self.word("a price")?.parse().map_err(Fault::BadPrice)
        }

        fn title(&mut self) -> Result<Cow<'a, str>, Fault<'a>> {
            let Some(Token::Text(title)) = self.next()? else {
                return Err(Fault::Missing("a title in quotes"));
            };
            Ok(title)
        }
    }

    /// The entry on a line, or `None` on a line that has only spaces or a comment.
    pub fn entry(line: &str) -> Result<Option<Entry<'_>>, Fault<'_>> {
        let mut scanner = Scanner::new(line);
        let kind = match scanner.next()? {
            None => return Ok(None),
            Some(Token::Word(kind)) => kind,
            Some(_) => return Err(Fault::Missing("the kind of entry")),
        };
        if !["item", "in", "out", "count"].contains(&kind) {
            return Err(Fault::UnknownEntry(kind));
        }
        let code = scanner.word("the code of an item")?;
        let entry = match kind {
            "item" => scanner.title().map(|title| Entry::Item { code, title })?,
            "count" => scanner.count().map(|found| Entry::Count { code, found })?,
            _ => {
                let (count, price) = (scanner.count()?, scanner.price()?);
                if kind == "in" {
                    Entry::In { code, count, price }
                } else {
                    Entry::Out { code, count, price }
                }
            }
        };
        let rest = scanner.rest.trim();
        match scanner.next()? {
            None => Ok(Some(entry)),
            Some(_) => Err(Fault::Unexpected(rest)),
        }
    }

    /// The entries of a journal, each with the number of its line. Lines are numbered from 1.
    pub fn entries(text: &str) -> impl Iterator<Item = (usize, Result<Entry<'_>, Fault<'_>>)> + '_ {
        (1..)
            .zip(text.lines())
            .filter_map(|(number, line)| Some((number, entry(line).transpose()?)))
    }

    impl fmt::Display for Fault<'_> {
        fn fmt(&self, f: &mut fmt::Formatter<'_>) -> fmt::Result {
            match self {
                Self::UnknownEntry(kind) => write!(f, "unknown kind of entry: {kind}"),
                Self::Missing(expected) => write!(f, "expected {expected}"),
                Self::Unexpected(rest) => write!(f, "unexpected after the entry: {rest}"),
                Self::OpenString => f.write_str(r#"a string without its closing " mark"#),
                Self::UnknownEscape(c) => write!(f, r"unknown escape: \{c}"),
                Self::BadCount(error) => write!(f, "bad count: {error}"),
                Self::BadPrice(error) => write!(f, "bad price: {error}"),
            }
        }
    }

    impl Error for Fault<'_> {}
}

/// What is in stock, and what it cost.
pub mod stock {
    use super::journal::Entry;
    use super::money::Money;
    use std::collections::{BTreeMap, VecDeque};
    use std::fmt;

    /// How the cost of goods is worked out.
    pub trait Costing: Default {
        const NAME: &'static str;

        fn put(&mut self, count: u32, price: Money);

        /// Takes out `count` pieces and returns their cost. If there are too few, it takes nothing.
        fn take(&mut self, count: u32) -> Option<Money>;

        fn count(&self) -> u32;

        fn value(&self) -> Money;
    }

    /// First in, first out: each delivery keeps its price, and the oldest goes out first.
    #[derive(Debug, Default)]
    pub struct Fifo {
        lots: VecDeque<(u32, Money)>,
    }

    /// All pieces cost the average of what was paid for those in stock.
    #[derive(Debug, Default)]
    pub struct Average {
        count: u32,
        value: Money,
    }

    impl Costing for Fifo {
        const NAME: &'static str = "first in, first out";

        fn put(&mut self, count: u32, price: Money) {
            if count > 0 {
                self.lots.push_back((count, price));
            }
        }

        fn take(&mut self, count: u32) -> Option<Money> {
            if count > self.count() {
                return None;
            }
            let (mut missing, mut cost) = (count, Money::ZERO);
            while missing > 0 {
                let (left, price) = self.lots.front_mut()?;
                let taken = missing.min(*left);
                cost += *price * taken;
                *left -= taken;
                missing -= taken;
                if *left == 0 {
                    self.lots.pop_front();
                }
            }
            Some(cost)
        }

        fn count(&self) -> u32 {
            self.lots.iter().map(|&(count, _)| count).sum()
        }

        fn value(&self) -> Money {
            self.lots.iter().map(|&(count, price)| price * count).sum()
        }
    }

    impl Costing for Average {
        const NAME: &'static str = "moving average";

        fn put(&mut self, count: u32, price: Money) {
            self.count += count;
            self.value += price * count;
        }

        fn take(&mut self, count: u32) -> Option<Money> {
            let left = self.count.checked_sub(count)?;
            let cost = match left {
                0 => self.value, // so that no rounding stays behind
                1.. => self.value.shared_by(self.count)? * count,
            };
            self.count = left;
            self.value -= cost;
            Some(cost)
        }

        fn count(&self) -> u32 {
            self.count
        }

        fn value(&self) -> Money {
            self.value
        }
    }

    /// An item with its stock.
    #[derive(Debug, Default)]
    pub struct Item<C> {
        pub title: String,
        pub stock: C,
        pub sales: Money,
        pub cost: Money,
        pub lost: Money,
    }

    /// All items by their codes.
    #[derive(Debug, Default)]
    pub struct Ledger<C> {
        items: BTreeMap<String, Item<C>>,
    }

    /// Why an entry can't be booked. The ledger is unchanged then.
    #[derive(Clone, Debug, PartialEq, Eq)]
    pub enum StockError {
        UnknownItem(String),
        KnownItem(String),
        TooFew { wanted: u32, left: u32 },
        TooMany { found: u32, left: u32 },
    }

    impl<C> Ledger<C>
    where
        C: Costing,
    {
        pub fn book(&mut self, entry: Entry<'_>) -> Result<(), StockError> {
            match entry {
                Entry::Item { code, title } => {
                    if self.items.contains_key(code) {
                        return Err(StockError::KnownItem(code.to_owned()));
                    }
                    let item = Item {
                        title: title.into_owned(),
                        ..Item::default()
                    };
                    self.items.insert(code.to_owned(), item);
                }
                Entry::In { code, count, price } => self.item(code)?.stock.put(count, price),
                Entry::Out { code, count, price } => {
                    let item = self.item(code)?;
                    let left = item.stock.count();
                    let too_few = StockError::TooFew {
                        wanted: count,
                        left,
                    };
                    item.cost += item.stock.take(count).ok_or(too_few)?;
                    item.sales += price * count;
                }
                Entry::Count { code, found } => {
                    let item = self.item(code)?;
                    let left = item.stock.count();
                    let too_many = StockError::TooMany { found, left };
                    let missing = left.checked_sub(found).ok_or(too_many)?;
                    item.lost += item.stock.take(missing).unwrap_or_default();
                }
            }
            Ok(())
        }

        fn item(&mut self, code: &str) -> Result<&mut Item<C>, StockError> {
            self.items
                .get_mut(code)
                .ok_or_else(|| StockError::UnknownItem(code.to_owned()))
        }

        pub fn items(&self) -> impl Iterator<Item = (&str, &Item<C>)> {
            self.items.iter().map(|(code, item)| (code.as_str(), item))
        }

        pub fn value(&self) -> Money {
            self.items.values().map(|item| item.stock.value()).sum()
        }
    }

    impl fmt::Display for StockError {
        fn fmt(&self, f: &mut fmt::Formatter<'_>) -> fmt::Result {
            match self {
                Self::UnknownItem(code) => write!(f, "unknown item: {code}"),
                Self::KnownItem(code) => write!(f, "the item is known already: {code}"),
                Self::TooFew { wanted, left } => write!(f, "{wanted} wanted, but only {left} left"),
                Self::TooMany { found, left } => write!(f, "{found} found, but only {left} left"),
            }
        }
    }

    impl std::error::Error for StockError {}
}

/// What is printed in the end.
pub mod report {
    use super::stock::{Costing, Ledger};
    use std::fmt::{self, Display, Write};

    /// The table of a ledger's items.
    pub struct Report<'a, C>(pub &'a Ledger<C>);

    /// Rows of text under a header. Columns are as wide as their widest cell.
    struct Table<const COLUMNS: usize> {
        header: [&'static str; COLUMNS],
        rows: Vec<[String; COLUMNS]>,
    }

    impl<const COLUMNS: usize> Table<COLUMNS> {
        fn widths(&self) -> [usize; COLUMNS] {
            std::array::from_fn(|column| {
                let cells = self.rows.iter().map(|row| row[column].chars().count());
                cells.fold(self.header[column].chars().count(), usize::max)
            })
        }
    }

    impl<const COLUMNS: usize> Display for Table<COLUMNS> {
        /// Aligns the first two columns to the left and the others, which are numbers, to the right.
        fn fmt(&self, f: &mut fmt::Formatter<'_>) -> fmt::Result {
            let widths = self.widths();
            let header = self.header.map(str::to_owned);
            for row in std::iter::once(&header).chain(&self.rows) {
                let mut line = String::new();
                for (column, (cell, &width)) in row.iter().zip(&widths).enumerate() {
                    match column {
                        0..=1 => write!(line, "{cell:<width$}  ")?,
                        _ => write!(line, "{cell:>width$}  ")?,
                    }
                }
                writeln!(f, "{}", line.trim_end())?;
            }
            Ok(())
        }
    }

    impl<C: Costing> Display for Report<'_, C> {
        fn fmt(&self, f: &mut fmt::Formatter<'_>) -> fmt::Result {
            let rows = self.0.items().map(|(code, item)| {
                let profit = item.sales - item.cost - item.lost;
                let (count, value) = (item.stock.count(), item.stock.value());
                [
                    code.to_owned(),
                    item.title.clone(),
                    count.to_string(),
                    value.to_string(),
                    profit.to_string(),
                ]
            });
            let header = ["Code", "Title", "Count", "Value", "Profit"];
            let table = Table {
                header,
                rows: rows.collect(),
            };
            write!(
                f,
                "{table}\nTotal value ({}): {}\n",
                C::NAME,
                self.0.value()
            )
        }
    }
}

const USAGE: &str = "\
usage: inventory [--average] [JOURNAL ...]
Prints what is in stock according to the journals. Without a journal it shows a sample.
";

// Two hash signs, since `"#flexible` would end a string that begins with `r#"`.
const SAMPLE: &str = r##"
# the shop opens
item  bolt-m8   "Bolt, M8 × 40"
item  washer-8  "Washer, 8 mm"
item  hose-1    "Hose, 1\" \\ 25 mm"#flexible
in    bolt-m8   500 @ 0.08
in    bolt-m8   1_000 @ 0.0725
in    washer-8  2_000 @ 0.0119
out   bolt-m8   620 @ 0.15
in    hose-1    12 @ 7.5
out   hose-1    5 @ 11.95
count bolt-m8   878
"##;

/// Books the entries of a text, reports those that are refused, and returns how many these are.
fn book_all<C: Costing>(ledger: &mut Ledger<C>, name: &str, text: &str) -> usize {
    let mut faults = 0_usize;
    let mut complain = |number: usize, error: &dyn Error| {
        faults += 1;
        eprintln!("{name}:{number}: {error}");
    };
    for (number, entry) in entries(text) {
        match entry {
            Ok(entry) => {
                if let Err(error) = ledger.book(entry) {
                    complain(number, &error);
                }
            }
            Err(fault) => complain(number, &fault),
        }
    }
    faults
}

/// The FNV-1a hash, to notice a journal that is given twice.
fn fingerprint(text: &[u8]) -> u64 {
    text.iter().fold(0xcbf2_9ce4_8422_2325_u64, |hash, &byte| {
        (hash ^ u64::from(byte)).wrapping_mul(0x100_0000_01b3)
    })
}

fn run<C: Costing>(journals: &[String]) -> Result<usize, Box<dyn Error>> {
    let mut ledger = Ledger::<C>::default();
    let mut seen = HashSet::new();
    let mut faults = 0;
    'journals: for name in journals {
        let text = fs::read_to_string(name).map_err(|error| format!("{name}: {error}"))?;
        if !seen.insert(fingerprint(text.as_bytes())) {
            eprintln!("{name}: skipped, it is a copy of another journal");
            continue 'journals;
        }
        faults += book_all(&mut ledger, name, &text);
    }
    if journals.is_empty() {
        faults += book_all(&mut ledger, "sample", SAMPLE);
    }
    print!("{}", Report(&ledger));
    Ok(faults)
}

fn main() -> ExitCode {
    let arguments: Vec<String> = env::args().skip(1).collect();
    let result = match arguments.as_slice() {
        [option, journals @ ..] if option == "--average" => run::<Average>(journals),
        [option, ..] if option.starts_with("--") => {
            Err(format!("unknown option {option}\n{USAGE}").into())
        }
        journals => run::<Fifo>(journals),
    };
    match result {
        Ok(0) => ExitCode::SUCCESS,
        Ok(faults @ 1..) => {
            eprintln!("inventory: {faults} line(s) ignored");
            ExitCode::FAILURE
        }
        Err(error) => {
            eprintln!("inventory: {error}");
            ExitCode::from(2)
        }
    }
}

#[cfg(test)]
mod tests {
    use super::journal::{entry, Entry, Fault};
    use super::money::{Money, NotMoney};
    use super::stock::StockError;
    use super::*;
    use std::borrow::Cow;

    fn ledger<C: Costing>(text: &str) -> Ledger<C> {
        let mut ledger = Ledger::default();
        assert_eq!(book_all(&mut ledger, "test", text), 0, "faults in {text:?}");
        ledger
    }

    macro_rules! money {
        ($text:literal) => {
            $text.parse::<Money>().expect(concat!("an amount: ", $text))
        };
    }

    #[test]
    fn amounts_are_read_and_shown() {
        for (text, shown) in [("0", "0.00"), ("-1.5", "-1.50"), ("12.340", "12.34")] {
            let amount = text.parse().map(|it: Money| it.to_string());
            assert_eq!(amount.as_deref(), Ok(shown));
        }
        for text in "- .5 1. 1e3 +1 ½ 0.00001 9999999999999999 ".split(' ') {
            assert_eq!(text.parse::<Money>(), Err(NotMoney), "{text}");
        }
        assert_eq!(Money::from_cents(100).shared_by(3), Some(money!("0.3333")));
        assert_eq!(Money::from_cents(1).shared_by(0), None);
    }

    #[test]
    fn strings_are_borrowed_unless_they_have_escapes() {
        let title = |line| match entry(line) {
            Ok(Some(Entry::Item { title, .. })) => title,
            other => panic!("{line} is {other:?}"),
        };
        let plain = title("item a \"caf\u{e9}\" # \\o/");
        assert!(matches!(plain, Cow::Borrowed("café")));
        let escaped = title(r#"item a "1\" \\ x""#);
        assert!(matches!(escaped, Cow::Owned(ref it) if it == r#"1" \ x"#));
    }

    #[test]
    fn faults_are_told_apart() {
        assert!(matches!(
            entry("in a 4294967296 @ 1"),
            Err(Fault::BadCount(_))
        ));
        assert_eq!(entry("sell a 1"), Err(Fault::UnknownEntry("sell")));
        assert_eq!(entry("in a 1 1"), Err(Fault::Missing("'@'")));
        assert_eq!(entry("count a 1 2"), Err(Fault::Unexpected("2")));
        assert_eq!(entry("item a \"x"), Err(Fault::OpenString));
        assert_eq!(entry(r#"item a "\q""#), Err(Fault::UnknownEscape('q')));
        assert_eq!(entry("out a 1 @ b"), Err(Fault::BadPrice(NotMoney)));
        assert_eq!(entry(" \t# nothing"), Ok(None));
    }

    #[test]
    fn the_oldest_goes_out_first_and_averages_move() {
        const TEXT: &str = "item a \"A\"\nin a 10 @ 1\nin a 10 @ 2\nout a 15 @ 3";
        assert_eq!(ledger::<Fifo>(TEXT).value(), money!("10"));
        assert_eq!(ledger::<Average>(TEXT).value(), money!("7.5"));
    }

    #[test]
    fn a_refused_entry_changes_nothing() {
        let mut ledger = ledger::<Fifo>("item a \"A\"\nin a 2 @ 1");
        let mut book = |line| ledger.book(entry(line).unwrap().unwrap());
        let too_few = StockError::TooFew { wanted: 3, left: 2 };
        assert_eq!(book("out a 3 @ 5"), Err(too_few));
        assert_eq!(book("count b 0"), Err(StockError::UnknownItem("b".into())));
        assert_eq!(ledger.value(), money!("2"));
    }

    #[test]
    fn columns_are_aligned() {
        let report = Report(&ledger::<Average>("item a \"A \\\"1\\\"\"\nin a 3 @ 0.5")).to_string();
        assert!(report.starts_with(
            "Code  Title  Count  Value  Profit\na     A \"1\"      3   1.50    0.00\n"
        ));
    }

    #[test]
    fn fingerprints_tell_bytes_apart() {
        assert_eq!(fingerprint(b""), !0x340d_631b_7bdd_dcda);
        assert_ne!(fingerprint(b"a\xff\0"), fingerprint(br"a\xff\0"));
    }
}
