//! Runs one input through the library and through the Rust, or an earlier library, and compares every number.

use std::{
    fmt::Write,
    sync::atomic::{AtomicBool, Ordering},
};

use oracle::calls;

use crate::{
    before::Earlier,
    cut, damage,
    exports::{self, Counted, Library, Pasted, Place},
    lender::{Lender, Number},
    reading::Reader,
    tabs, Random,
};

/// The calls compared, in the order in which they are counted
pub const CALLS: [&str; 7] = ["tokens", "line table", "unescape", "define body", "lookup", "paste", "read"];

pub(crate) const TOKENS: usize = 0;
pub(crate) const LINES: usize = 1;
pub(crate) const UNESCAPE: usize = 2;
pub(crate) const BODY: usize = 3;
const LOOKUP: usize = 4;
const PASTE: usize = 5;
pub(crate) const READ: usize = 6;

/// The refusals of tables that are too short, by call; the Rust has none
const TOO_SHORT: [u32; 4] = [4, 6, 8, 4];

/// Line tables above this length are looked up in only twice: the Rust's is built at each lookup
const LONG_LINE_TABLE: usize = 100_000;

#[derive(Default, Clone, Copy)]
pub struct Tally {
    pub inputs: u64,
    /// Sources among them with a vertical tab
    pub tabs: u64,
    /// Sources that were not compared
    pub left_out: u64,
    pub calls: [u64; CALLS.len()],
    pub differences: u64,
}

impl Tally {
    /// Counts a source
    pub(crate) fn source(&mut self, source: &[u8]) {
        self.inputs += 1;
        self.tabs += tabs::has(source) as u64;
    }

    pub fn add(&mut self, other: &Tally) {
        self.inputs += other.inputs;
        self.tabs += other.tabs;
        self.left_out += other.left_out;
        self.calls.iter_mut().zip(other.calls).for_each(|(n, m)| *n += m);
        self.differences += other.differences;
    }
}

/// Whether a difference has been printed
static PRINTED: AtomicBool = AtomicBool::new(false);

#[derive(Default)]
pub struct Checker {
    pub tally: Tally,
    pub(crate) random: Random,
    pub(crate) numbers: Lender<u32>,
    bytes: Lender<u8>,
    pub(crate) reader: Reader,
    /// Where this is compared with, and not the Rust
    pub(crate) earlier: Option<Earlier>,
}

impl Checker {
    /// Compares with the earlier library, if there is one, else with the Rust
    pub fn beside(earlier: Option<Library>) -> Checker {
        Checker { earlier: earlier.map(Earlier::new), ..Checker::default() }
    }

    /// Makes the choice of table lengths and offsets repeatable
    pub fn begin(&mut self, seed: u64) {
        self.tally = Tally::default();
        self.random = Random(seed);
    }

    /// Compares the tokens, the line table and the unescaped text of a source, and lookups in its lines
    pub fn source(&mut self, source: &[u8]) {
        if self.earlier.is_some() {
            return self.libraries(source);
        }
        self.tally.source(source);
        let asked = tabs::asked(source);
        let Self { tally, random, numbers, bytes, .. } = self;

        let tokens = calls::tokens(&asked);
        let want = tokens.as_ref().map(|t| (t.len(), t.as_flattened())).map_err(|&rust| cut::refusal(rust, source));
        fills(tally, random, numbers, TOKENS, source, want, exports::tokens);

        let lines = calls::lines(&asked);
        let want = lines.as_ref().map(|l| (l.len(), &l[..])).map_err(|&rust| cut::refusal(rust, source));
        fills(tally, random, numbers, LINES, source, want, exports::line_table);

        let text = calls::unescape(source);
        let want = text.as_ref().map(|t| (t.len(), t.as_bytes())).map_err(|&rust| cut::refusal(rust, source));
        fills(tally, random, bytes, UNESCAPE, source, want, exports::unescape);

        if let Ok(lines) = lines {
            self.lookups(lines, source.len());
        }
    }

    /// Looks up offsets in the line table of a source of that length, and in a damaged copy of it
    fn lookups(&mut self, mut lines: Vec<u32>, bytes: usize) {
        for _ in 0..2 {
            let offset = damage::offset(&mut self.random, &lines, bytes);
            self.lookup(&lines, offset);
        }
        if lines.len() < LONG_LINE_TABLE && self.random.one_in(3) {
            damage::lines(&mut self.random, &mut lines);
            let offset = damage::offset(&mut self.random, &lines, bytes);
            self.lookup(&lines, offset);
        }
    }

    pub fn lookup(&mut self, lines: &[u32], offset: u32) {
        self.tally.calls[LOOKUP] += 1;
        let rust = || match calls::lookup(lines, offset) {
            Ok((line, column)) => Place { refusal: 0, line, column },
            Err(refusal) => Place { refusal, line: 0, column: 0 },
        };
        let want = self.earlier.as_ref().map_or_else(rust, |earlier| (earlier.library.lookup)(lines, offset));
        let got = exports::lookup(lines, offset);
        if got != want {
            let count = lines.len();
            let lines = &lines[..count.min(40)];
            difference(&mut self.tally, LOOKUP, || {
                format!("offset {offset}, {count} lines {lines:?}\n  wanted   {want:?}\n  library  {got:?}")
            });
        }
    }

    pub fn paste(&mut self, lhs: u32, rhs: u32) {
        self.tally.calls[PASTE] += 1;
        let rust = || match calls::paste(lhs, rhs) {
            Ok(kind) => Pasted { refusal: 0, kind },
            Err(refusal) => Pasted { refusal, kind: 0 },
        };
        let want = self.earlier.as_ref().map_or_else(rust, |earlier| (earlier.library.paste)(lhs, rhs));
        let got = exports::paste(lhs, rhs);
        if got != want {
            difference(&mut self.tally, PASTE, || {
                format!("kinds {lhs} and {rhs}\n  wanted   {want:?}\n  library  {got:?}")
            });
        }
    }
}

/// Compares a call that fills a table, given the Rust's answer: with a table just long enough, a
/// longer one, one that lacks a number and one that is shorter still; where the source is refused,
/// with none, a short one and one that might have held the answer
pub(crate) fn fills<T: Number>(
    tally: &mut Tally,
    random: &mut Random,
    lender: &mut Lender<T>,
    call: usize,
    source: &[u8],
    want: Result<(usize, &[T]), u32>,
    export: fn(&[u8], &mut [T]) -> Counted,
) {
    let more = 1 + random.below(12);
    let rooms = match want {
        Ok((_, [])) => vec![0, more],
        Ok((_, numbers)) => {
            let need = numbers.len();
            vec![need, need + more, need - 1, random.below(need)]
        }
        Err(_) => vec![0, more, random.below(3 * source.len() + 2)],
    };
    for room in rooms {
        let (refusal, count, numbers) = match want {
            Ok((count, numbers)) if numbers.len() <= room => (0, count as u32, numbers),
            Ok(_) => (TOO_SHORT[call], 0, &[][..]),
            Err(refusal) => (refusal, 0, &[][..]),
        };
        let want = Counted { refusal, count };
        let got = export(source, lender.lend(room));
        tally.calls[call] += 1;
        let (unlike, untouched) = (lender.unlike(numbers), lender.untouched());
        if got != want || unlike.is_some() || !untouched {
            difference(tally, call, || {
                let mut text = format!("table of {room}, {}", shown(source));
                write!(text, "\n  wanted   {want:?}\n  library  {got:?}").unwrap();
                write_unlike(&mut text, "the table", numbers, unlike, untouched);
                text
            });
        }
    }
}

/// Says what is wrong with a table
pub(crate) fn write_unlike<T: Number>(
    text: &mut String,
    table: &str,
    numbers: &[T],
    unlike: Option<(usize, T)>,
    untouched: bool,
) {
    if let Some((place, got)) = unlike {
        let want = numbers.get(place).copied().unwrap_or_default();
        write!(text, "\n  number {place} of {table}: wanted {want}, library {got}").unwrap();
    }
    if !untouched {
        write!(text, "\n  memory outside {table} was written").unwrap();
    }
}

/// Counts a difference and prints the first
pub(crate) fn difference(tally: &mut Tally, call: usize, text: impl FnOnce() -> String) {
    tally.differences += 1;
    if !PRINTED.swap(true, Ordering::Relaxed) {
        println!("DIFFERENCE in {}: {}", CALLS[call], text());
    }
}

/// The input, cut where it is long
pub(crate) fn shown(source: &[u8]) -> String {
    const MOST: usize = 400;
    let dots = if source.len() > MOST { " .." } else { "" };
    format!("{} bytes \"{}\"{dots}", source.len(), source[..source.len().min(MOST)].escape_ascii())
}
