//! Tables that are long enough: a guess that suffices for most sources, then longer ones up to a bound that always does.
use crate::error::Error;
use crate::refusal::Refusal;
use crate::rows::Row;
use crate::token::Token;
use crate::tree::Entry;
use crate::SOURCE_LIMIT;

/// How many rows a table is lent for a source of n bytes, as in the C header.
#[derive(Clone, Copy)]
pub(crate) struct Size {
    /// The numbers of a row.
    row: usize,
    /// Rows to begin with: of 4,963 shaders of two test suites, glslang's and SPIRV-Cross's, 46 needed more entries, 1
    /// more lines and none more errors.
    guess: fn(usize) -> usize,
    /// Rows that are lent when so many were refused.
    more: fn(usize) -> usize,
    /// Rows that always suffice, which is proved.
    bound: fn(usize) -> usize,
}

pub(crate) const ENTRIES: Size =
    Size { row: Entry::NUMBERS, guess: |n| n / 2 + 64, more: |rows| 2 * rows + 64, bound: |n| 8 * n + 1 };
pub(crate) const ERRORS: Size =
    Size { row: Error::NUMBERS, guess: |n| n / 256 + 16, more: |rows| 8 * rows + 16, bound: |n| 8 * n };
pub(crate) const LINES: Size = Size { row: 1, guess: |n| n / 16 + 64, more: |_| usize::MAX, bound: |n| n + 1 };
pub(crate) const TOKENS: Size =
    Size { row: Token::NUMBERS, guess: |n| n / 2 + 64, more: |rows| 2 * rows + 64, bound: |n| n };

/// The bytes that tables are made for: a source above the limit is refused whatever it is lent.
fn counted(bytes: usize) -> usize {
    if bytes > SOURCE_LIMIT {
        0
    } else {
        bytes
    }
}

/// A table for sources of any length, kept from one to the next.
#[derive(Clone)]
pub(crate) struct Table {
    size: Size,
    rows: usize,
    bound: usize,
    numbers: Vec<u32>,
}

impl Table {
    pub(crate) const fn new(size: Size) -> Table {
        Table { size, rows: 0, bound: 0, numbers: Vec::new() }
    }

    /// Begins a source of so many bytes with the guess.
    pub(crate) fn begin(&mut self, bytes: usize) {
        self.bound = (self.size.bound)(counted(bytes));
        self.rows = (self.size.guess)(counted(bytes)).min(self.bound);
    }

    /// Goes on with more rows, unless they were as many as can be asked for.
    pub(crate) fn grow(&mut self) -> bool {
        let before = self.rows;
        self.rows = (self.size.more)(before).min(self.bound);
        self.rows > before
    }

    /// What is lent: these rows and no more, since a call clears all that it is lent.
    pub(crate) fn lent(&mut self) -> &mut [u32] {
        let count = self.rows * self.size.row;
        if self.numbers.len() < count {
            // The shorter one goes first, so that the two are never held at once.
            self.numbers = Vec::new();
            self.numbers = vec![0; count];
        }
        &mut self.numbers[..count]
    }

    /// The numbers of the first rows.
    pub(crate) fn filled(&self, rows: usize) -> &[u32] {
        &self.numbers[..rows * self.size.row]
    }

    /// The numbers of the first rows, and room for no more.
    pub(crate) fn trimmed(mut self, rows: usize) -> Box<[u32]> {
        self.numbers.truncate(rows * self.size.row);
        self.numbers.into_boxed_slice()
    }
}

/// The numbers that a call puts in its one table; it answers how many rows they are.
pub(crate) fn grown(
    bytes: usize,
    size: Size,
    mut call: impl FnMut(&mut [u32]) -> Result<usize, Refusal>,
) -> Result<Box<[u32]>, Refusal> {
    let mut table = Table::new(size);
    table.begin(bytes);
    loop {
        match call(table.lent()) {
            Ok(rows) => return Ok(table.trimmed(rows)),
            Err(Refusal::Entries | Refusal::Lines) if table.grow() => {}
            Err(refusal) => return Err(refusal),
        }
    }
}

/// A byte output that is long enough for a text of so many bytes.
pub(crate) fn output(bytes: usize) -> Vec<u8> {
    vec![0; counted(bytes)]
}

#[cfg(test)]
mod tests {
    use super::*;

    /// The rows that are lent one after another, if each is refused.
    fn lent(size: Size, bytes: usize) -> Vec<usize> {
        let mut table = Table::new(size);
        table.begin(bytes);
        let mut rows = vec![table.rows];
        while table.grow() {
            rows.push(table.rows);
        }
        rows
    }

    #[test]
    fn tables_grow_to_the_proved_bound() {
        assert_eq!(lent(TOKENS, 300), [214, 300]);
        for bytes in (0..3000).chain([SOURCE_LIMIT - 1, SOURCE_LIMIT]) {
            assert_eq!(lent(ENTRIES, bytes).last(), Some(&(8 * bytes + 1)));
            assert_eq!(lent(ERRORS, bytes).last(), Some(&(8 * bytes)));
            assert_eq!(lent(LINES, bytes).last(), Some(&(bytes + 1)));
            assert_eq!(lent(TOKENS, bytes).last(), Some(&bytes));
        }
    }

    /// What the test `rooms` of hosts/c prints of the C header.
    #[test]
    fn the_header_lends_the_same_rows() {
        let mut printed = String::new();
        for bytes in [0, 1, 10, 300, 3072, 100_000, SOURCE_LIMIT, SOURCE_LIMIT + 1] {
            for (table, size) in [("entries", ENTRIES), ("errors", ERRORS), ("lines", LINES)] {
                let rows: Vec<String> = lent(size, bytes).iter().map(usize::to_string).collect();
                printed += &format!("{bytes} bytes, {table}: {}\n", rows.join(" "));
            }
        }
        assert_eq!(printed, include_str!("../../c/tests/rooms.txt"));
    }

    #[test]
    fn a_source_above_the_limit_is_lent_next_to_nothing() {
        assert_eq!(lent(TOKENS, SOURCE_LIMIT + 1), [0]);
        assert_eq!(lent(ERRORS, usize::MAX), [0]);
        assert_eq!(output(SOURCE_LIMIT + 1), b"");
    }

    #[test]
    fn a_table_is_kept_and_lent_no_longer_than_needed() {
        let mut table = Table::new(LINES);
        table.begin(16_000);
        assert_eq!(table.lent().len(), 1064);
        table.begin(16);
        assert_eq!(table.lent().len(), 17);
        assert_eq!(table.numbers.len(), 1064);
        assert_eq!(table.trimmed(3).len(), 3);
    }
}
