//! Rows of numbers in a table, as typed values.
use std::fmt;
use std::iter::FusedIterator;
use std::marker::PhantomData;
use std::ops::Range;
use std::slice::ChunksExact;

/// A row of a table: an [`Entry`](crate::Entry), an [`Error`](crate::Error) or a [`Token`](crate::Token).
pub trait Row {
    /// How many numbers a row has.
    const NUMBERS: usize;
    /// A row from as many numbers.
    fn from_numbers(numbers: &[u32]) -> Self;
}

/// An iterator over the rows of a table.
pub struct Rows<'a, R> {
    chunks: ChunksExact<'a, u32>,
    row: PhantomData<fn() -> R>,
}

impl<'a, R: Row> Rows<'a, R> {
    pub(crate) fn new(table: &'a [u32]) -> Self {
        Rows { chunks: table.chunks_exact(R::NUMBERS), row: PhantomData }
    }
}

impl<R: Row> Iterator for Rows<'_, R> {
    type Item = R;

    fn next(&mut self) -> Option<R> {
        self.chunks.next().map(R::from_numbers)
    }

    fn size_hint(&self) -> (usize, Option<usize>) {
        self.chunks.size_hint()
    }

    fn nth(&mut self, n: usize) -> Option<R> {
        self.chunks.nth(n).map(R::from_numbers)
    }
}

impl<R: Row> DoubleEndedIterator for Rows<'_, R> {
    fn next_back(&mut self) -> Option<R> {
        self.chunks.next_back().map(R::from_numbers)
    }

    fn nth_back(&mut self, n: usize) -> Option<R> {
        self.chunks.nth_back(n).map(R::from_numbers)
    }
}

impl<R: Row> ExactSizeIterator for Rows<'_, R> {}

impl<R: Row> FusedIterator for Rows<'_, R> {}

impl<R> Clone for Rows<'_, R> {
    fn clone(&self) -> Self {
        Rows { chunks: self.chunks.clone(), row: PhantomData }
    }
}

impl<R: Row + fmt::Debug> fmt::Debug for Rows<'_, R> {
    fn fmt(&self, f: &mut fmt::Formatter<'_>) -> fmt::Result {
        f.debug_list().entries(self.clone()).finish()
    }
}

/// Bytes of a source: from `start` up to `end`.
#[derive(Debug, Clone, Copy, PartialEq, Eq, Hash)]
pub struct Span {
    /// The first byte.
    pub start: u32,
    /// The byte after the last.
    pub end: u32,
}

impl Span {
    /// The bytes as a range that indexes the source, as `&[u8]` or as `&str`.
    pub const fn range(self) -> Range<usize> {
        self.start as usize..self.end as usize
    }

    /// The bytes themselves.
    ///
    /// # Panics
    /// If `src` is shorter than the source that was read.
    pub fn text(self, src: &[u8]) -> &[u8] {
        &src[self.range()]
    }
}
