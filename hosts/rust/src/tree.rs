//! The tree: entries, and a cursor over them.
use std::fmt;
use std::iter::FusedIterator;
use std::ops::{Deref, Range};

use crate::kind::SyntaxKind;
use crate::rows::{Row, Rows, Span};

/// Whether an entry is a leaf, which has bytes of the source, or a node, which has children.
#[derive(Debug, Clone, Copy, PartialEq, Eq, Hash)]
#[repr(u8)]
pub enum Form {
    /// A token of the source.
    Leaf = 0,
    /// A node over leaves and nodes, or over nothing.
    Node = 1,
}

/// A leaf or a node.
#[derive(Debug, Clone, Copy, PartialEq, Eq, Hash)]
pub struct Entry {
    /// Leaf or node.
    pub form: Form,
    /// Its kind.
    pub kind: SyntaxKind,
    /// How deep it lies: 0 is the root.
    pub level: u32,
    /// Its first byte.
    pub start: u32,
    /// The byte after its last.
    pub end: u32,
}

impl Entry {
    /// Whether it is a leaf.
    pub const fn is_leaf(&self) -> bool {
        matches!(self.form, Form::Leaf)
    }

    /// Whether it is a node.
    pub const fn is_node(&self) -> bool {
        matches!(self.form, Form::Node)
    }

    /// Its bytes.
    pub const fn span(&self) -> Span {
        Span { start: self.start, end: self.end }
    }

    /// Its bytes as a range that indexes the source.
    pub const fn range(&self) -> Range<usize> {
        self.span().range()
    }

    /// Its bytes in the source.
    ///
    /// # Panics
    /// If `src` is shorter than the source that was read.
    pub fn text<'s>(&self, src: &'s [u8]) -> &'s [u8] {
        self.span().text(src)
    }

    /// The five numbers that the table has: form, kind, level, start, end.
    pub const fn numbers(&self) -> [u32; Entry::NUMBERS] {
        [self.form as u32, self.kind as u32, self.level, self.start, self.end]
    }
}

impl Row for Entry {
    const NUMBERS: usize = 5;

    fn from_numbers(numbers: &[u32]) -> Entry {
        let &[form, kind, level, start, end] = numbers else { unreachable!("an entry has five numbers") };
        let form = if form == Form::Leaf as u32 { Form::Leaf } else { Form::Node };
        Entry { form, kind: SyntaxKind::of_table(kind), level, start, end }
    }
}

/// An iterator over entries, parent before children, left to right.
pub type Entries<'a> = Rows<'a, Entry>;

/// A tree: its entries, parent before children, left to right. It owns its table or borrows it.
#[derive(Clone, Copy, PartialEq, Eq, Hash)]
pub struct Tree<T = Box<[u32]>> {
    entries: T,
}

impl<T: AsRef<[u32]>> Tree<T> {
    /// Over the numbers of a call's entries, of which there is at least one.
    pub(crate) fn new(entries: T) -> Self {
        Tree { entries }
    }

    fn table(&self) -> &[u32] {
        self.entries.as_ref()
    }

    /// The same tree, borrowed.
    pub fn view(&self) -> Tree<&[u32]> {
        Tree::new(self.table())
    }

    /// All entries.
    pub fn entries(&self) -> Entries<'_> {
        Rows::new(self.table())
    }

    /// The nodes among the entries.
    pub fn nodes(&self) -> impl DoubleEndedIterator<Item = Entry> + Clone + '_ {
        self.entries().filter(Entry::is_node)
    }

    /// The leaves among the entries: joined in this order, their bytes are the source.
    pub fn leaves(&self) -> impl DoubleEndedIterator<Item = Entry> + Clone + '_ {
        self.entries().filter(Entry::is_leaf)
    }

    /// The first entry, over all others.
    pub fn root(&self) -> Node<'_> {
        Node::at(self.table(), 0)
    }
}

impl<T: AsRef<[u32]>> fmt::Debug for Tree<T> {
    fn fmt(&self, f: &mut fmt::Formatter<'_>) -> fmt::Result {
        self.entries().fmt(f)
    }
}

/// An entry at its place in a tree: a cursor. Its fields and methods are those of [`Entry`], and it knows its children.
#[derive(Clone, Copy)]
pub struct Node<'a> {
    table: &'a [u32],
    place: usize,
    entry: Entry,
}

impl Deref for Node<'_> {
    type Target = Entry;

    fn deref(&self) -> &Entry {
        &self.entry
    }
}

impl fmt::Debug for Node<'_> {
    fn fmt(&self, f: &mut fmt::Formatter<'_>) -> fmt::Result {
        f.debug_tuple("Node").field(&self.entry).finish()
    }
}

impl<'a> Node<'a> {
    fn at(table: &'a [u32], place: usize) -> Self {
        let entry = Entry::from_numbers(&table[place * Entry::NUMBERS..][..Entry::NUMBERS]);
        Node { table, place, entry }
    }

    /// The entry.
    pub const fn entry(&self) -> Entry {
        self.entry
    }

    /// Its children, left to right; a leaf has none.
    ///
    /// A step over a child takes time by the logarithm of how many entries lie below that child, and memory none. So a
    /// tree of n entries is walked whole in about n steps, however deep it is.
    pub fn children(&self) -> Children<'a> {
        Children { table: self.table, next: self.place + 1, level: self.entry.level + 1 }
    }

    /// What lies below it, parent before children, left to right: children, their children, and so on.
    pub fn descendants(&self) -> Entries<'a> {
        Rows::new(&self.table[(self.place + 1) * Entry::NUMBERS..self.behind() * Entry::NUMBERS])
    }

    /// The place behind the last entry below this one.
    ///
    /// Starts never fall along a table. What lies below starts before this one's end, or is an empty node at that end,
    /// of which a directive has two at most.
    fn behind(&self) -> usize {
        let count = self.table.len() / Entry::NUMBERS;
        let below = |place: usize| self.table[place * Entry::NUMBERS + START] < self.entry.end;
        let mut place = first_not(self.place + 1, count, below);
        while place < count && self.table[place * Entry::NUMBERS + LEVEL] > self.entry.level {
            place += 1;
        }
        place
    }
}

/// Where level and start stand among the numbers of an entry.
const LEVEL: usize = 2;
const START: usize = 3;

/// The first place from `low` on, or `count`, that is not so; all before it are, and none behind. Steps that double
/// pass it, and a binary search goes back to it.
fn first_not(mut low: usize, count: usize, so: impl Fn(usize) -> bool) -> usize {
    let mut step = 1;
    let mut high = low;
    while high < count && so(high) {
        low = high + 1;
        high += step;
        step *= 2;
    }
    high = high.min(count);
    while low < high {
        let middle = low + (high - low) / 2;
        if so(middle) {
            low = middle + 1;
        } else {
            high = middle;
        }
    }
    low
}

/// An iterator over the children of a [`Node`].
#[derive(Clone)]
pub struct Children<'a> {
    table: &'a [u32],
    next: usize,
    level: u32,
}

impl<'a> Iterator for Children<'a> {
    type Item = Node<'a>;

    fn next(&mut self) -> Option<Node<'a>> {
        if self.next * Entry::NUMBERS >= self.table.len() {
            return None;
        }
        let child = Node::at(self.table, self.next);
        if child.level < self.level {
            return None;
        }
        self.next = child.behind();
        Some(child)
    }
}

impl FusedIterator for Children<'_> {}

impl fmt::Debug for Children<'_> {
    fn fmt(&self, f: &mut fmt::Formatter<'_>) -> fmt::Result {
        f.debug_list().entries(self.clone()).finish()
    }
}

#[cfg(test)]
mod tests {
    use super::first_not;

    #[test]
    fn the_first_place_is_found_from_anywhere() {
        for count in 0..40 {
            for low in 0..=count {
                for first in low..=count {
                    assert_eq!(first_not(low, count, |place| place < first), first);
                }
            }
        }
    }
}
