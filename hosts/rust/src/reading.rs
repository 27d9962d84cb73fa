//! Reading a source, and a define body.
use std::fmt;
use std::ops::Range;

use crate::error::{Error, Errors};
use crate::ffi;
use crate::lines::Place;
use crate::refusal::Refusal;
use crate::rows::{Row, Rows};
use crate::tables::{self, Table};
use crate::tree::{Entries, Entry, Node, Tree};

/// The reading of a source: its tree, its errors and its lines.
///
/// It owns its tables, or borrows them (a [`View`]), and remembers nothing of the source: a text is asked for with the
/// source that was read.
///
/// ```
/// use shader_reader::{read, SyntaxKind};
///
/// let src = b"#define PI 3.14\nfloat x = PI;\n";
/// let reading = read(src).unwrap();
/// assert_eq!(reading.errors().len(), 0);
/// let joined: Vec<u8> = reading.leaves().flat_map(|leaf| leaf.text(src).to_vec()).collect();
/// assert_eq!(joined, src);
///
/// let define = reading.root().children().next().unwrap();
/// assert_eq!(define.kind, SyntaxKind::PP_DEFINE);
/// let body = define.children().find(|child| child.kind == SyntaxKind::PP_DEFINE_BODY).unwrap();
/// assert_eq!(body.text(src), b"3.14");
/// ```
#[derive(Clone, Copy, PartialEq, Eq, Hash)]
pub struct Reading<T = Box<[u32]>> {
    tree: Tree<T>,
    errors: T,
    lines: T,
}

/// A reading in tables that are borrowed: those of [`read_with`], of [`Tables`], or of a [`Reading`].
pub type View<'a> = Reading<&'a [u32]>;

impl<T: AsRef<[u32]>> Reading<T> {
    /// The same reading, borrowed.
    pub fn view(&self) -> View<'_> {
        Reading { tree: self.tree.view(), errors: self.errors.as_ref(), lines: self.lines.as_ref() }
    }

    /// The tree.
    pub const fn tree(&self) -> &Tree<T> {
        &self.tree
    }

    /// All entries: nodes and leaves, parent before children, left to right.
    pub fn entries(&self) -> Entries<'_> {
        self.tree.entries()
    }

    /// The nodes among the entries.
    pub fn nodes(&self) -> impl DoubleEndedIterator<Item = Entry> + Clone + '_ {
        self.tree.nodes()
    }

    /// The leaves among the entries: joined in this order, their bytes are the source.
    pub fn leaves(&self) -> impl DoubleEndedIterator<Item = Entry> + Clone + '_ {
        self.tree.leaves()
    }

    /// The ROOT, from which the tree is walked by [`children`](Node::children).
    pub fn root(&self) -> Node<'_> {
        self.tree.root()
    }

    /// The errors; none exactly when the source keeps the directive grammar.
    pub fn errors(&self) -> Errors<'_> {
        Rows::new(self.errors.as_ref())
    }

    /// The offset where each line starts; the first is 0.
    pub fn line_starts(&self) -> &[u32] {
        self.lines.as_ref()
    }

    /// The bytes of each line, with the newline that ends it.
    pub fn lines(&self) -> impl DoubleEndedIterator<Item = Range<usize>> + ExactSizeIterator + Clone + '_ {
        (0..self.line_starts().len()).map(|line| self.line_range(line))
    }

    /// The bytes of a line, with the newline that ends it.
    pub fn line(&self, line: u32) -> Option<Range<usize>> {
        let line = line as usize;
        (line < self.line_starts().len()).then(|| self.line_range(line))
    }

    fn line_range(&self, line: usize) -> Range<usize> {
        let starts = self.line_starts();
        let end = starts.get(line + 1).copied().unwrap_or(self.root().end);
        starts[line] as usize..end as usize
    }

    /// The line and column of an offset, by binary search.
    pub fn place(&self, offset: u32) -> Place {
        Place::within(self.line_starts(), offset)
    }
}

impl<T: AsRef<[u32]>> fmt::Debug for Reading<T> {
    fn fmt(&self, f: &mut fmt::Formatter<'_>) -> fmt::Result {
        let mut reading = f.debug_struct("Reading");
        reading.field("entries", &self.entries()).field("errors", &self.errors());
        reading.field("lines", &self.line_starts()).finish()
    }
}

/// How many entries, errors and lines a reading has.
struct Counts {
    entries: usize,
    errors: usize,
    lines: usize,
}

fn fill(src: &[u8], entries: &mut [u32], errors: &mut [u32], lines: &mut [u32]) -> Result<Counts, Refusal> {
    // SAFETY: the slices' pointers are valid for their lengths, and each table is borrowed alone.
    let answer = unsafe {
        ffi::shader_read(
            src.as_ptr(),
            src.len(),
            entries.as_mut_ptr(),
            entries.len(),
            errors.as_mut_ptr(),
            errors.len(),
            lines.as_mut_ptr(),
            lines.len(),
        )
    };
    Refusal::check(answer.refusal)?;
    Ok(Counts { entries: answer.entries as usize, errors: answer.errors as usize, lines: answer.lines as usize })
}

/// Reads a source into tables of its own.
///
/// The tables begin with a guess, 10.4 bytes for each byte of the source and some 2,200 more, which suffices for most
/// shaders; where one does not, the source is read again with a longer one. What is not used is given back. Refusals:
/// [`Length`](Refusal::Length), [`Utf8`](Refusal::Utf8), [`Cut`](Refusal::Cut), [`Concats`](Refusal::Concats).
pub fn read(src: &[u8]) -> Result<Reading, Refusal> {
    let mut tables = Tables::new();
    let counts = tables.fill(src)?;
    Ok(Reading {
        tree: Tree::new(tables.entries.trimmed(counts.entries)),
        errors: tables.errors.trimmed(counts.errors),
        lines: tables.lines.trimmed(counts.lines),
    })
}

/// Reads a source into the caller's tables, and looks at what was filled.
///
/// An entry takes [`ENTRY_NUMBERS`](crate::ENTRY_NUMBERS) numbers, an error [`ERROR_NUMBERS`](crate::ERROR_NUMBERS), a
/// line one. A source of n bytes has at most 8n + 1 entries, 8n errors and n + 1 lines; real ones have an entry for
/// every three bytes or so. Refusals: those of [`read`], and of a table that is too short ([`Entries`](Refusal::Entries),
/// [`Errors`](Refusal::Errors), [`Lines`](Refusal::Lines)). The whole of each table is cleared, also if the call is
/// refused.
///
/// ```
/// let src = b"#version 450\n";
/// let (mut entries, mut errors, mut lines) = ([0; 5 * 16], [0; 10], [0; 4]);
/// let view = shader_reader::read_with(src, &mut entries, &mut errors, &mut lines).unwrap();
/// assert_eq!(view.line_starts(), [0, 13]);
/// ```
pub fn read_with<'t>(
    src: &[u8],
    entries: &'t mut [u32],
    errors: &'t mut [u32],
    lines: &'t mut [u32],
) -> Result<View<'t>, Refusal> {
    let counts = fill(src, entries, errors, lines)?;
    Ok(Reading {
        tree: Tree::new(&entries[..counts.entries * Entry::NUMBERS]),
        errors: &errors[..counts.errors * Error::NUMBERS],
        lines: &lines[..counts.lines],
    })
}

/// Tables that are kept from one reading to the next, and grow as sources need.
///
/// ```
/// let mut tables = shader_reader::Tables::new();
/// for src in ["#if 1\n", "void main() {}\n"] {
///     let view = tables.read(src.as_bytes()).unwrap();
///     assert_eq!(view.root().end as usize, src.len());
/// }
/// ```
#[derive(Clone)]
pub struct Tables {
    entries: Table,
    errors: Table,
    lines: Table,
}

impl fmt::Debug for Tables {
    fn fmt(&self, f: &mut fmt::Formatter<'_>) -> fmt::Result {
        f.debug_struct("Tables").finish_non_exhaustive()
    }
}

impl Default for Tables {
    fn default() -> Tables {
        Tables::new()
    }
}

impl Tables {
    /// Empty ones.
    pub const fn new() -> Tables {
        Tables {
            entries: Table::new(tables::ENTRIES),
            errors: Table::new(tables::ERRORS),
            lines: Table::new(tables::LINES),
        }
    }

    /// Reads a source as [`read`] does, and looks at what was filled.
    pub fn read(&mut self, src: &[u8]) -> Result<View<'_>, Refusal> {
        let counts = self.fill(src)?;
        Ok(Reading {
            tree: Tree::new(self.entries.filled(counts.entries)),
            errors: self.errors.filled(counts.errors),
            lines: self.lines.filled(counts.lines),
        })
    }

    fn fill(&mut self, src: &[u8]) -> Result<Counts, Refusal> {
        self.entries.begin(src.len());
        self.errors.begin(src.len());
        self.lines.begin(src.len());
        loop {
            match fill(src, self.entries.lent(), self.errors.lent(), self.lines.lent()) {
                Err(Refusal::Entries) if self.entries.grow() => {}
                Err(Refusal::Errors) if self.errors.grow() => {}
                Err(Refusal::Lines) if self.lines.grow() => {}
                answer => return answer,
            }
        }
    }
}

/// Reads a define body, up to the first newline: a tree whose root is a PP_DEFINE_BODY. Refusals as of [`read`].
///
/// ```
/// use shader_reader::{define_body, SyntaxKind};
///
/// let tree = define_body(b"a ## b").unwrap();
/// assert_eq!(tree.root().kind, SyntaxKind::PP_DEFINE_BODY);
/// assert_eq!(tree.nodes().nth(1).unwrap().kind, SyntaxKind::PP_CONCAT);
/// ```
pub fn define_body(src: &[u8]) -> Result<Tree, Refusal> {
    let numbers = tables::grown(src.len(), tables::ENTRIES, |entries| {
        // SAFETY: the slices' pointers are valid for their lengths, and the table is borrowed alone.
        let answer = unsafe { ffi::shader_define_body(src.as_ptr(), src.len(), entries.as_mut_ptr(), entries.len()) };
        Refusal::check(answer.refusal).map(|()| answer.count as usize)
    })?;
    Ok(Tree::new(numbers))
}
