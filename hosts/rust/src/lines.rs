//! Lines and columns.
use crate::ffi;
use crate::refusal::Refusal;
use crate::tables;

/// A line and a column, from 0; columns count bytes.
#[derive(Debug, Clone, Copy, PartialEq, Eq, PartialOrd, Ord, Hash)]
pub struct Place {
    /// The line, from 0.
    pub line: u32,
    /// The column, from 0, in bytes.
    pub column: u32,
}

impl Place {
    /// The place of an offset under a table of line starts, by binary search. The table is one that a call filled: this
    /// does not check it, as [`lookup`] does.
    ///
    /// ```
    /// use shader_reader::{line_table, lookup, Place};
    ///
    /// let lines = line_table(b"a\nbc\n").unwrap();
    /// assert_eq!(lines, [0, 2, 5]);
    /// assert_eq!(Place::within(&lines, 3), Place { line: 1, column: 1 });
    /// assert_eq!(lookup(&lines, 3), Ok(Place { line: 1, column: 1 }));
    /// ```
    pub fn within(lines: &[u32], offset: u32) -> Place {
        let line = lines.partition_point(|start| *start <= offset).saturating_sub(1);
        let start = lines.get(line).copied().unwrap_or(0);
        Place { line: line as u32, column: offset.saturating_sub(start) }
    }
}

/// The offset where each line of a source starts: 0, and the end of each newline. Refusals: [`Length`](Refusal::Length),
/// [`Utf8`](Refusal::Utf8), [`Cut`](Refusal::Cut).
pub fn line_table(src: &[u8]) -> Result<Vec<u32>, Refusal> {
    let lines = tables::grown(src.len(), tables::LINES, |lines| {
        // SAFETY: the slices' pointers are valid for their lengths, and the table is borrowed alone.
        let answer = unsafe { ffi::shader_line_table(src.as_ptr(), src.len(), lines.as_mut_ptr(), lines.len()) };
        Refusal::check(answer.refusal).map(|()| answer.count as usize)
    })?;
    Ok(lines.into_vec())
}

/// Line and column of an offset under any table of line starts. The table is read whole at each call, and refused
/// ([`Lookup`](Refusal::Lookup)) if it does not start at 0 or does not rise: under a table that a call has filled,
/// [`Place::within`] finds the same place by search. An offset past the end lies on the last line.
pub fn lookup(lines: &[u32], offset: u32) -> Result<Place, Refusal> {
    // SAFETY: the slice's pointer is valid for its length.
    let answer = unsafe { ffi::shader_lookup(lines.as_ptr(), lines.len(), offset) };
    Refusal::check(answer.refusal)?;
    Ok(Place { line: answer.line, column: answer.column })
}
