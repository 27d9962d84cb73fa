//! A line of a source with a mark under some of its bytes.

use std::ops::Range;

use crate::text::{pieces, Piece};

/// A line is shown up to so many columns; a longer one is cut around the mark.
const COLUMNS: usize = 100;
/// So many columns before the mark stay in a cut line.
const BEFORE: usize = 40;
/// And so many of the mark, if it has them, stay in a line that is not cut before it.
const MARKED: usize = 20;
const TAB: usize = 8;
const CUT: &str = "...";

/// Text with its tabs as blanks and its controls escaped, and how many columns it takes.
#[derive(Debug, Default, PartialEq, Eq)]
pub struct Layout {
    pub text: String,
    pub columns: usize,
}

impl Layout {
    pub fn push(&mut self, piece: Piece) {
        let columns = match piece {
            Piece::Char('\t') => TAB - self.columns % TAB,
            _ => piece.columns(),
        };
        match piece {
            Piece::Char('\t') => self.text.extend(std::iter::repeat_n(' ', columns)),
            _ => piece.show(&mut self.text),
        }
        self.columns += columns;
    }

    /// The layout of some bytes of one line.
    pub fn of(bytes: &[u8]) -> Layout {
        let mut layout = Layout::default();
        pieces(bytes).for_each(|piece| layout.push(piece));
        layout
    }
}

/// The line, and where the mark stands under it.
#[derive(Debug, PartialEq, Eq)]
pub struct Excerpt {
    pub text: String,
    /// Columns before the mark.
    pub column: usize,
    /// Columns of the mark, at least one.
    pub width: usize,
}

/// The excerpt of a range, on the line that starts at `line`; what lies on later lines is not marked.
pub fn excerpt(bytes: &[u8], line: usize, range: Range<usize>) -> Excerpt {
    let from = first_shown(bytes, line, &range);
    let mut layout = Layout::default();
    if from > line {
        layout.text.push_str(CUT);
        layout.columns = CUT.len();
    }
    let limit = layout.columns + COLUMNS;
    let (mut at, mut count) = (from, 0);
    let (mut column, mut end) = (None, None);
    while let Some(piece) = Piece::first(&bytes[at..]).filter(|&piece| !is_newline(piece)) {
        if at >= range.start && column.is_none() {
            column = Some(layout.columns);
        }
        if at >= range.end && end.is_none() {
            end = Some(layout.columns);
        }
        if layout.columns >= limit || count > 4 * COLUMNS {
            layout.text.push_str(CUT);
            break;
        }
        layout.push(piece);
        at += piece.bytes();
        count += 1;
    }
    let column = column.unwrap_or(layout.columns);
    let width = end.unwrap_or(layout.columns).saturating_sub(column).max(1);
    Excerpt { text: layout.text, column, width }
}

fn is_newline(piece: Piece) -> bool {
    matches!(piece, Piece::Char('\n' | '\r'))
}

/// Where the shown part begins: with the line, if that leaves room for the mark.
fn first_shown(bytes: &[u8], line: usize, range: &Range<usize>) -> usize {
    let marked = range.len().min(MARKED);
    match back(bytes, line, range.start, COLUMNS - marked) {
        at if at == line => line,
        _ => back(bytes, line, range.start, BEFORE),
    }
}

/// The first place before `at` from which no more than so many columns lead to it.
fn back(bytes: &[u8], line: usize, mut at: usize, mut columns: usize) -> usize {
    // Characters without width end too.
    for _ in 0..4 * COLUMNS {
        let Some(piece) = Piece::last(&bytes[line..at]) else { break };
        let wide = if piece == Piece::Char('\t') { TAB } else { piece.columns() };
        if wide > columns {
            break;
        }
        columns -= wide;
        at -= piece.bytes();
    }
    at
}

#[cfg(test)]
mod tests {
    use super::*;

    /// The line and its mark, one above the other.
    fn drawn(bytes: &[u8], line: usize, range: Range<usize>) -> String {
        let Excerpt { text, column, width } = excerpt(bytes, line, range);
        format!("{text}\n{}{}", " ".repeat(column), "^".repeat(width))
    }

    #[test]
    fn a_plain_line() {
        assert_eq!(drawn(b"#undef\nfoo\n", 7, 7..10), "foo\n^^^");
        assert_eq!(drawn(b"#undef\nfoo\n", 0, 6..7), "#undef\n      ^");
    }

    #[test]
    fn the_end_of_the_source() {
        assert_eq!(drawn(b"#undef", 0, 6..6), "#undef\n      ^");
        assert_eq!(drawn(b"a\n", 2, 2..2), "\n^");
        assert_eq!(drawn(b"", 0, 0..0), "\n^");
    }

    #[test]
    fn tabs_become_blanks_up_to_their_stop() {
        assert_eq!(drawn(b"\ta\tbc", 0, 3..5), "        a       bc\n                ^^");
        assert_eq!(drawn(b"a\tb", 0, 1..3), "a       b\n ^^^^^^^^");
    }

    #[test]
    fn wide_and_combining_characters() {
        assert_eq!(drawn("中e\u{301}x".as_bytes(), 0, 6..7), "中e\u{301}x\n   ^");
        assert_eq!(drawn("x中".as_bytes(), 0, 1..4), "x中\n ^^");
    }

    #[test]
    fn controls_and_stray_bytes_are_escaped() {
        assert_eq!(drawn(b"a\x1b[1mb", 0, 5..6), "a\\x1b[1mb\n        ^");
        assert_eq!(drawn(b"caf\xe9!", 0, 3..4), "caf\\xe9!\n   ^^^^");
    }

    #[test]
    fn vertical_tabs_are_escaped_and_no_tabs() {
        assert_eq!(drawn(b"\x0b#foo\x0b\tb", 0, 2..5), "\\x0b#foo\\x0b    b\n     ^^^");
        assert_eq!(drawn(b"#else a\x0bb \x0b\n", 0, 6..11), "#else a\\x0bb \\x0b\n      ^^^^^^^^^^^");
        assert_eq!(drawn(b"a\n\x0b#\x0b\n", 2, 5..5), "\\x0b#\\x0b\n         ^");
    }

    #[test]
    fn long_lines_of_vertical_tabs_are_cut_around_the_mark() {
        let text = [&[0x0b; 500][..], b"MARK", &[0x0b; 500]].concat();
        let shown = excerpt(&text, 0, 500..504);
        assert_eq!(shown.text, format!("...{}MARK{}...", "\\x0b".repeat(10), "\\x0b".repeat(14)));
        assert_eq!((shown.column, shown.width), (43, 4));
    }

    #[test]
    fn newlines_of_all_sorts_end_the_line() {
        for newline in ["\n", "\r\n", "\n\r", "\r"] {
            let text = format!("#else a{newline}b");
            assert_eq!(drawn(text.as_bytes(), 0, 6..text.len()), "#else a\n      ^");
        }
    }

    #[test]
    fn long_lines_are_cut_around_the_mark() {
        let text = format!("{}MARK{}", "a".repeat(500), "b".repeat(500));
        let shown = excerpt(text.as_bytes(), 0, 500..504);
        assert_eq!(shown.text, format!("...{}MARK{}...", "a".repeat(40), "b".repeat(56)));
        assert_eq!((shown.column, shown.width), (43, 4));
    }

    #[test]
    fn long_marks_are_cut() {
        let text = "a".repeat(500);
        let shown = excerpt(text.as_bytes(), 0, 10..500);
        assert_eq!(shown.text, format!("{}...", "a".repeat(100)));
        assert_eq!((shown.column, shown.width), (10, 90));
    }

    #[test]
    fn a_line_that_fits_is_not_cut() {
        let text = "a".repeat(100);
        assert_eq!(excerpt(text.as_bytes(), 0, 99..100), Excerpt { text, column: 99, width: 1 });
    }

    #[test]
    fn characters_without_width_end_too() {
        let text = "\u{301}".repeat(100_000);
        let shown = excerpt(text.as_bytes(), 0, 100_000..100_002);
        assert!(shown.text.len() < 2_000);
    }
}
