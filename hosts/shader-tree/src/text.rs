//! Bytes as they are shown: one character or stray byte after another, and what must be escaped.

use std::ffi::OsStr;
use std::fmt::Write;

use crate::width::{in_ranges, width};

/// A character of a source, or a byte that is part of none.
#[derive(Debug, Clone, Copy, PartialEq, Eq)]
pub enum Piece {
    Char(char),
    Byte(u8),
}

impl Piece {
    /// The first piece of some bytes.
    pub fn first(bytes: &[u8]) -> Option<Piece> {
        if let Some(&byte) = bytes.first().filter(|byte| byte.is_ascii()) {
            return Some(Piece::Char(byte.into()));
        }
        let head = &bytes[..bytes.len().min(4)];
        let valid = match std::str::from_utf8(head) {
            Ok(text) => text,
            Err(error) => std::str::from_utf8(&head[..error.valid_up_to()]).unwrap_or_default(),
        };
        valid.chars().next().map(Piece::Char).or(head.first().map(|&byte| Piece::Byte(byte)))
    }

    /// The last piece of some bytes.
    pub fn last(bytes: &[u8]) -> Option<Piece> {
        if let Some(&byte) = bytes.last().filter(|byte| byte.is_ascii()) {
            return Some(Piece::Char(byte.into()));
        }
        let tail = &bytes[bytes.len().saturating_sub(4)..];
        let whole = (0..tail.len()).find_map(|from| std::str::from_utf8(&tail[from..]).ok());
        let last = whole.and_then(|text| text.chars().next_back());
        last.map(Piece::Char).or(tail.last().map(|&byte| Piece::Byte(byte)))
    }

    /// How many bytes it takes.
    pub fn bytes(self) -> usize {
        match self {
            Piece::Char(char) => char.len_utf8(),
            Piece::Byte(_) => 1,
        }
    }

    /// Whether it is shown by an escape: it is a stray byte, or what it does to a terminal or a page can't be seen.
    pub fn is_hidden(self) -> bool {
        match self {
            Piece::Char(char) => is_hidden(char),
            Piece::Byte(_) => true,
        }
    }

    /// How many columns it takes as it is shown.
    pub fn columns(self) -> usize {
        match self {
            Piece::Char(char) if !is_hidden(char) => width(char),
            _ => {
                let mut escape = String::new();
                self.escape(&mut escape);
                escape.len()
            }
        }
    }

    /// As it is, or as an escape.
    pub fn show(self, out: &mut String) {
        match self {
            Piece::Char(char) if !is_hidden(char) => out.push(char),
            _ => self.escape(out),
        }
    }

    fn escape(self, out: &mut String) {
        let written = match self {
            Piece::Char('\n') => out.write_str("\\n"),
            Piece::Char('\r') => out.write_str("\\r"),
            Piece::Char('\t') => out.write_str("\\t"),
            Piece::Char(char) if (char as u32) >= 0x80 => write!(out, "\\u{{{:x}}}", char as u32),
            Piece::Char(char) => write!(out, "\\x{:02x}", char as u32),
            Piece::Byte(byte) => write!(out, "\\x{byte:02x}"),
        };
        written.expect("a string takes all text");
    }
}

/// One piece after another.
pub fn pieces(mut bytes: &[u8]) -> impl Iterator<Item = Piece> + '_ {
    std::iter::from_fn(move || {
        let piece = Piece::first(bytes)?;
        bytes = &bytes[piece.bytes()..];
        Some(piece)
    })
}

/// Text between quotes: backslash and quote are escaped too.
pub fn quoted(bytes: &[u8]) -> String {
    let mut out = String::with_capacity(bytes.len() + 2);
    out.push('"');
    for piece in pieces(bytes) {
        if let Piece::Char('"' | '\\') = piece {
            out.push('\\');
        }
        piece.show(&mut out);
    }
    out.push('"');
    out
}

/// The name of a file on one line; a backslash in it is doubled, and no name at all is two quotes.
pub fn escaped_name(name: &OsStr) -> String {
    if name.is_empty() {
        return "''".into();
    }
    let mut out = String::new();
    for piece in pieces(name.as_encoded_bytes()) {
        if piece == Piece::Char('\\') {
            out.push('\\');
        }
        piece.show(&mut out);
    }
    out
}

/// 1234567 as 1,234,567.
pub fn grouped(number: u64) -> String {
    let digits = number.to_string();
    let mut out = String::new();
    for (at, digit) in digits.chars().enumerate() {
        if at > 0 && (digits.len() - at) % 3 == 0 {
            out.push(',');
        }
        out.push(digit);
    }
    out
}

/// Controls, formats that turn or hide text, line separators, and what is no character.
fn is_hidden(char: char) -> bool {
    let code = char as u32;
    if code < 0x80 {
        return char.is_ascii_control();
    }
    char.is_control() || code & 0xfffe == 0xfffe || in_ranges(&HIDDEN, code)
}

/// Formats and line separators.
const HIDDEN: [(u32, u32); 11] = [
    (0x061c, 0x061c),
    (0x180e, 0x180e),
    (0x200b, 0x200f),
    (0x2028, 0x202e),
    (0x2060, 0x206f),
    (0xd800, 0xdfff),
    (0xfdd0, 0xfdef),
    (0xfeff, 0xfeff),
    (0xfff9, 0xfffb),
    (0x1bca0, 0x1bca3),
    (0xe0000, 0xe007f),
];

#[cfg(test)]
mod tests {
    use std::os::unix::ffi::OsStrExt;

    use super::*;

    #[test]
    fn pieces_from_both_ends() {
        let bytes = "aé中\u{1f600}".as_bytes();
        let mut back = Vec::new();
        let mut end = bytes.len();
        while let Some(piece) = Piece::last(&bytes[..end]) {
            back.push(piece);
            end -= piece.bytes();
        }
        back.reverse();
        assert_eq!(pieces(bytes).collect::<Vec<_>>(), back);
        assert_eq!(back, "aé中\u{1f600}".chars().map(Piece::Char).collect::<Vec<_>>());
    }

    #[test]
    fn stray_bytes() {
        let found: Vec<_> = pieces(b"a\xe4\xb8b\xff").collect();
        let (a, b) = (Piece::Char('a'), Piece::Char('b'));
        assert_eq!(found, [a, Piece::Byte(0xe4), Piece::Byte(0xb8), b, Piece::Byte(0xff)]);
        assert_eq!(Piece::last(b"a\xe4\xb8"), Some(Piece::Byte(0xb8)));
        assert_eq!(Piece::first(b""), None);
        assert_eq!(Piece::last(b""), None);
    }

    #[test]
    fn quotes_and_controls_are_escaped() {
        assert_eq!(quoted(b"a\"\\\t\x0b\r\n\0\x1b\x7f"), r#""a\"\\\t\x0b\r\n\x00\x1b\x7f""#);
        assert_eq!(quoted("é\u{202e}\u{feff}\u{9b}".as_bytes()), r#""é\u{202e}\u{feff}\u{9b}""#);
        assert_eq!(quoted(b"\xff"), r#""\xff""#);
    }

    #[test]
    fn columns_are_those_of_what_is_shown() {
        for piece in pieces("a中e\u{301}\u{1b}\u{202e}\u{85}".as_bytes()).chain([Piece::Byte(0x80)]) {
            let mut shown = String::new();
            piece.show(&mut shown);
            assert_eq!(piece.columns(), shown.chars().map(width).sum::<usize>(), "{piece:?}");
        }
    }

    #[test]
    fn names_stay_on_one_line() {
        assert_eq!(escaped_name(OsStr::new("a b/c.frag")), "a b/c.frag");
        assert_eq!(escaped_name(OsStr::new("a\nb\\c")), "a\\nb\\\\c");
        assert_eq!(escaped_name(OsStr::from_bytes(b"\xe9.frag")), "\\xe9.frag");
        assert_eq!(escaped_name(OsStr::new("")), "''");
    }

    #[test]
    fn thousands_are_parted() {
        assert_eq!([0, 999, 1000, 16777216].map(grouped), ["0", "999", "1,000", "16,777,216"]);
    }
}
