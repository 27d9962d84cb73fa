//! What a source that is refused, or read otherwise than meant, looks like, and what helps.

use shader_reader::{line_table, Entry, Refusal, SyntaxKind, Tables, View, CONCAT_LIMIT, SOURCE_LIMIT};

use crate::diagnostics::{Level, Message};
use crate::input::Source;
use crate::text::grouped;

const BOM: &[u8] = b"\xef\xbb\xbf";
const CONVERT_LATIN: &str = "convert it, for instance by iconv -f WINDOWS-1252 -t UTF-8";

/// The message about a refused source, and the starts of the lines that it needs.
pub fn of_refusal(refusal: Refusal, source: &Source, tables: &mut Tables) -> (Message, Vec<u32>) {
    let bytes = &source.bytes;
    match refusal {
        Refusal::Length => (too_long(source.length), vec![0]),
        Refusal::Utf8 | Refusal::Cut => no_character(refusal, bytes),
        Refusal::Concats => (too_many_concats(bytes, tables), line_table(bytes).unwrap_or_else(|_| vec![0])),
        other => (error(other.to_string(), None), vec![0]),
    }
}

fn error(sentence: String, help: Option<String>) -> Message {
    Message { level: Level::Error, range: None, sentence, help }
}

fn too_long(length: Option<u64>) -> Message {
    let limit = grouped(SOURCE_LIMIT as u64);
    let sentence = match length {
        Some(length) => format!("the source has {} bytes: at most {limit} are read", grouped(length)),
        None => format!("the source has more than {limit} bytes: at most so many are read"),
    };
    error(sentence, Some("read it in parts".into()))
}

/// The message about the first place where no whole character stands: bad bytes, or a character that was cut.
fn no_character(refusal: Refusal, bytes: &[u8]) -> (Message, Vec<u32>) {
    let Err(wrong) = std::str::from_utf8(bytes) else {
        return (error(refusal.to_string(), None), vec![0]);
    };
    let at = wrong.valid_up_to();
    let end = wrong.error_len().map_or(bytes.len(), |length| at + length);
    let message = if refusal == Refusal::Cut { cut(bytes, at) } else { not_utf8(bytes, at) };
    // What stands before is UTF-8.
    let lines = line_table(&bytes[..at]).unwrap_or_else(|_| vec![0]);
    (Message { range: Some(at..end), ..message }, lines)
}

fn not_utf8(bytes: &[u8], at: usize) -> Message {
    let help = if utf16(bytes).is_some() {
        utf16_help(bytes)
    } else if stands_alone(bytes, at) {
        single_byte_help(bytes[at])
    } else {
        "save it as UTF-8".into()
    };
    error(format!("not UTF-8: byte 0x{:02X} at offset {at}", bytes[at]), Some(help))
}

fn cut(bytes: &[u8], at: usize) -> Message {
    let there: Vec<_> = bytes[at..].iter().map(|byte| format!("0x{byte:02X}")).collect();
    let sentence = format!("{}, the character begins at offset {at} with {}", Refusal::Cut, there.join(" "));
    let help = if utf16(bytes).is_some() {
        utf16_help(bytes)
    } else if there.len() == 1 && bytes[..at].is_ascii() {
        format!("send it again; a Latin-1 file with this last byte looks the same: {CONVERT_LATIN}")
    } else {
        "send it again".into()
    };
    error(sentence, Some(help))
}

#[derive(Debug, Clone, Copy, PartialEq, Eq)]
enum Utf16 {
    Little,
    Big,
}

/// Whether bytes look like UTF-16: by a byte order mark, or by a zero on one side of most pairs.
fn utf16(bytes: &[u8]) -> Option<Utf16> {
    match bytes {
        [0xff, 0xfe, ..] => return Some(Utf16::Little),
        [0xfe, 0xff, ..] => return Some(Utf16::Big),
        _ => {}
    }
    let pairs: Vec<_> = bytes.chunks_exact(2).take(512).map(|pair| (pair[0] == 0, pair[1] == 0)).collect();
    let most = |zeros| pairs.len() >= 2 && pairs.iter().filter(|&&pair| pair == zeros).count() * 5 >= pairs.len() * 4;
    if most((false, true)) {
        Some(Utf16::Little)
    } else if most((true, false)) {
        Some(Utf16::Big)
    } else {
        None
    }
}

fn utf16_help(bytes: &[u8]) -> String {
    let name = match utf16(bytes) {
        _ if matches!(bytes, [0xff, 0xfe, ..] | [0xfe, 0xff, ..]) => "UTF-16",
        Some(Utf16::Big) => "UTF-16BE",
        _ => "UTF-16LE",
    };
    format!("this looks like UTF-16: convert it, for instance by iconv -f {name} -t UTF-8")
}

/// Whether a byte that is not ASCII stands between ASCII.
fn stands_alone(bytes: &[u8], at: usize) -> bool {
    let ascii = |byte: Option<&u8>| byte.is_none_or(u8::is_ascii);
    ascii(at.checked_sub(1).and_then(|at| bytes.get(at))) && ascii(bytes.get(at + 1))
}

fn single_byte_help(byte: u8) -> String {
    let name = if byte < 0xa0 { "Windows-1252" } else { "Latin-1 (ISO 8859-1) or Windows-1252" };
    format!("this looks like {name}: {CONVERT_LATIN}")
}

/// The shortest beginning that is refused ends with the ## that is one too many.
fn too_many_concats(bytes: &[u8], tables: &mut Tables) -> Message {
    let ends: Vec<usize> = (2..=bytes.len()).filter(|&end| bytes[end - 2..end] == *b"##").collect();
    let beyond = ends.get(CONCAT_LIMIT..).unwrap_or_default();
    let kept = beyond.partition_point(|&end| !matches!(tables.read(&bytes[..end]), Err(Refusal::Concats)));
    let sentence = format!("a body with more than {CONCAT_LIMIT} ##: this is one too many");
    let help = "split the body into several macros".into();
    Message { range: beyond.get(kept).map(|&end| end - 2..end), ..error(sentence, Some(help)) }
}

/// A note about the first ERROR leaf that no error covers: the reader counts no error there.
pub fn of_error_leaf(bytes: &[u8], reading: &View) -> Option<Message> {
    let mut covered: Vec<_> = reading.errors().map(|error| error.range()).collect();
    covered.sort_by_key(|range| range.start);
    let mut covered = covered.into_iter().peekable();
    let mut leaves = reading.leaves().filter(|leaf| leaf.kind == SyntaxKind::ERROR).filter(|leaf| {
        while covered.next_if(|range| range.end <= leaf.start as usize).is_some() {}
        covered.peek().is_none_or(|range| range.start > leaf.start as usize)
    });
    let first = leaves.next()?;
    let more = leaves.count();
    let (sentence, help) = error_leaf(bytes, &first);
    let sentence = match more {
        0 => sentence.into(),
        1 => format!("{sentence} (there is 1 more such leaf)"),
        _ => format!("{sentence} (there are {} more such leaves)", grouped(more as u64)),
    };
    Some(Message { level: Level::Note, range: Some(first.range()), sentence, help })
}

fn error_leaf(bytes: &[u8], leaf: &Entry) -> (&'static str, Option<String>) {
    let text = leaf.text(bytes);
    if leaf.start == 0 && text == BOM {
        return byte_order_mark(bytes);
    }
    match text {
        [0] if utf16(bytes).is_some() => ("a zero byte is an ERROR leaf", Some(utf16_help(bytes))),
        [b'/', b'*', ..] => ("this comment does not end: it is an ERROR leaf up to the end of the source", None),
        [b'"' | b'<', ..] => ("this string does not end: it is an ERROR leaf up to the end of the source", None),
        _ => ("no token begins with this character: it is an ERROR leaf", None),
    }
}

/// A mark before a # makes text of the directive.
fn byte_order_mark(bytes: &[u8]) -> (&'static str, Option<String>) {
    let help = Some("save it as UTF-8 without a byte order mark".into());
    let behind = shader_reader::tokens(&bytes[BOM.len()..]).unwrap_or_default();
    match behind.iter().find(|token| !token.kind.is_trivia()) {
        Some(token) if token.kind == SyntaxKind::HASH => {
            ("a byte order mark is an ERROR leaf, and makes text of the directive behind it", help)
        }
        _ => ("a byte order mark is an ERROR leaf", help),
    }
}

#[cfg(test)]
mod tests {
    use super::*;

    fn refused(bytes: &[u8]) -> (Message, Vec<u32>) {
        let refusal = shader_reader::read(bytes).unwrap_err();
        let source = Source { bytes: bytes.to_vec(), length: Some(bytes.len() as u64) };
        of_refusal(refusal, &source, &mut Tables::new())
    }

    fn help(bytes: &[u8]) -> String {
        refused(bytes).0.help.unwrap()
    }

    fn note(bytes: &[u8]) -> Option<Message> {
        of_error_leaf(bytes, &Tables::new().read(bytes).unwrap())
    }

    #[test]
    fn the_first_byte_that_is_not_utf8() {
        let (message, lines) = refused(b"a\r\nb\xe9c\n");
        assert_eq!(message.sentence, "not UTF-8: byte 0xE9 at offset 4");
        assert_eq!(message.range, Some(4..5));
        assert_eq!(lines, [0, 3]);
    }

    #[test]
    fn what_it_looks_like() {
        assert!(help(b"caf\xe9 au lait").contains("Latin-1 (ISO 8859-1) or Windows-1252"));
        assert!(help(b"\x93quoted\x94").contains("looks like Windows-1252"));
        assert!(help(b"caf\xe4\xb8\xff\xff").contains("save it as UTF-8"));
        assert!(help(b"\xff\xfea\0b\0").contains("iconv -f UTF-16 "));
        assert!(help(b"\xfe\xff\0a\0b").contains("iconv -f UTF-16 "));
        assert!(help(b"a\0b\0c\0d\0\xe9\0").contains("iconv -f UTF-16LE "));
        assert!(help(b"\0a\0b\0\xe9\0d\0e").contains("iconv -f UTF-16BE "));
    }

    #[test]
    fn a_character_that_was_cut() {
        let (message, lines) = refused("a\r\nä中".as_bytes().split_last().unwrap().1);
        let words =
            "the file ends inside a character: the upload was cut, the character begins at offset 5 with 0xE4 0xB8";
        assert_eq!(message.sentence, words);
        assert_eq!(message.range, Some(5..7));
        assert_eq!(message.help.unwrap(), "send it again");
        assert_eq!(lines, [0, 3]);
    }

    #[test]
    fn what_else_a_cut_may_be() {
        // One byte behind ASCII may be the last of a Latin-1 file, but not behind characters of several bytes.
        assert!(help(b"// caf\xe9").starts_with("send it again; a Latin-1 file with this last byte looks the same: "));
        assert_eq!(help(b"// \xc3\xa4\xe9"), "send it again");
        assert_eq!(help(b"// caf\xe9\x80"), "send it again");
        assert!(help(b"\0a\0b\0c\0d\0\xe9").contains("iconv -f UTF-16BE "));
    }

    #[test]
    fn the_concat_that_is_one_too_many() {
        let kept = format!("#define a {}\n", "b##".repeat(CONCAT_LIMIT));
        assert!(shader_reader::read(kept.as_bytes()).is_ok());
        let wrong = format!("{kept}// é ##\n#if {}c##d\n", "中##".repeat(CONCAT_LIMIT));
        let (message, _) = refused(wrong.as_bytes());
        let range = message.range.unwrap();
        assert_eq!(&wrong[range.start - 1..range.end + 2], "c##d\n");
    }

    #[test]
    fn too_many_bytes() {
        assert_eq!(too_long(Some(16_777_217)).sentence, "the source has 16,777,217 bytes: at most 16,777,216 are read");
        assert_eq!(too_long(None).sentence, "the source has more than 16,777,216 bytes: at most so many are read");
    }

    #[test]
    fn notes_on_error_leaves() {
        let sentence = |bytes: &[u8]| note(bytes).unwrap().sentence;
        assert_eq!(note(b"void main() {}\n"), None);
        assert_eq!(note(b"\tvoid\x0bmain()\x0c{}\x0b\n\x0b#if 1\n"), None);
        assert_eq!(sentence(b"a @ b"), "no token begins with this character: it is an ERROR leaf");
        assert!(sentence(b"@@").ends_with("(there is 1 more such leaf)"));
        assert!(sentence(b"@@@").ends_with("(there are 2 more such leaves)"));
        assert!(sentence(b"/***/").starts_with("this comment does not end"));
        assert!(sentence(b"\"a\n").starts_with("this string does not end"));
        assert!(sentence(b"#include <a\n").starts_with("this string does not end"));
    }

    #[test]
    fn error_leaves_that_an_error_covers_are_not_noted() {
        assert_eq!(note(b"#@\n"), None);
        assert_eq!(note(b"#else @ @\n"), None);
        assert_eq!(note(b"#else @\n@\n").unwrap().range, Some(8..9));
    }

    #[test]
    fn byte_order_marks() {
        let sentence = |text: &str| note(text.as_bytes()).unwrap().sentence;
        for behind in [" /**/ #version 450\n", "\u{b}#version 450\n"] {
            assert!(sentence(&format!("\u{feff}{behind}")).ends_with("makes text of the directive behind it"));
        }
        assert_eq!(sentence("\u{feff}\n#version 450\n"), "a byte order mark is an ERROR leaf");
        assert!(sentence("a\u{feff}").starts_with("no token begins"));
    }

    #[test]
    fn utf16_of_ascii_is_utf8_with_zeros() {
        let message = note(b"a\0b\0c\0").unwrap();
        assert!(message.help.unwrap().contains("UTF-16LE"));
        assert_eq!(note(b"a\0").unwrap().help, None);
    }
}
