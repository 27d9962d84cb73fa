//! Every refusal, by every call that has it.
use std::error::Error;

use shader_reader::{
    define_body, line_table, lookup, paste, read, read_with, tokens, unescape, Refusal, SyntaxKind, Tables,
    CONCAT_LIMIT, SOURCE_LIMIT,
};

/// The refusals of the calls on a source or text.
fn refusals(src: &[u8]) -> [Option<Refusal>; 5] {
    [read(src).err(), define_body(src).err(), tokens(src).err(), line_table(src).err(), unescape(src).err()]
}

#[test]
fn length() {
    let mut src = vec![b'a'; SOURCE_LIMIT + 1];
    assert_eq!(refusals(&src), [Some(Refusal::Length); 5]);
    src.pop();
    assert_eq!(refusals(&src), [None; 5]);
}

#[test]
fn utf8() {
    for src in [&b"\x80"[..], b"\xff", b"\xc0\x80", b"\xed\xa0\x80", b"\xf4\x90\x80\x80", b"a\xe2\x82b"] {
        assert_eq!(refusals(src), [Some(Refusal::Utf8); 5]);
    }
    assert_eq!(refusals("\u{feff}ä€😀".as_bytes()), [None; 5]);
}

/// Texts of whole characters, whose lengths go over what is looked at together.
fn texts() -> impl Iterator<Item = String> {
    (0..70).flat_map(|count| ["a", "\n", "ä", "中", "#if ä\n"].map(|piece| piece.repeat(count)))
}

#[test]
fn characters_that_are_cut() {
    for character in ["\u{80}", "é", "\u{7ff}", "\u{800}", "€", "\u{d7ff}", "\u{ffff}", "\u{10000}", "😀", "\u{10ffff}"]
    {
        let bytes = character.as_bytes();
        for (text, end) in texts().flat_map(|text| (1..bytes.len()).map(move |end| (text.clone(), end))) {
            let cut = [text.as_bytes(), &bytes[..end]].concat();
            assert_eq!(refusals(&cut), [Some(Refusal::Cut); 5], "{cut:x?}");
            for behind in [b"a", b"\xc3", b"\xff"] {
                let bad = [&cut[..], behind].concat();
                assert_eq!(refusals(&bad), [Some(Refusal::Utf8); 5], "{bad:x?}");
            }
        }
    }
}

#[test]
fn bytes_that_begin_no_character_are_not_cut() {
    let ends: [&[u8]; 12] = [
        b"\x80",
        b"\xc0",
        b"\xc1",
        b"\xf5",
        b"\xff",
        b"\xe0\x80",
        b"\xed\xa0",
        b"\xf0\x80",
        b"\xf4\x90",
        b"\xff\xc3",
        b"\xc3\xc3",
        b"\xf0\x9f\xc3",
    ];
    for end in ends {
        assert_eq!(refusals(end), [Some(Refusal::Utf8); 5], "{end:x?}");
        assert_eq!(refusals(&[b"#define a ", end].concat()), [Some(Refusal::Utf8); 5], "{end:x?}");
    }
}

/// What the standard library says of bytes: an error without a length is an end inside a character.
fn by_std(src: &[u8]) -> Option<Refusal> {
    let wrong = std::str::from_utf8(src).err()?;
    Some(if wrong.error_len().is_none() { Refusal::Cut } else { Refusal::Utf8 })
}

#[test]
fn short_rows_of_bytes() {
    const EDGES: [u8; 24] = [
        0x00, 0x7f, 0x80, 0x8f, 0x90, 0x9f, 0xa0, 0xbf, 0xc0, 0xc1, 0xc2, 0xdf, 0xe0, 0xe1, 0xec, 0xed, 0xee, 0xef,
        0xf0, 0xf1, 0xf3, 0xf4, 0xf5, 0xff,
    ];
    for two in 0..=u16::MAX {
        let row = two.to_le_bytes();
        assert_eq!(refusals(&row), [by_std(&row); 5], "{row:x?}");
    }
    let mut rows: Vec<Vec<u8>> = vec![vec![]];
    for _ in 0..4 {
        rows = rows.iter().flat_map(|row| EDGES.map(|byte| [&row[..], &[byte]].concat())).collect();
        for row in &rows {
            assert_eq!(refusals(row), [by_std(row); 5], "{row:x?}");
        }
    }
}

#[test]
fn a_cut_is_checked_behind_the_length_and_before_the_rest() {
    let mut src = vec![b'a'; SOURCE_LIMIT + 1];
    src[SOURCE_LIMIT] = 0xc3;
    assert_eq!(read(&src).err(), Some(Refusal::Length));
    src.remove(0);
    assert_eq!(read(&src).err(), Some(Refusal::Cut));
    let body = "##".repeat(CONCAT_LIMIT + 1);
    assert_eq!(define_body(&[body.as_bytes(), b"\xc3"].concat()).err(), Some(Refusal::Cut));
    assert_eq!(read(&[b"#if ", body.as_bytes(), b"\xc3"].concat()).err(), Some(Refusal::Cut));
}

#[test]
fn concats() {
    let body = |count| "##".repeat(count);
    assert!(read(format!("#if {}\n", body(CONCAT_LIMIT)).as_bytes()).is_ok());
    assert_eq!(read(format!("#if {}\n", body(CONCAT_LIMIT + 1)).as_bytes()), Err(Refusal::Concats));
    assert!(define_body(body(CONCAT_LIMIT).as_bytes()).is_ok());
    assert_eq!(define_body(body(CONCAT_LIMIT + 1).as_bytes()), Err(Refusal::Concats));
    assert!(tokens(body(CONCAT_LIMIT + 1).as_bytes()).is_ok());
}

#[test]
fn short_tables() {
    let src = b"#a\n";
    let refusal = |entries: usize, errors: usize, lines: usize| {
        read_with(src, &mut vec![7; entries], &mut vec![7; errors], &mut vec![7; lines]).err()
    };
    assert_eq!(refusal(30, 10, 2), None);
    assert_eq!(refusal(29, 9, 1), Some(Refusal::Entries));
    assert_eq!(refusal(30, 9, 1), Some(Refusal::Errors));
    assert_eq!(refusal(30, 10, 1), Some(Refusal::Lines));
    assert_eq!(refusal(0, 0, 0), Some(Refusal::Entries));
}

#[test]
fn lookups() {
    assert_eq!(lookup(&[], 0), Err(Refusal::Lookup));
    assert_eq!(lookup(&[1], 0), Err(Refusal::Lookup));
    assert_eq!(lookup(&[0, 2, 2], 0), Err(Refusal::Lookup));
    assert!(lookup(&[0, 2, 3], u32::MAX).is_ok());
}

#[test]
fn kinds() {
    for &kind in SyntaxKind::ALL {
        let refused = (kind == SyntaxKind::LINECONT).then_some(Refusal::Kind);
        assert_eq!(paste(kind, SyntaxKind::EQUAL).err(), refused);
        assert_eq!(paste(SyntaxKind::EQUAL, kind).err(), refused);
    }
}

#[test]
fn refused_tables_go_on_to_be_used() {
    let mut tables = Tables::new();
    assert_eq!(tables.read(b"\xff").unwrap_err(), Refusal::Utf8);
    assert_eq!(tables.read(b"#\n").unwrap().entries().len(), 4);
}

#[test]
fn refusals_are_errors_with_words_and_numbers() {
    for (place, &refusal) in Refusal::ALL.iter().enumerate() {
        assert_eq!(refusal.number() as usize, place + 1);
        assert_eq!(Refusal::from_number(refusal.number()), Some(refusal));
        let error: Box<dyn Error> = refusal.into();
        assert!(error.to_string().contains(": "), "{error}: what is wrong, and what helps");
    }
    assert_eq!(Refusal::from_number(0), None);
    assert_eq!(Refusal::from_number(11), None);
    assert_eq!(Refusal::Length.to_string(), "the source is longer than 16777216 bytes: split it");
    assert_eq!(Refusal::Cut.to_string(), "the file ends inside a character: the upload was cut");
}

#[test]
fn messages_say_where_a_source_stops_being_utf8() {
    let message = |src: &[u8]| read(src).unwrap_err().message(src);
    assert_eq!(message(b"a\n\xe9b\xff"), "the source is not UTF-8, byte 0xE9 at offset 2: convert it to UTF-8");
    let cut = "the file ends inside a character: the upload was cut, the character begins at offset 1";
    assert_eq!(message(b"a\xf0\x9f\x98"), cut);
    let body = format!("#if {}", "##".repeat(CONCAT_LIMIT + 1));
    assert_eq!(message(body.as_bytes()), Refusal::Concats.to_string());
    // Another source tells nothing.
    for &refusal in Refusal::ALL {
        assert_eq!(refusal.message(b"a"), refusal.to_string());
    }
}
