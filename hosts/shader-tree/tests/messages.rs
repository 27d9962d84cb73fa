//! What is said about sources, and where.

mod common;

use std::fs::{self, File};

use common::{fed, program, Folder};

/// What `--check` says about a source.
fn said(source: impl AsRef<[u8]>) -> String {
    fed(&["--check"], source.as_ref()).err
}

#[test]
fn every_sort_of_error() {
    assert_eq!(
        said("#foo\n#else a\n#ifdef 1\n#version"),
        "<stdin>:1:2: error: unknown preprocessor directive `#foo`\n\
        \u{20}   1 | #foo\n\
        \u{20}     |  ^^^\n\
        <stdin>:2:7: error: '#else' : extra tokens in preprocessor directive\n\
        \u{20}   2 | #else a\n\
        \u{20}     |       ^\n\
        <stdin>:3:8: error: unexpected DIGITS, expected [IDENT_KW]\n\
        \u{20}   3 | #ifdef 1\n\
        \u{20}     |        ^\n\
        <stdin>:4:9: error: unexpected end of input: [DIGITS]\n\
        \u{20}   4 | #version\n\
        \u{20}     |         ^\n"
    );
}

#[test]
fn an_unended_group_is_marked_where_it_begins() {
    let said = said("a\n#(\nb\n");
    assert_eq!(said, "<stdin>:2:2: error: unexpected end of input: [RPAREN]\n    2 | #(\n      |  ^\n");
}

#[test]
fn the_end_of_the_source_may_be_an_empty_line() {
    let said = said("#extension\n");
    assert!(said.ends_with("<stdin>:2:1: error: unexpected end of input: [COLON]\n    2 |\n      | ^\n"), "{said}");
}

#[test]
fn tabs_wide_and_combining_characters() {
    let said = said("\t/* 中e\u{301} */\t#foo\n");
    let line = format!("    1 | {}/* 中e\u{301} */       #foo\n", " ".repeat(8));
    let mark = format!("      | {}^^^\n", " ".repeat(25));
    assert!(said.starts_with("<stdin>:1:16: error: unknown"), "{said}");
    assert!(said.ends_with(&format!("{line}{mark}")), "{said}");
}

#[test]
fn carriage_returns_are_not_shown() {
    for newline in ["\r\n", "\n\r", "\r"] {
        let said = said(format!("a{newline}#else b{newline}"));
        assert!(said.ends_with("    2 | #else b\n      |       ^\n"), "{said:?}");
    }
}

#[test]
fn controls_are_escaped_in_lines_and_sentences() {
    let said = said("#\x1b[31m\n#else \x07\u{202e}\n");
    assert!(
        said.starts_with(
            "<stdin>:1:2: error: unknown preprocessor directive `#\\x1b`\n    1 | #\\x1b[31m\n      |  ^^^^\n"
        ),
        "{said}"
    );
    assert!(said.contains("    2 | #else \\x07\\u{202e}\n      |       ^^^^^^^^^^^^\n"), "{said}");
    assert!(!said.contains('\x1b'));
}

#[test]
fn vertical_tabs_are_escaped_and_marks_stand_under_their_bytes() {
    assert_eq!(
        said("\x0b\t#\x0bfoo\x0bbar\n #else\x0ba\x0bb \x0b\n"),
        "<stdin>:1:5: error: unknown preprocessor directive `#foo`\n\
        \u{20}   1 | \\x0b    #\\x0bfoo\\x0bbar\n\
        \u{20}     |              ^^^\n\
        <stdin>:2:8: error: '#else' : extra tokens in preprocessor directive\n\
        \u{20}   2 |  #else\\x0ba\\x0bb \\x0b\n\
        \u{20}     |           ^^^^^^^^^^^\n"
    );
    assert_eq!(
        said("#\"\x0b\"\n").lines().next(),
        Some("<stdin>:1:2: error: unknown preprocessor directive `#\"\\x0b\"`")
    );
}

#[test]
fn vertical_tabs_are_not_noted() {
    let ran = fed(&["--check"], b"\x0bvoid\x0bmain()\x0b{}\n\x0b#version\x0b450\n\\\x0b");
    assert_eq!((ran.err.as_str(), ran.code), ("", Some(0)));
}

#[test]
fn a_name_may_go_on_over_lines() {
    assert!(
        said("#fo\\\no\n").starts_with("<stdin>:1:2: error: unknown preprocessor directive `#foo`\n    1 | #fo\\\n")
    );
    let string = said("#\"a\nb\"\n");
    assert!(string.starts_with("<stdin>:1:2: error: unknown preprocessor directive `#\"a\\nb\"`\n"), "{string}");
    assert!(string.ends_with("      = note: up to line 2, column 2\n"), "{string}");
}

#[test]
fn long_names_are_cut() {
    let said = said(format!("#{}\n", "a".repeat(5000)));
    assert!(said.lines().all(|line| line.len() < 300), "{said}");
    assert!(said.lines().next().unwrap().ends_with("aaa..."), "{said}");
}

#[test]
fn long_lines_are_cut_around_the_mark() {
    let said = said(format!("#else {} /**/ {}\n", " ".repeat(1000), "b".repeat(1000)));
    let lines: Vec<_> = said.lines().collect();
    assert!(lines[0].starts_with("<stdin>:1:1013: error:"), "{said}");
    assert!(lines[1].starts_with("    1 | ...   ") && lines[1].ends_with("bbb..."), "{said}");
    assert_eq!(lines[1].find('b'), lines[2].find('^'));
    assert!(lines[1].len() < 120 && lines[2].len() < 120);
}

#[test]
fn refusals_say_place_and_remedy() {
    let latin = said(b"a\n// caf\xe9 au lait\n");
    assert!(latin.starts_with("<stdin>:2:7: error: not UTF-8: byte 0xE9 at offset 8\n    2 | // caf\\xe9 au lait\n      |       ^^^^\n      = help: "), "{latin}");
    let wide = said(b"\xff\xfe#\0v\0\n\0");
    assert!(wide.contains("1:1: error: not UTF-8: byte 0xFF at offset 0\n") && wide.contains("UTF-16"), "{wide}");
}

#[test]
fn a_file_that_ends_inside_a_character() {
    assert_eq!(
        said(b"a\n// \xe4\xb8\xad\xe4\xb8"),
        "<stdin>:2:7: error: the file ends inside a character: the upload was cut, \
        the character begins at offset 8 with 0xE4 0xB8\n\
        \u{20}   2 | // 中\\xe4\\xb8\n\
        \u{20}     |      ^^^^^^^^\n\
        \u{20}     = help: send it again\n"
    );
    let one = said(b"// caf\xc3");
    assert!(one.contains("1:7: error: the file ends inside a character: the upload was cut, "), "{one}");
    assert!(one.contains("at offset 6 with 0xC3\n") && one.contains("a Latin-1 file with this last byte"), "{one}");
    for (mode, out) in [("--listing", "answer,10,0,0,0\n"), ("--tokens", ""), ("--tree", "")] {
        let ran = fed(&[mode], b"a\xf0\x9f\x98");
        assert_eq!((ran.text(), ran.code), (out, Some(1)), "{mode}");
        assert!(ran.err.contains("at offset 1 with 0xF0 0x9F 0x98\n"), "{}", ran.err);
    }
    // Behind bytes that begin no character the end says nothing.
    assert!(said(b"\xff\xc3").contains("not UTF-8: byte 0xFF at offset 0\n"));
}

#[test]
fn too_many_concats() {
    let source = |count: usize| format!("a\n#define m {}\n", "b##".repeat(count));
    assert_eq!(said(source(256)), "");
    let said = said(source(257));
    assert!(said.starts_with("<stdin>:2:780: error: a body with more than 256 ##: this is one too many\n"), "{said}");
    assert!(said.ends_with("      = help: split the body into several macros\n"), "{said}");
    assert_eq!(fed(&["--listing"], source(257).as_bytes()).text(), "answer,3,0,0,0\n");
    // The lexer takes them all.
    assert_eq!(fed(&["--tokens"], source(257).as_bytes()).code, Some(0));
}

#[test]
fn notes_leave_the_status_clean() {
    let ran = fed(&["--check"], "\u{feff}#version 450\n".as_bytes());
    assert_eq!(ran.code, Some(0));
    assert!(
        ran.err.starts_with("<stdin>:1:1: note: a byte order mark is an ERROR leaf, and makes text of"),
        "{}",
        ran.err
    );
    let ran = fed(&["--check"], b"a\n/* b\n");
    assert_eq!(ran.code, Some(0));
    assert!(ran.err.starts_with("<stdin>:2:1: note: this comment does not end"), "{}", ran.err);
}

#[test]
fn colours_are_asked_for_or_left_out() {
    let colored = fed(&["--color=always"], b"#a\n");
    assert!(colored.err.contains("\x1b[1;31merror:\x1b[0m") && colored.text().contains("\x1b["));
    for args in [&["--color=never"][..], &["--color=auto"], &[]] {
        let plain = fed(args, b"#a\n");
        assert!(!plain.err.contains('\x1b') && !plain.text().contains('\x1b'));
    }
}

#[test]
fn messages_come_behind_what_is_written() {
    let folder = Folder::new("order");
    let path = folder.file("both", "");
    let both = File::options().append(true).open(&path).unwrap();
    folder.file("a", "#a\n");
    folder.file("b", "b");
    let mut command = program();
    command.args(["--tree", "a", "missing", "b"]).current_dir(folder.path());
    command.stdout(both.try_clone().unwrap()).stderr(both);
    assert_eq!(command.status().unwrap().code(), Some(2));
    let text = fs::read_to_string(path).unwrap();
    let places = ["==> a <==", "NEWLINE@2..3", "a:1:2: error:", "missing: can't be read", "==> b <=="]
        .map(|part| text.find(part));
    assert!(places.iter().all(Option::is_some) && places.is_sorted(), "{text}");
}
