//! Vertical tabs: blanks in every call, a part of comments and strings, no continuation behind a backslash.
use shader_reader::{define_body, line_table, read, tokens, unescape, Entry, SyntaxKind};

use SyntaxKind::*;

fn listed(src: &str) -> Vec<(SyntaxKind, u32, u32)> {
    tokens(src.as_bytes()).unwrap().iter().map(|token| (token.kind, token.start, token.end)).collect()
}

/// The kinds of the nodes under the ROOT.
fn directives(src: &str) -> Vec<SyntaxKind> {
    read(src.as_bytes()).unwrap().nodes().filter(|node| node.level == 1).map(|node| node.kind).collect()
}

fn errors(src: &str) -> usize {
    read(src.as_bytes()).unwrap().errors().len()
}

#[test]
fn one_token_with_the_blanks_beside_it() {
    assert_eq!(listed("\u{b}"), [(WS, 0, 1)]);
    assert_eq!(listed("\t\u{b}\u{c} \u{b}\u{b}a\u{b}"), [(WS, 0, 6), (IDENT_KW, 6, 7), (WS, 7, 8)]);
    assert_eq!(listed("1\u{b}.\u{b}5"), [(DIGITS, 0, 1), (WS, 1, 2), (PERIOD, 2, 3), (WS, 3, 4), (DIGITS, 4, 5)]);
}

#[test]
fn no_newline_and_no_continuation() {
    assert_eq!(listed("\\\u{b}\n"), [(BACKSLASH, 0, 1), (WS, 1, 2), (NEWLINE, 2, 3)]);
    assert_eq!(listed("a\\\u{b}b"), [(BACKSLASH, 0, 2), (WS, 2, 3), (IDENT_KW, 3, 4)]);
    assert_eq!(listed("\\\n\u{b}"), [(LINECONT, 0, 2), (WS, 2, 3)]);
    assert_eq!(line_table(b"\x0b\n\x0b").unwrap(), [0, 2]);
    assert_eq!(unescape(b"\x0b\\\n\x0b").unwrap(), b"\x0b\x0b");
}

#[test]
fn a_part_of_comments_and_strings() {
    assert_eq!(listed("/*\u{b}*/\u{b}\"\u{b}\""), [(COMMENT, 0, 5), (WS, 5, 6), (QUOTE_STRING, 6, 9)]);
    assert_eq!(listed("//\u{b}\\\u{b}\n\u{b}"), [(COMMENT, 0, 5), (NEWLINE, 5, 6), (WS, 6, 7)]);
    let include = read(b"#include\x0b<\x0b>\x0b\n").unwrap();
    let leaves: Vec<_> = include.leaves().map(|leaf| (leaf.kind, leaf.start, leaf.end)).collect();
    assert_eq!(leaves[2..], [(WS, 8, 9), (ANGLE_STRING, 9, 12), (WS, 12, 13), (NEWLINE, 13, 14)]);
}

#[test]
fn directives_behind_it() {
    assert_eq!(directives("\u{b}#if a\n \u{b}#\u{b}\telse\u{b}\n#\u{b}\n"), [PP_IF, PP_ELSE, PP_EMPTY]);
    assert_eq!(directives("a\u{b}#if a\n"), []);
    let reading = read(b" \x0b#\x0bif\x0ba \x0b\n").unwrap();
    let blanks: Vec<_> = reading.leaves().filter(|leaf| leaf.kind == WS).map(|leaf| leaf.range()).collect();
    assert_eq!(blanks, [0..2, 3..4, 6..7, 8..10]);
    assert_eq!(reading.root().children().next().unwrap().range(), 0..11);
}

#[test]
fn a_name_and_its_bracket_apart() {
    let src = b"#define f\x0b(a)\n";
    let reading = read(src).unwrap();
    assert!(reading.nodes().all(|node| node.kind != PP_DEFINE_ARGS));
    let body = reading.nodes().find(|node| node.kind == PP_DEFINE_BODY).unwrap();
    assert_eq!(body.text(src), b"(a)");
    assert_eq!(define_body(b"\x0b##\x0ba\x0b\n").unwrap().root().range(), 0..5);
}

#[test]
fn no_error_by_itself() {
    assert_eq!(errors("#undef\u{b}a\u{b}\n#version\u{b}450\u{b}core\n#extension\u{b}a\u{b}:\u{b}b\n"), 0);
    assert_eq!(errors("#define\u{b}f(\u{b}a\u{b},\u{b}b\u{b})\u{b}a\n#endif\u{b}"), 0);
    assert_eq!(errors("#else\u{b}a\u{b}\n"), 1);
    let src = b"#undef\x0b\nfoo\n";
    let missing = read(src).unwrap().errors().next().unwrap();
    assert_eq!(missing.text(src), b"\n");
}

#[test]
fn read_as_other_blanks_are() {
    let src = "\u{b}#\u{b}define f(\u{b}a) \u{b}a##\u{b}b \\\n\u{b}\"\u{b}\"\u{b}// \u{b}\n\u{b}#x\u{b}y\\\u{b}@\u{b}";
    let entries = |src: &str| read(src.as_bytes()).unwrap().entries().collect::<Vec<Entry>>();
    for blank in ["\t", "\u{c}", " "] {
        let other = src.replace('\u{b}', blank);
        assert_eq!(entries(src), entries(&other));
        assert_eq!(listed(src), listed(&other));
        assert_eq!(errors(src), errors(&other));
    }
}
