//! The worked readings of the manual, with their whole tables.
use shader_reader::{read, View};

/// Kind, range and form of each entry, indented by its level.
fn tree(view: View<'_>) -> String {
    view.entries()
        .map(|entry| {
            let form = if entry.is_leaf() { "'" } else { "" };
            format!("{}{}{form} {}-{}\n", "  ".repeat(entry.level as usize), entry.kind, entry.start, entry.end)
        })
        .collect()
}

/// Checks tree, errors and lines of a source, that its leaves join to it, and that rows give back their numbers.
fn reads(src: &str, expected: &[&str], errors: &[[u32; 10]], lines: &[u32]) {
    let reading = read(src.as_bytes()).unwrap();
    assert_eq!(tree(reading.view()).lines().collect::<Vec<_>>(), expected, "tree of {src:?}");
    assert_eq!(reading.errors().map(|error| error.numbers()).collect::<Vec<_>>(), errors, "errors of {src:?}");
    assert_eq!(reading.line_starts(), lines, "lines of {src:?}");
    let joined: String = reading.leaves().map(|leaf| &src[leaf.range()]).collect();
    assert_eq!(joined, src);
}

#[test]
fn nothing_and_hashes() {
    reads("", &["ROOT 0-0"], &[], &[0]);
    reads("#", &["ROOT 0-1", "  ERROR 0-1", "    HASH' 0-1"], &[], &[0]);
    reads("#\n", &["ROOT 0-2", "  PP_EMPTY 0-2", "    HASH' 0-1", "    NEWLINE' 1-2"], &[], &[0, 2]);
    let group = ["ROOT 0-5", "  HASH' 0-1", "  LPAREN' 1-2", "  IDENT_KW' 2-3", "  RPAREN' 3-4", "  NEWLINE' 4-5"];
    reads("#(a)\n", &group, &[], &[0, 5]);
}

#[test]
fn text() {
    reads("/***/", &["ROOT 0-5", "  ERROR' 0-5"], &[], &[0]);
    reads("1.2.3", &["ROOT 0-5", "  DIGITS' 0-3", "  DIGITS' 3-5"], &[], &[0]);
    reads("abc\\d", &["ROOT 0-5", "  BACKSLASH' 0-4", "  IDENT_KW' 4-5"], &[], &[0]);
    reads("\n\r\n", &["ROOT 0-3", "  NEWLINE' 0-2", "  NEWLINE' 2-3"], &[], &[0, 2, 3]);
    reads("<<<", &["ROOT 0-3", "  LEFT_OP' 0-2", "  LANGLE' 2-3"], &[], &[0]);
}

#[test]
fn an_identifier_is_missing() {
    let tree = [
        "ROOT 0-11",
        "  PP_UNDEF 0-11",
        "    HASH' 0-1",
        "    IDENT_KW' 1-6",
        "    PP_IDENT 6-7",
        "      ERROR 6-7",
        "        NEWLINE' 6-7",
        "    ERROR 7-10",
        "      IDENT_KW' 7-10",
        "    NEWLINE' 10-11",
    ];
    let errors = [[4, 6, 7, 0, 6, 33, 1, 0, 0, 0], [2, 7, 10, 1, 0, 0, 0, 0, 1, 6]];
    reads("#undef\nfoo\n", &tree, &errors, &[0, 7, 11]);
}

#[test]
fn a_macro_with_a_comma_behind_its_last_argument() {
    let tree = [
        "ROOT 0-16",
        "  PP_DEFINE 0-16",
        "    HASH' 0-1",
        "    IDENT_KW' 1-7",
        "    WS' 7-8",
        "    IDENT_KW' 8-9",
        "    PP_DEFINE_ARGS 9-13",
        "      LPAREN' 9-10",
        "      PP_DEFINE_ARG 10-11",
        "        IDENT_KW' 10-11",
        "      COMMA' 11-12",
        "      RPAREN' 12-13",
        "    WS' 13-14",
        "    PP_DEFINE_BODY 14-15",
        "      IDENT_KW' 14-15",
        "    NEWLINE' 15-16",
    ];
    reads("#define F(a,) a\n", &tree, &[], &[0, 16]);
}

#[test]
fn a_version_without_its_number() {
    let tree = [
        "ROOT 0-14",
        "  PP_VERSION 0-14",
        "    HASH' 0-1",
        "    IDENT_KW' 1-8",
        "    PP_VERSION_NUMBER 8-9",
        "      ERROR 8-9",
        "        NEWLINE' 8-9",
        "    PP_VERSION_PROFILE 9-13",
        "      IDENT_KW' 9-13",
        "    NEWLINE' 13-14",
    ];
    reads("#version\ncore\n", &tree, &[[4, 8, 9, 0, 8, 33, 3, 0, 0, 0]], &[0, 9, 14]);
}

#[test]
fn vertical_tabs() {
    let tree = [
        "ROOT 0-9",
        "  PP_IF 0-9",
        "    WS' 0-1",
        "    HASH' 1-2",
        "    WS' 2-3",
        "    IDENT_KW' 3-5",
        "    WS' 5-6",
        "    PP_IF_EXPR 6-7",
        "      IDENT_KW' 6-7",
        "    WS' 7-8",
        "    NEWLINE' 8-9",
    ];
    reads("\u{b}#\u{b}if\u{b}a\u{b}\n", &tree, &[], &[0, 9]);
    let empty = ["ROOT 0-5", "  PP_EMPTY 0-5", "    WS' 0-2", "    HASH' 2-3", "    WS' 3-4", "    NEWLINE' 4-5"];
    reads(" \u{b}#\u{b}\n", &empty, &[], &[0, 5]);
    reads("\\\u{b}\n", &["ROOT 0-3", "  BACKSLASH' 0-1", "  WS' 1-2", "  NEWLINE' 2-3"], &[], &[0, 3]);
    let inside = ["ROOT 0-8", "  QUOTE_STRING' 0-3", "  WS' 3-4", "  COMMENT' 4-7", "  NEWLINE' 7-8"];
    reads("\"\u{b}\"\u{b}//\u{b}\n", &inside, &[], &[0, 8]);
}

#[test]
fn an_unknown_directive() {
    let tree = ["ROOT 0-2", "  ERROR 0-2", "    HASH' 0-1", "    ERROR 1-2", "      IDENT_KW' 1-2"];
    reads("#a", &tree, &[[1, 1, 2, 0, 1, 0, 0, 0, 1, 2]], &[0]);
}
