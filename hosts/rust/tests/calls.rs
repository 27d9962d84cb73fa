//! The calls on tokens, lines and bodies, and threads.
use std::thread;

use shader_reader::{define_body, line_table, paste, read, tokens, unescape, Place, Reading, SyntaxKind, Tables};

#[test]
fn tokens_have_continuations_and_no_angle_strings() {
    let src = b"#include <a>\\\n\"b\"";
    let listed: Vec<_> = tokens(src).unwrap().iter().map(|token| (token.kind, token.text(src))).collect();
    use SyntaxKind::*;
    let expected: [(SyntaxKind, &[u8]); 8] = [
        (HASH, b"#"),
        (IDENT_KW, b"include"),
        (WS, b" "),
        (LANGLE, b"<"),
        (IDENT_KW, b"a"),
        (RANGLE, b">"),
        (LINECONT, b"\\\n"),
        (QUOTE_STRING, b"\"b\""),
    ];
    assert_eq!(listed, expected);
}

#[test]
fn lines_start_at_the_end_of_each_newline() {
    let lines = line_table(b"a\r\nb\rc\n\r/*\n*/").unwrap();
    assert_eq!(lines, [0, 3, 5, 8, 11]);
    assert_eq!(Place::within(&lines, 4), Place { line: 1, column: 1 });
    assert_eq!(Place::within(&[], 4), Place { line: 0, column: 4 });
}

#[test]
fn unescaping_drops_continuations_alone() {
    assert_eq!(unescape(b"a\\\nb\\\r\nc\\d\\\\\n").unwrap(), b"abc\\d\\");
}

#[test]
fn a_body_ends_at_its_newline_and_before_its_trivia() {
    let src = b"a ## b /**/\nc";
    let body = define_body(src).unwrap();
    assert_eq!(body.root().text(src), b"a ## b");
    let kinds: Vec<_> = body.entries().map(|entry| (entry.kind.name(), entry.level)).collect();
    let expected = [
        ("PP_DEFINE_BODY", 0),
        ("PP_CONCAT", 1),
        ("IDENT_KW", 2),
        ("WS", 2),
        ("PP_CONCAT_OP", 2),
        ("WS", 2),
        ("IDENT_KW", 2),
    ];
    assert_eq!(kinds, expected);
}

#[test]
fn pasting() {
    use SyntaxKind::*;
    assert_eq!(paste(HASH, HASH), Ok(PP_CONCAT_OP));
    assert_eq!(paste(DIGITS, IDENT_KW), Ok(DIGITS));
    assert_eq!(paste(LANGLE, LE_OP), Ok(ERROR));
    assert_eq!(paste(ROOT, IDENT_KW), Ok(ERROR));
}

#[test]
fn kinds_are_told_apart() {
    use SyntaxKind::*;
    let all = || SyntaxKind::ALL.iter().copied();
    assert_eq!(all().filter(|kind| kind.is_trivia()).collect::<Vec<_>>(), [WS, COMMENT, LINECONT]);
    assert_eq!(all().filter(|kind| kind.is_whitespace()).collect::<Vec<_>>(), [WS, NEWLINE, COMMENT, LINECONT]);
    assert_eq!(all().filter(|kind| kind.is_token() && kind.is_node()).collect::<Vec<_>>(), [ERROR]);
    assert_eq!(all().filter(|kind| kind.is_token()).count(), 58);
    assert_eq!(all().filter(|kind| kind.is_directive()).count(), 15);
    assert_eq!([0, 87, u32::MAX].map(SyntaxKind::from_u32), [None; 3]);
    assert_eq!(format!("[{HASH:>6}]"), "[  HASH]");
}

#[test]
fn threads_read_at_once() {
    let sources: Vec<String> =
        (1..9).map(|n| format!("#if {n}\n#a\nvoid f{n}() {{}}\n#endif\n").repeat(50 * n)).collect();
    let alone: Vec<Reading> = sources.iter().map(|src| read(src.as_bytes()).unwrap()).collect();
    thread::scope(|scope| {
        for start in 0..4 {
            let (sources, alone) = (&sources, &alone);
            scope.spawn(move || {
                let mut tables = Tables::new();
                for at in (0..sources.len()).map(|step| (start + step) % sources.len()) {
                    assert_eq!(tables.read(sources[at].as_bytes()).unwrap(), alone[at].view());
                }
            });
        }
    });
}

#[test]
fn a_reading_goes_from_thread_to_thread() {
    let reading = thread::spawn(|| read(b"#version 450\n").unwrap()).join().unwrap();
    let shared = &reading;
    let counts =
        thread::scope(|scope| [(); 2].map(|()| scope.spawn(|| shared.entries().len())).map(|t| t.join().unwrap()));
    assert_eq!(counts, [reading.entries().len(); 2]);
}
