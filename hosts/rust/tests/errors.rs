//! Errors: their sorts, places and sentences.
use shader_reader::{read, Error, ErrorKind, SyntaxKind};

/// The place and the sentence of each error.
fn sentences(src: &str) -> Vec<String> {
    let reading = read(src.as_bytes()).unwrap();
    reading.errors().map(|error| format!("{}:{} {}", error.line, error.column, error.message(src.as_bytes()))).collect()
}

fn first_error(src: &str) -> Error {
    read(src.as_bytes()).unwrap().errors().next().unwrap()
}

#[test]
fn unknown_directive() {
    assert_eq!(sentences("\n #foo bar\n"), ["1:2 unknown preprocessor directive `#foo`"]);
    assert_eq!(sentences("#ä"), ["0:1 unknown preprocessor directive `#ä`"]);
}

#[test]
fn a_name_is_said_without_its_continuations() {
    assert_eq!(sentences("#f\\\noo\n"), ["0:1 unknown preprocessor directive `#foo`"]);
    assert_eq!(sentences("#en\\\ndif x\n"), ["1:4 '#endif' : extra tokens in preprocessor directive"]);
}

#[test]
fn extra_tokens() {
    let src = b"#endif a b\n";
    assert_eq!(sentences("#endif a b\n"), ["0:7 '#endif' : extra tokens in preprocessor directive"]);
    let error = first_error("#endif a b\n");
    assert_eq!(error.text(src), b"a b");
    let ErrorKind::ExtraTokensInPreprocessorDirective { name } = error.kind else { panic!("{error:?}") };
    assert_eq!(name.text(src), b"endif");
}

#[test]
fn unexpected() {
    assert_eq!(sentences("#undef\n"), ["0:6 unexpected NEWLINE, expected [IDENT_KW]"]);
    assert_eq!(sentences("#extension a b\n")[0], "0:13 unexpected IDENT_KW, expected [COLON]");
    assert_eq!(sentences("#define f(1)\n")[0], "0:10 unexpected DIGITS, expected [IDENT_KW, RPAREN]");
    assert_eq!(sentences("#define f(a 1)\n")[0], "0:12 unexpected DIGITS, expected [COMMA, RPAREN]");
    let ErrorKind::Unexpected { actual, expected } = first_error("#define f(1)\n").kind else { panic!() };
    assert_eq!(actual, SyntaxKind::DIGITS);
    assert_eq!(*expected, [SyntaxKind::IDENT_KW, SyntaxKind::RPAREN]);
}

#[test]
fn the_lexer_of_lang_pp_has_another_name_for_concats() {
    assert_eq!(sentences("#undef ##\n"), ["0:7 unexpected PP_CONCAT, expected [IDENT_KW]"]);
}

#[test]
fn end_of_input() {
    assert_eq!(sentences("#undef"), ["0:6 unexpected end of input: [IDENT_KW]"]);
    assert_eq!(sentences("#version"), ["0:8 unexpected end of input: [DIGITS]"]);
    assert_eq!(sentences("\n#(a\n")[0], "1:1 unexpected end of input: [RPAREN]");
    assert_eq!(sentences("#define f(")[0], "0:10 unexpected end of input: [IDENT_KW, RPAREN]");
    assert_eq!(first_error("#undef").range(), 6..6);
    assert_eq!(first_error("\n#(a\n").range(), 2..3);
}

#[test]
fn the_place_of_an_error_is_the_place_of_its_start() {
    let src = "a\r\n#x\n\n#undef\n/*\n*/ #else 1\n#(";
    let reading = read(src.as_bytes()).unwrap();
    assert_eq!(reading.errors().len(), 4);
    for error in reading.errors() {
        let place = reading.place(error.start);
        assert_eq!((place.line, place.column), (error.line, error.column));
    }
    let backwards: Vec<u32> = reading.errors().rev().map(|error| error.kind.sort()).collect();
    assert_eq!(backwards, [5, 2, 4, 1]);
}

#[test]
#[should_panic(expected = "out of range")]
fn another_source_is_no_undefined_behaviour() {
    let _ = first_error("#undef 1\n").text(b"");
}
