//! The caller's tables, tables that are kept, and tables that grow.
use shader_reader::{define_body, line_table, read, read_with, tokens, Tables, Token, ENTRY_NUMBERS, ERROR_NUMBERS};

/// Sources that need more of one table, or of all, than the first guess has.
fn hungry() -> Vec<String> {
    let shapes =
        ["a b\n", "\n", "#", "#\n", "#a\n", "#undef", "#undef\n", "+a", "#define f(1 1\n", "#extension\n", ";", ""];
    let mut sources: Vec<String> = shapes.iter().map(|shape| shape.repeat(1000)).collect();
    sources.push(format!("#if {}\n", "##a".repeat(256)).repeat(20));
    sources.push(format!("#define f({}", "1 ".repeat(2000)));
    sources
}

#[test]
fn tables_of_the_proved_bound_give_the_same_reading() {
    for src in hungry() {
        let n = src.len();
        let (mut entries, mut errors) = (vec![7; ENTRY_NUMBERS * (8 * n + 1)], vec![7; ERROR_NUMBERS * 8 * n]);
        let mut lines = vec![7; n + 1];
        let view = read_with(src.as_bytes(), &mut entries, &mut errors, &mut lines).unwrap();
        let reading = read(src.as_bytes()).unwrap();
        assert_eq!(reading.view(), view);
        assert_eq!(line_table(src.as_bytes()).unwrap(), view.line_starts());
    }
}

#[test]
fn exact_tables_suffice_and_the_rest_is_cleared() {
    let src = b"#undef\nfoo\n";
    let (mut entries, mut errors, mut lines) = ([7; 50], [7; 20], [7; 3]);
    let exact = read_with(src, &mut entries, &mut errors, &mut lines).unwrap();
    assert_eq!(exact, read(src).unwrap().view());
    let (mut entries, mut errors, mut lines) = ([7; 61], [7; 33], [7; 5]);
    let longer = read_with(src, &mut entries, &mut errors, &mut lines).unwrap();
    assert_eq!((longer.entries().len(), longer.errors().len(), longer.lines().len()), (10, 2, 3));
    assert_eq!((&entries[50..], &errors[20..], &lines[3..]), (&[0; 11][..], &[0; 13][..], &[0; 2][..]));
}

#[test]
fn a_refused_call_clears_its_tables() {
    let (mut entries, mut errors, mut lines) = ([7; 8], [7; 8], [7; 8]);
    for src in [b"abc", b"ab\xff", b"ab\xc3"] {
        entries.fill(7);
        errors.fill(7);
        lines.fill(7);
        assert!(read_with(src, &mut entries, &mut errors, &mut lines).is_err());
        assert_eq!((entries, errors, lines), ([0; 8], [0; 8], [0; 8]));
    }
}

#[test]
fn tables_are_kept_from_long_to_short_and_back() {
    let mut tables = Tables::default();
    let mut sources = hungry();
    sources.extend(hungry().into_iter().rev().map(|src| src[..src.len() / 3].to_string()));
    for src in &sources {
        let view = tables.read(src.as_bytes()).unwrap();
        assert_eq!(view, read(src.as_bytes()).unwrap().view());
    }
}

#[test]
fn the_tables_of_the_other_calls_grow_too() {
    let plus = "+a".repeat(1000);
    let listed = tokens(plus.as_bytes()).unwrap();
    assert_eq!(listed.len(), 2000);
    assert_eq!(listed.last().map(Token::numbers), Some([1, 1999, 2000]));
    assert_eq!(define_body(plus.as_bytes()).unwrap().leaves().count(), 2000);
    assert_eq!(line_table(&[b'\n'; 1000]).unwrap(), (0..=1000).collect::<Vec<u32>>());
}

#[test]
fn empty_slices_are_lent_and_read() {
    let mut entries = [0; ENTRY_NUMBERS];
    let view = read_with(&[], &mut entries, &mut [], &mut [0]).map(|view| view.entries().len());
    assert_eq!(view, Ok(1));
    assert_eq!(tokens(&[]), Ok(vec![]));
    assert_eq!(shader_reader::unescape(&[]), Ok(vec![]));
    assert_eq!(define_body(&[]).unwrap().entries().len(), 1);
}
