//! Sources with vertical tabs: all rows over alphabets that have one, directives with one between any two leaves, and
//! other sources into which they are put.

use oracle::{
    calls::{self, MAX_BYTES},
    inputs,
};

use crate::{
    checker::Checker,
    damage, directives,
    jobs::{self, Plan},
    large::{between, repeated},
    tabs, Random,
};

/// Pieces, the longest row of them in a quick run and in a whole one, and what stands before
const ALPHABETS: [(&str, usize, usize, &str); 24] = [
    (r"\x0b \t \s # \n a", 4, 7, ""),
    (r"\x0b ( ) # a \n", 4, 7, ""),
    (r"\x0b \\ \n \r a", 4, 8, ""),
    (r"\x0b # include define undef version extension if else \n a 1 (", 2, 5, ""),
    (r"\x0b \t \x0c \s \x00 \x7f \\ \n 1", 2, 5, ""),
    (r"\x0b de fined defined 1 . e + \\\n", 2, 5, ""),
    (r"\x0b < > = + - / * & | #", 2, 4, ""),
    (r"\x0b \xc3 \xa9 \xe2 \x82 \xf0 a", 3, 5, ""),
    (r"\x0b * / \n a", 3, 6, "/*"),
    (r"\x0b \\ \n / \r", 3, 6, "//"),
    (r"\x0b \x22 \\ \n <", 3, 6, r"\x22"),
    (r"\x0b ( ) # \n a", 3, 6, "#("),
    (r"\x0b \s ( a ) , \n", 3, 6, "#define f"),
    (r"\x0b a , ) 1 \n", 3, 6, "#define f("),
    (r"\x0b a ## \n /**/", 3, 6, "#define a"),
    (r"\x0b < > \x22 a \n", 3, 6, "#include"),
    (r"\x0b a : \n 1", 3, 6, "#extension"),
    (r"\x0b 1 a \n ##", 3, 6, r"#\x0bversion"),
    (r"\x0b a \n # 1", 3, 6, r"\x0b#undef"),
    (r"\x0b ## a \n //", 3, 6, "#if"),
    (r"\x0b a \n /**/ \\\n", 3, 6, "#else"),
    (r"\x0b a \n # \\", 3, 6, "#error"),
    (r"\x0b a \n # (", 3, 6, r"#\x0b"),
    (r"\x0b a \n # ##", 3, 6, "#a"),
];

/// Directives and text, right and wrong
const LINES: [&str; 44] = [
    "#\n", "#include <a/b.h>\n", "#include \"a\"\n", "#include a ## b\n", "#include\n", "#define a\n", "#define a b\n",
    "#define a b##c//d\n", "#define f() a\n", "#define f(a, b) a##b\n", "#define f(a,) (a)\n", "#define f(1 a b) c\n",
    "#define f(a\n", "#define f (a)\n", "#define 1\n", "#undef a\n", "#undef\na\n", "#undef 1 a\n", "#line 1 2\n",
    "#error a \"b\"\n", "#pragma a(b)\n", "#version 450 core\n", "#version\ncore\n", "#version 1 a b\n",
    "#if defined(a) && 1\n", "#if a ## b ##\n", "#ifdef a b\n", "#ifndef a\n", "#elif 1 /* a */\n", "#else\n",
    "#else a b\n", "#endif // a\n", "#extension a : b\n", "#extension : :\n", "#a b ## c\n", "#(a (b)\n#)#else\n",
    "a#else\n", "/* a */ # /**/ else\n", "#un\\\ndef \\\n a\n", "#define de\\\nfined\n", "a = 1.5e+3 << b;\n",
    "a // c \\\n d\n", "\"a\n\" + \u{e9}\r\n", "#if a ## b",
];

/// What is put between two leaves
const TABS: [&[u8]; 4] = [b"\x0b", b"\x0b ", b"\t\x0b", b"\x0b\x0b"];

/// Adds the comparisons of all calls on a source
pub fn plan(plan: &mut Plan, quick: bool) {
    kind(plan, "calls/vertical-tabs", "vertical tabs", quick, Checker::source);
    kind(plan, "reading/vertical-tabs", "reading: vertical tabs", quick, Checker::reading);
}

fn kind(plan: &mut Plan, word: &'static str, name: &'static str, quick: bool, compare: fn(&mut Checker, &[u8])) {
    let times = move |few: usize, many: usize| if quick { few } else { many };
    plan.kind(word, name);
    for (pieces, few, many, prefix) in ALPHABETS {
        let most = times(few, many).to_string();
        plan.job(move |checker| {
            let words = ["exhaust", pieces, "0", &most, prefix].map(String::from);
            let rows = inputs::from_args(&words).unwrap();
            rows.filter(|source| tabs::has(source)).for_each(|source| compare(checker, &source));
        });
    }
    plan.job(move |checker| LINES.iter().for_each(|line| parted(line.as_bytes(), |source| compare(checker, source))));
    plan.job(move |checker| long(times(16 << 10, 1 << 20), |source| compare(checker, source)));
    plan.jobs_for(times(15_000, 1_500_000), move |checker, random| {
        let source = source(random);
        compare(checker, &put(random, &source));
    });
}

/// Places between the leaves, at the front and at the end
fn places(source: &[u8]) -> Vec<usize> {
    let ends = calls::tokens(source).unwrap_or_default().into_iter().map(|[_, _, end]| end as usize);
    std::iter::once(0).chain(ends).collect()
}

/// The source with each of the pieces at its place; the places rise
fn inserted(source: &[u8], pieces: &[(usize, &[u8])]) -> Vec<u8> {
    let mut out = source.to_vec();
    pieces.iter().rev().for_each(|&(place, piece)| drop(out.splice(place..place, piece.iter().copied())));
    out
}

/// The line with vertical tabs at one place between leaves, at two, and at all
fn parted(line: &[u8], mut compare: impl FnMut(&[u8])) {
    let places = places(line);
    for (count, &place) in places.iter().enumerate() {
        TABS.iter().for_each(|&tabs| compare(&inserted(line, &[(place, tabs)])));
        places[..count].iter().for_each(|&first| compare(&inserted(line, &[(first, TABS[0]), (place, TABS[0])])));
    }
    for tabs in TABS {
        compare(&inserted(line, &places.iter().map(|&place| (place, tabs)).collect::<Vec<_>>()));
    }
}

/// Sources of that many bytes; vertical tabs alone, as many as are read and one more; as many ## as a reading takes, and
/// one more
fn long(bytes: usize, mut compare: impl FnMut(&[u8])) {
    for piece in [
        "\x0b", "\x0b\n", " \x0b", "a\x0b", "\\\x0b", "\\\n\x0b", "\x0b#\x0ba\x0b\n", "#\x0bundef\x0b\n",
        "#define\x0bf(\x0b\n", "#(\x0b", "\"\x0b\"\x0b", "/*\x0b*/\x0b",
    ] {
        compare(&repeated(piece.as_bytes(), bytes));
    }
    for (begin, piece, end) in [
        ("/*", "\x0b", "*/"),
        ("\"", "\x0b\n", "\""),
        ("#if a", "\x0b", "##\n"),
        ("#if a", "\x0b/**/", "##\n"),
        ("#define a b", "\x0b\\\n", ""),
        ("#else", "\x0ba", "\n"),
        ("", "\x0b", "#\n"),
        ("#", "\x0b", "undef a\n"),
    ] {
        compare(&between(begin.as_bytes(), piece.as_bytes(), end.as_bytes(), bytes));
    }
    for bytes in [MAX_BYTES, MAX_BYTES + 1] {
        compare(&repeated(b"\x0b", bytes));
    }
    for count in [256, 257] {
        compare(format!("#if{}\n", "\x0b##".repeat(count)).as_bytes());
    }
}

/// Random pieces, a random source or a mutated one; now and then with something that is not UTF-8, or cut
fn source(random: &mut Random) -> Vec<u8> {
    let most = random.pick(&[8, 12, 20, 40]);
    let mut source = match random.below(8) {
        0..=1 => jobs::text(random, most),
        2..=4 => directives::pieces(random, most),
        5..=6 => inputs::Random(random.number()).source(),
        _ => inputs::Random(random.number()).damaged(),
    };
    if random.one_in(32) {
        source.extend(damage::not_utf8(random));
    }
    source
}

/// The source with vertical tabs: in place of some blanks and beside some, between some leaves, or anywhere
fn put(random: &mut Random, source: &[u8]) -> Vec<u8> {
    let out = match random.below(8) {
        0..=3 => at_blanks(random, source),
        4..=5 => {
            let (places, times) = (places(source), random.pick(&[1, 2, 4]));
            let some = places.into_iter().filter(|_| random.one_in(times)).collect::<Vec<_>>();
            inserted(source, &some.into_iter().map(|place| (place, random.pick(&TABS))).collect::<Vec<_>>())
        }
        _ => source.to_vec(),
    };
    if tabs::has(&out) {
        return out;
    }
    inserted(&out, &[(random.below(out.len() + 1), random.pick(&TABS))])
}

fn at_blanks(random: &mut Random, source: &[u8]) -> Vec<u8> {
    const TAB: u8 = tabs::VERTICAL_TAB;
    let mut out = Vec::new();
    for &byte in source {
        match random.below(if b" \t\x0c".contains(&byte) { 4 } else { 1 }) {
            0 => out.push(byte),
            1 => out.push(TAB),
            2 => out.extend([TAB, byte]),
            _ => out.extend([byte, TAB]),
        }
    }
    out
}
