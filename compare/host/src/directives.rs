//! Inputs for the reading of a source and of a define body: what makes directives, right and wrong.

use oracle::inputs;

use crate::{
    checker::Checker,
    damage,
    jobs::{short_sources, Plan},
    large, Random,
};

/// Pieces, the longest row of them in a quick run and in a whole one, and what stands before
const ALPHABETS: [(&str, usize, usize, &str); 40] = [
    (
        r"# include define undef line error pragma version if ifdef ifndef elif else endif extension \n \s a 1 : ( )",
        2,
        5,
        "",
    ),
    (r"# include define undef version extension if else \n \s a 1 ## \\\n /**/", 3, 5, ""),
    (r"#undef #define #version #extension #else #a #( ) \n \s a", 3, 6, ""),
    (r"#if #include #line ## < > \n \s a", 3, 6, ""),
    // Lines, groups, comments, continuations, strings, and what is not UTF-8
    (r"\n # ( ) a", 5, 9, ""),
    (r"# ( ) \n \s a /* */", 3, 7, ""),
    (r"( ) # \n \s a ## \\\n", 3, 6, "#("),
    (r"\s \n # ( ) ## else", 3, 6, " # "),
    (r"\n # undef a", 4, 9, ""),
    (r"# \n \r \s undef (", 4, 8, ""),
    (r"# / * \n \\ \s a", 4, 7, ""),
    (r"# // /* */ \\\n \n a (", 3, 6, ""),
    (r"# \\ \n \r a", 5, 8, ""),
    (r"# un def ndef undef \\\n \\\r\n \s \n a", 3, 6, ""),
    (r"# \x22 \n \s a < > include", 3, 6, ""),
    (r"# \xc3 \xa9 \xff \n a (", 3, 6, ""),
    // Behind each word
    (r"\n #define f( a , )", 4, 8, ""),
    (r"\s a , ) \n 1 ##", 4, 7, "#define f("),
    (r"\s a , ) ( \n 1 defined /**/", 3, 6, "#define f("),
    (r", ) ( \s \n a \\\n //", 3, 6, "#define f(a"),
    (r"\s a , ) \n 1 ## (", 3, 6, "#define "),
    (r"a ## \s /**/ \\\n \n", 4, 8, "#define a "),
    (r"## ### # \s \n a", 4, 7, "#define a"),
    (r"\s a : \n 1 ## \\\n", 4, 7, "#extension"),
    (r"\s a : \n \r ; /**/", 3, 6, "#extension "),
    (r"\s a 1 \n . ## defined", 3, 7, "#version"),
    (r"\s 1 a \n # \\\n /**/", 3, 6, "#version 1"),
    (r"< > \x22 a \n \s ##", 4, 7, "#include"),
    (r"< > = \n \\\n /* */ a", 3, 6, "#include "),
    (r"## a \s \n + /**/ \\\n", 4, 7, "#if"),
    (r"## a \s \n # ( )", 3, 6, "#elif "),
    (r"## a \s \n /**/ \x22", 3, 6, "#line"),
    (r"## a \s \n /**/ \\", 3, 6, "#error"),
    (r"## a \s \n // (", 3, 6, "#pragma"),
    (r"\s a \n # 1 defined \\\n", 3, 7, "#undef"),
    (r"\s a \n # ## ( /**/", 3, 6, "#ifdef"),
    (r"\s a \n # \r \xc3\xa9 /*", 3, 6, "#ifndef"),
    (r"\s a \n # /**/ \\\n (", 3, 6, "#else"),
    (r"\s a \n # // \\ ##", 3, 6, "#endif"),
    (r"\s a \n # /**/ \\\n ##", 3, 6, "#a"),
];

/// What every two ASCII bytes are set behind
const BEGINNINGS: [&str; 34] = [
    "#include", "#include ", "#define", "#define ", "#define a", "#define a ", "#define f(", "#define f(a", "#undef",
    "#undef ", "#line ", "#error", "#pragma ", "#version", "#version ", "#version 1", "#version 1 ", "#if", "#if a##",
    "#ifdef", "#ifndef ", "#elif ", "#else", "#else ", "#endif", "#extension", "#extension ", "#extension a",
    "#extension a:", "#extension a:b", "#(", "#(a", "#a", "\n#\\\n",
];

/// Pieces that sources are put together from at random
const PIECES: [&str; 80] = [
    "#", "#", "#", "\n", "\n", "\n", "\n", "\r\n", "\r", "\n\r", " ", " ", " ", "\t", "/**/", "/*\n*/", "//x", "\\\n",
    "\\\r\n", "\\", "#define ", "#define f(", "#include ", "#include <", "#version ", "#extension ", "#undef ",
    "#else", "#if ", "#(", "include", "define", "undef", "line", "error", "pragma", "version", "if", "ifdef", "ifndef",
    "elif", "else", "endif", "extension", "un\\\ndef", "defined", "a", "b", "f", "F(", "core", "GL_x", "1", "450",
    "1.5", ".", "(", ")", "(", ")", ",", ":", ";", "##", "##", "##", " ## ", "###", "<", ">", "<a>", "\"a\"", "\"",
    "/*", "*/", "+", "=", "{", "\u{e9}", "@",
];

/// What begins a body of each of the six kinds, and a row that is no body: in text, in a group, among the
/// arguments of a macro, behind a directive that takes no more
const ROWS: [&str; 12] = [
    "#include ", "#define a ", "#define f(a) ", "#line ", "#error ", "#pragma ", "#if ", "#elif ", "", "#(",
    "#define f(", "#else ",
];

/// Adds the comparisons of the reading
pub fn plan(plan: &mut Plan, quick: bool) {
    let times = |few: usize, many: usize| if quick { few } else { many };

    plan.large_kind("reading/large", "reading: about 16,777,216 bytes");
    for source in large::readings(quick) {
        plan.job(move |checker| checker.reading(&source()));
    }
    plan.kind("reading/long", if quick { "reading: of 16 KB" } else { "reading: of 1 MB" });
    for source in large::directives(times(16 << 10, 1 << 20)) {
        plan.job(move |checker| checker.reading(&source()));
    }

    plan.kind("reading/rows", "reading: exhaustive over small alphabets");
    for (pieces, few, many, prefix) in ALPHABETS {
        let most = times(few, many).to_string();
        plan.job(move |checker| {
            let words = ["exhaust", pieces, "0", &most, prefix].map(String::from);
            inputs::from_args(&words).unwrap().for_each(|source| checker.reading(&source));
        });
    }

    let most =
        if quick { "reading: every source of at most 2 bytes" } else { "reading: every source of at most 3 bytes" };
    plan.kind("reading/bytes", most);
    plan.job(|checker| checker.reading(b""));
    for first in 0..=255 {
        plan.job(move |checker| short_sources(first, !quick, |source| checker.reading(source)));
    }
    plan.kind("reading/ascii", "reading: three ASCII bytes, alone and behind #");
    for first in (0..128).step_by(times(16, 1)) {
        plan.job(move |checker| {
            (0..128 * 128).for_each(|n: u32| {
                let bytes = [b'#', first, (n >> 7) as u8, (n & 127) as u8];
                checker.reading(&bytes[1..]);
                checker.reading(&bytes);
            });
        });
    }
    plan.kind("reading/behind", "reading: two ASCII bytes behind each word");
    for beginning in BEGINNINGS.into_iter().step_by(times(7, 1)) {
        plan.job(move |checker| {
            checker.reading(beginning.as_bytes());
            (0..128 * 129).for_each(|n: u32| {
                let bytes = [(n & 127) as u8, (n >> 7) as u8];
                checker.reading(&[beginning.as_bytes(), &bytes[..if n >> 7 == 128 { 1 } else { 2 }]].concat());
            });
        });
    }

    plan.kind("reading/concats", "reading: about 256 ## in a body");
    for row in ROWS {
        plan.job(move |checker| concats(checker, row, quick));
    }

    plan.many("reading/damaged", "reading: not UTF-8 or cut, in text", times(10_000, 1_000_000), |checker, random| {
        let mut source = pieces(random, 12);
        let place = random.below(source.len() + 1);
        source.splice(place..place, damage::not_utf8(random));
        checker.reading(&source);
    });
    plan.many("reading/pieces", "reading: random pieces", times(60_000, 9_000_000), |checker, random| {
        let most = random.pick(&[8, 12, 20, 40]);
        checker.reading(&pieces(random, most));
    });
    plan.many("reading/random", "reading: random sources", times(30_000, 4_000_000), |checker, random| {
        checker.reading(&inputs::Random(random.number()).source());
    });
    plan.many("reading/mutated", "reading: mutated sources", times(40_000, 6_000_000), |checker, random| {
        checker.reading(&inputs::Random(random.number()).damaged());
    });
}

/// Pieces one after another
pub fn pieces(random: &mut Random, most: usize) -> Vec<u8> {
    (0..random.below(most)).flat_map(|_| random.pick(&PIECES).bytes()).collect()
}

/// Rows of about as many ## as a body may hold, in all ways in which they are parted and end, alone and
/// between other bodies
fn concats(checker: &mut Checker, row: &str, quick: bool) {
    let counts: &[usize] = if quick { &[1, 256, 257] } else { &[1, 2, 3, 128, 254, 255, 256, 257, 258, 300, 513] };
    for &count in counts {
        for part in ["##", "## ", "a##", "##/**/", " ##\\\n", "a ## b "] {
            for end in ["", " ", "\n", "\r\n", " // c\n", ")\n", "\n#if a##b\n", "\n#line ##"] {
                let line = format!("{row}{}{end}", part.repeat(count));
                checker.reading(line.as_bytes());
                checker.reading(format!("#if ##a\n{line}").as_bytes());
                // Two bodies, neither of them with too many
                checker.reading(format!("{line}\n#define g {}\n", part.repeat(256)).as_bytes());
            }
        }
    }
}
