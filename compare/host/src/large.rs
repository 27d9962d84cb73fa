//! Sources at the longest length that is read, and one byte more.

use oracle::{calls::MAX_BYTES, inputs};

pub type Source = Box<dyn FnOnce() -> Vec<u8> + Send>;

/// The pieces again and again, up to that many bytes
pub fn repeated(pieces: &[u8], bytes: usize) -> Vec<u8> {
    pieces.iter().copied().cycle().take(bytes).collect()
}

/// That many bytes: a beginning, one piece again and again, and an end
pub fn between(begin: &[u8], piece: &[u8], end: &[u8], bytes: usize) -> Vec<u8> {
    let mut source = begin.to_vec();
    source.extend(repeated(piece, bytes - begin.len() - end.len()));
    source.extend(end);
    source
}

/// A source such as people write, of that many bytes, with a long comment now and then
fn written(bytes: usize) -> Vec<u8> {
    let mut source = inputs::Random(3).large(bytes);
    for place in (0..bytes).step_by(1 << 20) {
        let comment = between(b"/*", "so \u{e9}t\u{e9} \n * ".as_bytes(), b"*/\n", 100_003);
        source.splice(place..place, comment);
    }
    source.truncate(bytes);
    while std::str::from_utf8(&source).is_err() {
        let last = source.len() - 1;
        source.truncate(last);
    }
    source.resize(bytes, b'\n');
    source
}

/// Sources to compare, made when they are needed
pub fn sources(quick: bool) -> Vec<Source> {
    const N: usize = MAX_BYTES;
    let mut sources: Vec<Source> = vec![
        Box::new(|| written(N)),
        Box::new(|| written(N + 1)),
        Box::new(|| repeated(b"\n", N)),
        Box::new(|| repeated(b"\n", N + 1)),
        // Of both refusals the first is given
        Box::new(|| repeated(b"\xff", N + 1)),
        Box::new(|| between(b"", b" ", b"\xc3", N + 1)),
        // Cut, and broken at the end
        Box::new(|| between(b"", b" ", b"\xc3", N)),
        Box::new(|| between(b"", b" ", b"\xc3\xc3", N)),
    ];
    if quick {
        return sources;
    }
    for piece in [
        "a", "1", "1e+", " ", "\\\n", "\\\r\n", "\r\n", "\n\r", "a\\\n", "1\\\n", "+", "+\\\n", "<", "#", ".", ".5",
        "\"a\" ", "/**/", "//\n", "/***/", "\\", "\0", "a \n", "defined ", "\u{1f600}",
    ] {
        sources.push(Box::new(move || repeated(piece.as_bytes(), N)));
    }
    for (begin, piece, end) in [
        ("/*", "a\n", "*/"),
        ("/*", "*", ""),
        ("/*", "\u{e9}", "*/"),
        ("//", "a", ""),
        ("//", "\\\n", "\n"),
        ("\"", "a\n", "\""),
        ("\"", "a", ""),
        ("#include <", "a\n", ">"),
        ("a", "\\\n", "b"),
    ] {
        sources.push(Box::new(move || between(begin.as_bytes(), piece.as_bytes(), end.as_bytes(), N)));
    }
    // Wrong at the first byte, in the middle and at the last; wrong in front and cut; cut
    sources.push(Box::new(|| between(b"\x80", b"a", b"", N)));
    sources.push(Box::new(|| between(&repeated(b"a", N / 2), b"\xed\xa0\x80", b"", N)));
    sources.push(Box::new(|| between(b"", b"a\n", b"\xf0\x80", N)));
    sources.push(Box::new(|| between(b"\xe2", b"\n", b"\xe2\x82", N)));
    sources.push(Box::new(|| between(b"", b"a\n", b"\xf0\x9f\x98", N)));
    sources.push(Box::new(|| between(b"", "\u{20ac}".as_bytes(), b"\xe2\x82", N)));
    sources.push(Box::new(|| repeated(b"a", N - 1)));
    sources
}

/// Directives and what may go wrong in them, again and again, in sources of that many bytes
pub fn directives(bytes: usize) -> Vec<Source> {
    let mut sources: Vec<Source> = Vec::new();
    for piece in [
        "#a\n", "\n", "#", "#\n", "a", "a\n", " ", "\\\n", "\r\n", "#else\n", "#undef\n", "#undef a\n", "#undef 1\n",
        "#ifdef a b\n", "#version\n", "#version 1 a b\n", "#extension\n", "#extension a:b\n", "#extension : :\n",
        "#define a\n", "#define f(a,b)\n", "#define f(1 2 a b", "#define f(a", "#define f()##\n", "#include <a>\n",
        "#include <", "#include", "#line 1\n", "#error\n", "#pragma a\n", "#if a##b##c\n", "#elif ##\n",
        "#endif /**/ /**/\n", "#(", "#(a)", "#()\n", "(", ")", "# # #\n", "/**/#\\\n\n", "\"", "/*", "//",
        "#define a\\\n", "#un\\\ndef a\n",
    ] {
        sources.push(Box::new(move || repeated(piece.as_bytes(), bytes)));
    }
    let concats = format!("#define a {}\n", "a##".repeat(256));
    sources.push(Box::new(move || repeated(concats.as_bytes(), bytes)));
    for (begin, piece, end) in [
        // A body of ## from end to end, which is refused, and rows of trivia before one
        ("#if ", "##", ""),
        ("#if ", "##", "\n"),
        ("#define a b", " /**/", "## c\n"),
        ("#define a b", "\\\n", "##"),
        ("#define a b", " \\\n", "\n"),
        ("#define f(", "a,", ")"),
        ("#define f(", "1 ", ""),
        ("#define f(a", " ", ""),
        ("#(", "()", ""),
        ("#(", "\n#a", ")"),
        ("#a", " a", "\n"),
        ("#else", " a\\\n", ""),
        ("#include ", "a ", "<a>"),
        ("#undef", "\\\n", ""),
        ("/*", "#a\n", "*/"),
        ("a", " b", ""),
    ] {
        sources.push(Box::new(move || between(begin.as_bytes(), piece.as_bytes(), end.as_bytes(), bytes)));
    }
    // One body of too many, at the front and at the end
    let many = format!("#if {}\n", "##".repeat(257));
    let last = many.clone();
    sources.push(Box::new(move || between(many.as_bytes(), b"a b\n", b"", bytes)));
    sources.push(Box::new(move || between(b"", b"a b\n", last.as_bytes(), bytes)));
    sources
}

/// Sources to read, as long as is read or one byte longer: some of those above, text, and what is not UTF-8 or cut
pub fn readings(quick: bool) -> Vec<Source> {
    const N: usize = MAX_BYTES;
    let mut sources: Vec<Source> = vec![
        Box::new(|| written(N)),
        Box::new(|| written(N + 1)),
        Box::new(|| repeated(b"#a\n", N + 1)),
        // Of both refusals the first is given
        Box::new(|| repeated(b"\xff", N + 1)),
        Box::new(|| between(b"", b"#a\n", b"\xc3", N + 1)),
        Box::new(|| between(b"\x80", b"#a\n", b"", N)),
        // Cut, and broken at the end
        Box::new(|| between(b"", b"#else a\n", b"\xc3", N)),
        Box::new(|| between(b"", b"#else a\n", b"\xff\xc3", N)),
    ];
    sources.extend(directives(N).into_iter().step_by(if quick { 100 } else { 3 }));
    sources
}
