//! Sources to time: as people write them, and the shapes on which a reader may be slow.

use oracle::inputs;

use crate::{
    large::{between, repeated},
    Random,
};

/// A shape of sources: its word, and the source of about so many bytes, which ends with a newline
pub struct Shape {
    pub word: &'static str,
    pub about: &'static str,
    pub source: fn(usize) -> Vec<u8>,
}

/// What the bars on speed name first
pub const WRITTEN: [Shape; 2] = [
    Shape { word: "plain", about: "a plain shader, 2.5 % of its leaves in directives", source: plain },
    Shape { word: "mixed", about: "the oracle's source, a third of its leaves in directives", source: mixed },
];

/// The worst shapes
pub const WORST: [Shape; 19] = [
    Shape { word: "newlines", about: "newlines alone", source: |n| repeated(b"\n", n) },
    Shape { word: "hashes", about: "# alone, one text line", source: |n| between(b"", b"#", b"\n", n) },
    Shape { word: "empty", about: "#⏎", source: |n| repeated(b"#\n", n & !1) },
    Shape { word: "unknown", about: "#a⏎", source: |n| repeated(b"#a\n", n / 3 * 3) },
    Shape { word: "concats", about: "bodies of 256 ##", source: concats },
    Shape { word: "comment", about: "one comment", source: |n| between(b"/*", b"a b\n", b"*/\n", n) },
    Shape {
        word: "blanks",
        about: "a row of blanks and comments before ##",
        source: |n| between(b"#if a", b" /**/", b"##\n", n),
    },
    Shape {
        word: "trailing",
        about: "a row of trivia behind a body",
        source: |n| between(b"#if a", b" \\\n", b"\n", n),
    },
    Shape {
        word: "arguments",
        about: "#define f( with errors, again and again",
        source: |n| lines(b"#define f(1 2 a b\n", n),
    },
    Shape {
        word: "long-list",
        about: "one #define f( of nothing but errors",
        source: |n| between(b"#define f(", b"1 ", b")\n", n),
    },
    Shape { word: "one-line", about: "text without a newline", source: |n| between(b"", b"a + b1 * 2.0; ", b"\n", n) },
    Shape { word: "words", about: "words and blanks", source: |n| between(b"", b"ab ", b"\n", n) },
    Shape {
        word: "continued",
        about: "words that go on in the next line",
        source: |n| between(b"", b"a\\\n", b"\n", n),
    },
    Shape { word: "continuations", about: "continuations alone", source: |n| between(b"", b"\\\n", b"\n", n) },
    Shape { word: "group", about: "one group that has no end", source: |n| between(b"#(", b"(a ", b"\n", n) },
    Shape { word: "groups", about: "closed groups", source: |n| between(b"", b"#(a)", b"\n", n) },
    Shape {
        word: "missing",
        about: "#undef and #extension that lack everything",
        source: |n| lines(b"#undef\n\n#extension\n\n", n),
    },
    Shape { word: "extra", about: "#else with extra tokens", source: |n| lines(b"#else a b\n", n) },
    Shape { word: "defines", about: "#define lines", source: |n| lines(b"#define a(b) b ## c\n", n) },
];

/// Whole lines, up to about that many bytes
fn lines(line: &[u8], bytes: usize) -> Vec<u8> {
    repeated(line, (bytes / line.len()).max(1) * line.len())
}

fn concats(bytes: usize) -> Vec<u8> {
    lines(format!("#define a {}\n", "a##".repeat(256)).as_bytes(), bytes)
}

fn mixed(bytes: usize) -> Vec<u8> {
    inputs::Random(1).large(bytes)
}

fn plain(bytes: usize) -> Vec<u8> {
    shader(&mut Random(7), bytes, 8)
}

/// Small shaders, of 512 to 4,096 bytes each
pub fn small_files(count: usize) -> Vec<Vec<u8>> {
    let mut random = Random(11);
    (0..count)
        .map(|_| {
            let bytes = 512 + random.below(3_400);
            let mut file = shader(&mut random, bytes, 5);
            file.truncate(4_096);
            file
        })
        .collect()
}

const TYPES: [&str; 8] = ["float", "vec2", "vec3", "vec4", "int", "mat4", "uint", "bool"];
const NAMES: [&str; 24] = [
    "surfaceColor", "worldPosition", "vertexNormal", "texCoord", "lightDirection", "shadowFactor", "depthValue",
    "result", "index", "blendWeight", "roughness", "specularPower", "viewVector", "diffuseAlbedo", "i", "accumulated",
    "fragmentColor", "sampleOffset", "baseTextureCoord", "alphaThreshold", "point", "falloffRadius",
    "ambientIntensity", "gl_FragCoord",
];
const CALLS: [&str; 10] =
    ["mix", "dot", "normalize", "clamp", "max", "smoothstep", "texture2D", "length", "reflect", "computeLighting"];
const WORDS: [&str; 12] =
    ["the", "light", "of", "this", "surface", "in", "view", "space", "is", "clamped", "to", "intensity"];

/// A shader such as people write, of at least that many bytes: 3.5 bytes a leaf, and 2.5 % of the leaves in
/// directives, as in the shaders of a test suite; for that, so many pieces in 64 are directives
fn shader(random: &mut Random, bytes: usize, directives: usize) -> Vec<u8> {
    let mut out = String::from("#version 450\n\n");
    while out.len() < bytes {
        match random.below(64) {
            n if n < directives => directive(random, &mut out),
            0..=12 => {
                let (number, sort, name) = (random.below(8), random.pick(&TYPES), random.pick(&NAMES));
                out.push_str(&format!("layout(location = {number}) in {sort} {name};\n"));
            }
            13..=36 => comment(random, &mut out),
            _ => function(random, &mut out),
        }
    }
    out.into_bytes()
}

fn directive(random: &mut Random, out: &mut String) {
    let (name, number) = (random.pick(&NAMES).to_uppercase(), random.below(100));
    out.push_str(&match random.below(4) {
        0 => format!("#define {name}_{number} {number}.0\n"),
        1 => format!("#ifdef USE_{name}\nuniform float {};\n#endif\n", random.pick(&NAMES)),
        2 => format!("#if defined({name}) && {name} > {number}\n#define HAS_{name}\n#else\n#endif\n"),
        _ => format!("#define {name}(a, b) ((a) * (b))\n"),
    });
}

fn comment(random: &mut Random, out: &mut String) {
    let words: Vec<&str> = (0..5 + random.below(12)).map(|_| random.pick(&WORDS)).collect();
    if random.one_in(3) {
        out.push_str(&format!("/*\n * {}\n */\n", words.join(" ")));
    } else {
        out.push_str(&format!("// {}\n", words.join(" ")));
    }
}

fn function(random: &mut Random, out: &mut String) {
    let (sort, name, argument) = (random.pick(&TYPES), random.pick(&NAMES), random.pick(&TYPES));
    out.push_str(&format!("\n{sort} {name}Of({argument} a, float b)\n{{\n"));
    for _ in 0..2 + random.below(9) {
        out.push_str("    ");
        statement(random, out);
        if random.one_in(5) {
            out.push_str("    ");
            comment(random, out);
        }
    }
    out.push_str(&format!("    return {};\n}}\n", expression(random, 2)));
}

fn statement(random: &mut Random, out: &mut String) {
    let (sort, name) = (random.pick(&TYPES), random.pick(&NAMES));
    out.push_str(&match random.below(9) {
        0 => format!(
            "if ({name} < {}) {{\n        {name} += {};\n    }}\n",
            expression(random, 1),
            expression(random, 1)
        ),
        1 => format!(
            "for (int i = 0; i < {}; ++i) {{\n        sum += {};\n    }}\n",
            random.below(64),
            expression(random, 2)
        ),
        2 => format!("{name}.xyz *= {};\n", expression(random, 2)),
        3 => format!("{name} = {}; // {}\n", expression(random, 2), random.pick(&WORDS)),
        _ => format!("{sort} {name}{} = {};\n", random.below(10), expression(random, 3)),
    });
}

fn expression(random: &mut Random, depth: usize) -> String {
    let name = random.pick(&NAMES);
    match random.below(if depth == 0 { 4 } else { 8 }) {
        0..=1 => name.into(),
        2 => format!("{}.{}", random.below(10), random.below(100)),
        3 => format!("{name}.{}", random.pick(&["x", "xyz", "rgb", "w"])),
        4..=5 => {
            let call = random.pick(&CALLS);
            format!("{call}({}, {})", expression(random, depth - 1), expression(random, depth - 1))
        }
        6 => format!("({} - {})", expression(random, depth - 1), expression(random, depth - 1)),
        _ => format!("{} * {}", expression(random, depth - 1), expression(random, depth - 1)),
    }
}
