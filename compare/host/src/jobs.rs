//! What is compared: kinds of inputs, each made by a row of jobs, the same in every run.

use oracle::inputs;

use crate::{
    checker::Checker,
    cut_sources,
    damage::{self, BORDERS},
    directives, large, tab_sources, Random,
};

/// Pieces, the longest row of them in a quick run and in a whole one, and what stands before
const ALPHABETS: [(&str, usize, usize, &str); 24] = [
    (r"\n # ( ) a", 4, 7, ""),
    (r"\s a , ) \n 1 ##", 3, 5, "#define f("),
    (r"\\ \n \r a 1", 4, 8, ""),
    (r"/ * \\ \n", 5, 9, ""),
    (r"/ * \\ \n \r \s a", 3, 6, ""),
    (r"/ * \\ \n \r \x22", 3, 6, "/*"),
    (r"/ * \\ \n \r a \xc3\xa9", 3, 6, "//"),
    (r"< > = \x22 a \n", 4, 6, "#include "),
    (r"< > = \x22 a \n include", 3, 6, "#"),
    (r". 1 e + \\", 4, 8, ""),
    (r". 1 e E + - f x _ \\\n", 3, 5, ""),
    (r"+ - * / % < > = ! & | ^ #", 3, 5, ""),
    (r"< > = # ## << >> \\\n", 3, 6, ""),
    (r"\\ \n \r", 5, 11, ""),
    (r"\n \r", 10, 16, ""),
    (r"\\\n \\\r\n \\ \r \s a + 1", 3, 5, ""),
    (r"de fined d efined defined \\\n \\\r a _ 1 \\", 2, 5, ""),
    (r"\x22 \\ \n \r a < > /* */ //", 3, 5, ""),
    (r"\t \x0b \x0c \s \x00 \x7f \n \r \\ a", 3, 5, ""),
    (r"\xc2\x85 \xc3\xa9 \xe2\x82\xac \xf0\x9f\x98\x80 \xef\xbb\xbf \\ \n a 1 /* */", 3, 5, ""),
    (r"\xc3 \xa9 \xe2 \x82 \xf0 \x9f \x80 \xed \xa0 a", 3, 6, ""),
    (r"\xf0 \xf4 \x8f \x90 \xbf \x80 a", 4, 6, ""),
    (r"@ $ ` ' : ; , ? ~ { } [ ] ( ) . \x22 a 1 \n", 2, 4, ""),
    (r"a b \\\n + ## \s \n /**/", 3, 5, "#define a "),
];

/// Pieces that texts are put together from at random
const PIECES: [&str; 64] = [
    "a", "foo", "_x", "defined", "de\\\nfined", "include", "#include", "#define ", "#", "##", "1", "0x1F", "1e+5",
    ".5", "1.2.3", "1.", "e", "E-", "+", "++", "-=", "*", "/", "%", "<", "<<", "<<=", ">", ">>", "=", "==", "!", "!=",
    "&", "&&", "|", "^", "^^", "~", "(", ")", "{", "]", ",", ";", "?", ":", ".", " ", "\t", "\n", "\r", "\r\n", "\n\r",
    "\\", "\\\n", "\\\r\n", "/*", "*/", "//", "\"", "\u{e9}", "\u{20ac}", "\u{1f600}",
];

/// Kinds that no paste may take, among them ones whose low sixteen or twenty-four bits are a kind
const LARGE_KINDS: [u32; 18] = [
    91, 127, 128, 255, 256, 257, 65535, 65536, 65537, 65564, 65571, 65622, 16777217, 2147483647, 2147483648,
    2147483649, 4294967294, 4294967295,
];

pub type Work = Box<dyn FnOnce(&mut Checker) + Send>;

/// A kind of inputs: the word by which it is asked for, its name, and whether its sources are large
pub struct Kind {
    pub word: &'static str,
    pub name: &'static str,
    pub large: bool,
}

/// Kinds, and jobs: their number, the place of their kind, and the work
#[derive(Default)]
pub struct Plan {
    pub kinds: Vec<Kind>,
    pub jobs: Vec<(usize, usize, Work)>,
}

impl Plan {
    pub fn kind(&mut self, word: &'static str, name: &'static str) {
        self.kinds.push(Kind { word, name, large: false });
    }

    pub fn large_kind(&mut self, word: &'static str, name: &'static str) {
        self.kinds.push(Kind { word, name, large: true });
    }

    pub fn job(&mut self, work: impl FnOnce(&mut Checker) + Send + 'static) {
        self.jobs.push((self.jobs.len(), self.kinds.len() - 1, Box::new(work)));
    }

    /// As many inputs as said, some at a time
    pub fn many(&mut self, word: &'static str, name: &'static str, count: usize, work: fn(&mut Checker, &mut Random)) {
        self.kind(word, name);
        self.jobs_for(count, work);
    }

    /// The same for the last kind
    pub fn jobs_for(&mut self, count: usize, work: impl Fn(&mut Checker, &mut Random) + Copy + Send + 'static) {
        const AT_ONCE: usize = 20_000;
        let seed = self.kinds.len() << 32;
        for part in 0..count.div_ceil(AT_ONCE) {
            let count = AT_ONCE.min(count - part * AT_ONCE);
            self.job(move |checker| {
                let mut random = Random((seed + part) as u64);
                (0..count).for_each(|_| work(checker, &mut random));
            });
        }
    }
}

impl Kind {
    /// Whether the word is the kind's own, or that of all calls or of all readings
    pub fn is_asked_by(&self, word: &str) -> bool {
        self.word == word || self.word.split('/').next() == Some(word)
    }
}

/// The kinds that one of the words asks for; all, if there is no word; none, if a word asks for nothing
pub fn plan(quick: bool, words: &[&str]) -> Option<Plan> {
    let mut plan = Plan::default();
    five_calls(&mut plan, quick);
    directives::plan(&mut plan, quick);
    cut_sources::plan(&mut plan, quick);
    tab_sources::plan(&mut plan, quick);
    let Plan { kinds, jobs } = &mut plan;
    let known = |&word: &&str| kinds.iter().any(|kind| kind.is_asked_by(word));
    let asked = |kind: usize| words.iter().any(|word| kinds[kind].is_asked_by(word));
    jobs.retain(|&(_, kind, _)| words.is_empty() || asked(kind));
    words.iter().all(known).then_some(plan)
}

/// Adds the comparisons of the tokens, the line table, unescaping, lookup and pasting
fn five_calls(plan: &mut Plan, quick: bool) {
    let times = |few: usize, many: usize| if quick { few } else { many };

    plan.large_kind("calls/large", "sources of about 16,777,216 bytes");
    for source in large::sources(quick) {
        plan.job(move |checker| checker.source(&source()));
    }

    plan.kind("calls/short", if quick { "every source of at most 2 bytes" } else { "every source of at most 3 bytes" });
    plan.job(|checker| checker.source(b""));
    for first in 0..=255 {
        plan.job(move |checker| short_sources(first, !quick, |source| checker.source(source)));
    }

    plan.kind("calls/rows", "exhaustive over small alphabets");
    for (pieces, few, many, prefix) in ALPHABETS {
        let most = times(few, many).to_string();
        plan.job(move |checker| {
            let words = ["exhaust", pieces, "0", &most, prefix].map(String::from);
            inputs::from_args(&words).unwrap().for_each(|source| checker.source(&source));
        });
    }

    plan.kind("calls/characters", if quick { "every 97th character" } else { "every character" });
    for from in (0..0x110000).step_by(0x8000) {
        let step = times(97, 1);
        plan.job(move |checker| characters(checker, from, step));
    }

    plan.kind("calls/borders", "not UTF-8 or cut, by the borders of RFC 3629");
    for first in BORDERS.into_iter().skip(times(14, 0)).step_by(times(4, 1)) {
        plan.job(move |checker| borders(checker, first));
    }

    plan.many("calls/damaged", "not UTF-8 or cut, in text", times(10_000, 1_000_000), |checker, random| {
        let mut source = text(random, 12);
        let place = random.below(source.len() + 1);
        source.splice(place..place, damage::not_utf8(random));
        checker.source(&source);
    });
    plan.many("calls/pieces", "random pieces", times(10_000, 1_500_000), |checker, random| {
        checker.source(&text(random, 40))
    });
    plan.many("calls/bytes", "random bytes", times(5_000, 1_000_000), |checker, random| {
        let mask = random.pick(&[0x7f, 0x7f, 0xff]);
        let bytes: Vec<u8> = (0..random.below(80)).map(|_| random.number() as u8 & mask).collect();
        checker.source(&bytes);
    });
    plan.many("calls/random", "random sources", times(15_000, 1_500_000), |checker, random| {
        checker.source(&inputs::Random(random.number()).source());
    });
    plan.many("calls/mutated", "mutated sources", times(25_000, 2_500_000), |checker, random| {
        checker.source(&inputs::Random(random.number()).damaged());
    });
    plan.many("calls/lookups", "line tables looked up in", times(20_000, 2_000_000), |checker, random| {
        let lines = damage::any_lines(random);
        let last = lines.last().copied().unwrap_or(0).min(1 << 30) as usize;
        checker.tally.inputs += 1;
        (0..3).for_each(|_| checker.lookup(&lines, damage::offset(random, &lines, last)));
    });

    plan.kind("calls/line-tables", "every line table of up to 5 starts below 6");
    plan.job(every_line_table);

    plan.kind("calls/pastes", "pairs of kinds pasted");
    plan.job(pastes);
}

/// The source of that byte alone, and all that begin with it and have one byte more, or two
pub fn short_sources(first: u8, three: bool, mut compare: impl FnMut(&[u8])) {
    compare(&[first]);
    for second in 0..=255 {
        compare(&[first, second]);
        for third in 0..if three { 256 } else { 0 } {
            compare(&[first, second, third as u8]);
        }
    }
}

/// Characters alone and between letters; surrogates, as they would be written, are among them
fn characters(checker: &mut Checker, from: u32, step: usize) {
    for number in (from..from + 0x8000).step_by(step) {
        let bytes = match char::from_u32(number) {
            Some(char) => char.to_string().into_bytes(),
            None => damage::encoded(number, 3),
        };
        checker.source(&bytes);
        checker.source(&[b"a", &bytes[..], b"/"].concat());
    }
}

/// Four bytes at borders, the first one given
fn borders(checker: &mut Checker, first: u8) {
    for second in BORDERS {
        for third in BORDERS {
            for fourth in BORDERS {
                checker.source(&[first, second, third, fourth]);
            }
        }
    }
}

/// Pieces one after another
pub fn text(random: &mut Random, most: usize) -> Vec<u8> {
    (0..random.below(most)).flat_map(|_| random.pick(&PIECES).bytes()).collect()
}

fn every_line_table(checker: &mut Checker) {
    for count in 0..=5 {
        for number in 0..6u32.pow(count) {
            let lines: Vec<u32> = (0..count).map(|place| number / 6u32.pow(place) % 6).collect();
            checker.tally.inputs += 1;
            (0..8).chain([u32::MAX]).for_each(|offset| checker.lookup(&lines, offset));
        }
    }
}

fn pastes(checker: &mut Checker) {
    let kinds: Vec<u32> = (0..=90).chain(LARGE_KINDS).collect();
    let mut paste = |lhs, rhs| {
        checker.tally.inputs += 1;
        checker.paste(lhs, rhs);
    };
    kinds.iter().for_each(|&lhs| kinds.iter().for_each(|&rhs| paste(lhs, rhs)));
    let mut random = Random(1);
    for _ in 0..100_000 {
        paste(random.number() as u32, random.below(90) as u32);
        paste(random.below(90) as u32, random.number() as u32);
    }
}
