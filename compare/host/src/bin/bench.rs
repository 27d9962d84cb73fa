//! Times the library beside the Rust: the best of five rounds, both in each, in processor time.
//!
//!     bench [calls | reading | shapes | growth ..]   all four, if none is named
//!     bench files FILE ..                            readings of files of one's own, those of 0.5 to 4 KB
//!     bench once CALL SHAPE BYTES                    one call, to count its instructions
//!     bench words                                    the words of the shapes
//!
//! CALL is `read`, `tokens`, or `before` for the tokens of an earlier library.

use std::{hint::black_box, process::exit, time::Duration};

use host::{
    exports,
    shapes::{self, Shape, WORST, WRITTEN},
    tables::Tables,
};
use oracle::calls;

const BYTES: usize = 10_000_000;
const FILES: usize = 5_000;
const ROUNDS: usize = 5;

/// Lengths of the worst shapes: at the first the Rust is timed too, and growth is told from the second on
const SHAPE_BYTES: usize = 4 << 20;
const GROWTH_BYTES: [usize; 3] = [64 << 10, 4 << 20, 16 << 20];

/// What is asked: times the Rust on the plain source, on small files, on the oracle's source and on any shape;
/// growth of the time a byte; and what `shader_tokens` may lose, since figures move by some percent
const PLAIN_BAR: f64 = 9.0;
const FILES_BAR: f64 = 8.0;
const MIXED_BAR: f64 = 6.5;
const SHAPE_BAR: f64 = 3.0;
const GROWTH_BAR: f64 = 1.6;
const TOKENS_BAR: f64 = 0.97;

/// The Rust's `pp_concat` calls itself once for each ##
const STACK: usize = 1 << 30;

/// The processor time of this thread, which other programs on the machine do not add to
fn now() -> Duration {
    const CLOCK_THREAD_CPUTIME_ID: i32 = 3;
    extern "C" {
        fn clock_gettime(clock: i32, time: *mut [i64; 2]) -> i32;
    }
    let mut time = [0; 2];
    assert_eq!(unsafe { clock_gettime(CLOCK_THREAD_CPUTIME_ID, &mut time) }, 0);
    Duration::new(time[0] as u64, time[1] as u32)
}

/// The best time of each piece of work; in each round they run one after another
fn best<const N: usize>(mut works: [&mut dyn FnMut(); N]) -> [Duration; N] {
    let mut best = [Duration::MAX; N];
    for _ in 0..ROUNDS {
        for (best, work) in best.iter_mut().zip(&mut works) {
            let start = now();
            work();
            *best = (now() - start).min(*best);
        }
    }
    best
}

fn speed(bytes: usize, time: Duration) -> f64 {
    bytes as f64 / 1e6 / time.as_secs_f64()
}

fn times(ours: Duration, other: Duration) -> f64 {
    other.as_secs_f64() / ours.as_secs_f64()
}

/// The bars that were tried, and the names of those that were missed
#[derive(Default)]
struct Bars {
    met: usize,
    missed: Vec<String>,
}

impl Bars {
    /// Whether a bar is met, as a word
    fn hold(&mut self, name: &str, met: bool) -> &'static str {
        if met {
            self.met += 1;
            return "met";
        }
        self.missed.push(name.into());
        "MISSED"
    }
}

fn main() {
    let words: Vec<String> = std::env::args().skip(1).collect();
    let work = std::thread::Builder::new().stack_size(STACK).spawn(move || run(&words));
    exit(work.unwrap().join().unwrap_or(101));
}

fn run(words: &[String]) -> i32 {
    let words: Vec<&str> = words.iter().map(String::as_str).collect();
    match words[..] {
        ["once", call, shape, bytes] => return once(call, shape, bytes.parse().expect("a number of bytes")),
        ["files", ref names @ ..] => return real(names),
        ["words"] => {
            all_shapes().for_each(|shape| println!("{:14} {}", shape.word, shape.about));
            return 0;
        }
        _ => {}
    }
    let parts: [(&str, fn(&mut Bars)); 4] =
        [("calls", time_calls), ("reading", time_reading), ("shapes", time_shapes), ("growth", time_growth)];
    if let Some(word) = words.iter().find(|&word| !parts.iter().any(|(name, _)| name == word)) {
        eprintln!("{word}: bench [calls | reading | shapes | growth ..], bench files FILE .., bench once CALL SHAPE BYTES, bench words");
        return 2;
    }
    let mut bars = Bars::default();
    println!("best of {ROUNDS}, processor time; tables are in memory and not cleared before a call; each call writes the whole of its tables");
    for (name, part) in parts {
        if words.is_empty() || words.contains(&name) {
            part(&mut bars);
        }
    }
    println!("bars: {} met, {} missed{}", bars.met, bars.missed.len(), if bars.missed.is_empty() { "" } else { ":" });
    bars.missed.iter().for_each(|name| println!("  {name}"));
    !bars.missed.is_empty() as i32
}

fn all_shapes() -> impl Iterator<Item = &'static Shape> {
    WRITTEN.iter().chain(&WORST)
}

/// One call of the library on one shape, with tables just long enough, which the Rust tells
fn once(call: &str, shape: &str, bytes: usize) -> i32 {
    let Some(shape) = all_shapes().find(|s| s.word == shape) else {
        eprintln!("{shape}: no such shape; `bench words` prints them");
        return 2;
    };
    let source = (shape.source)(bytes);
    match call {
        "read" => {
            let (_, reading) = calls::read(&source);
            let reading = reading.unwrap();
            Tables::of([5 * reading.entries.len(), 10 * reading.errors.len(), reading.lines.len()]).read(&source);
        }
        "tokens" | "before" => {
            let mut table = vec![u32::MAX; 3 * calls::tokens(&source).unwrap().len()];
            let list = if call == "tokens" { exports::tokens } else { exports::BEFORE.expect("BEFORE").tokens };
            assert_eq!(list(&source, &mut table).refusal, 0);
        }
        _ => {
            eprintln!("{call}: read, tokens or before");
            return 2;
        }
    }
    println!("{}", source.len());
    0
}

fn time_reading(bars: &mut Bars) {
    println!("\nreading: library, UTF-8 checked, three tables just long enough; Rust, its tree built and dropped");
    println!("  {:58} {:>9} {:>9} {:>7}", "", "library", "Rust", "times");
    for (shape, bar) in WRITTEN.iter().zip([PLAIN_BAR, MIXED_BAR]) {
        let source = (shape.source)(BYTES);
        let mut tables = Tables::needed(&source);
        let text = std::str::from_utf8(&source).unwrap();
        let [ours, rust] = best([&mut || tables.read(&source), &mut || calls::parse_only(black_box(text))]);
        ratio(bars, shape.about, source.len(), [ours, rust], bar);
        println!("    {}", tables.described(source.len()));
    }
    let about = "5,000 files of 0.5 to 4 KB, one call each";
    let (files, [ours, rust]) = time_files(shapes::small_files(FILES));
    ratio(bars, about, files.len(), [ours, rust], FILES_BAR);
    println!("    {}", Tables::read_once(&files).described(files.len()));
}

/// Many files, one call each: all of them joined, and the times of both. One memory is lent for all files, of each table
/// just as much as the file needs; the Rust's allocator gives it the same memory again too.
fn time_files(files: Vec<Vec<u8>>) -> (Vec<u8>, [Duration; 2]) {
    let lengths: Vec<[usize; 3]> = files.iter().map(|file| Tables::needed(file).lengths()).collect();
    let mut tables = Tables::of([0, 1, 2].map(|table| lengths.iter().map(|file| file[table]).max().unwrap()));
    let times =
        best([&mut || files.iter().zip(&lengths).for_each(|(file, &lengths)| tables.read_with(lengths, file)), &mut || {
            files.iter().for_each(|file| calls::parse_only(black_box(std::str::from_utf8(file).unwrap())))
        }]);
    (files.concat(), times)
}

/// Files of one's own, as many of them as are 0.5 to 4 KB of UTF-8; no bar
fn real(names: &[&str]) -> i32 {
    let read = |name: &&str| std::fs::read(name).ok();
    let small = |file: &Vec<u8>| (512..=4096).contains(&file.len()) && std::str::from_utf8(file).is_ok();
    let files: Vec<Vec<u8>> = names.iter().filter_map(read).filter(small).collect();
    if files.is_empty() {
        eprintln!("bench files FILE ..: none of them is 0.5 to 4 KB of UTF-8");
        return 2;
    }
    let count = files.len();
    let (files, [ours, rust]) = time_files(files);
    let speeds = [ours, rust].map(|time| speed(files.len(), time));
    println!("{count} files, {} bytes: library {:.1}, Rust {:.1} MB/s, {:.2} times", files.len(), speeds[0], speeds[1], times(ours, rust));
    0
}

/// Prints the speed of both, and whether the bar is met
fn ratio(bars: &mut Bars, name: &str, bytes: usize, [ours, rust]: [Duration; 2], bar: f64) {
    let (times, speeds) = (times(ours, rust), [speed(bytes, ours), speed(bytes, rust)]);
    let met = bars.hold(&format!("{name}: {times:.2} times the Rust, asked {bar}"), times >= bar);
    println!("  {name:58} {:9.1} {:9.1} {times:7.2}   asked {bar}: {met}", speeds[0], speeds[1]);
}

fn time_shapes(bars: &mut Bars) {
    println!("\nthe worst shapes, of 4 MB");
    println!("  {:58} {:>9} {:>9} {:>7}", "", "library", "Rust", "times");
    for shape in &WORST {
        let source = (shape.source)(SHAPE_BYTES);
        let text = std::str::from_utf8(&source).unwrap();
        let mut tables = Tables::needed(&source);
        let [ours, rust] = best([&mut || tables.read(&source), &mut || calls::parse_only(black_box(text))]);
        ratio(bars, shape.about, source.len(), [ours, rust], SHAPE_BAR);
    }
}

fn time_growth(bars: &mut Bars) {
    println!("\ngrowth: nanoseconds a byte at 64 KB, 4 MB and 16 MiB, and times those at 64 KB");
    for shape in all_shapes() {
        let ns = GROWTH_BYTES.map(|bytes| {
            let mut source = (shape.source)(bytes - 4096);
            source.truncate(calls::MAX_BYTES);
            let mut tables = Tables::needed(&source);
            let calls = (SHAPE_BYTES / bytes).max(1);
            let [time] = best([&mut || (0..calls).for_each(|_| tables.read(&source))]);
            time.as_nanos() as f64 / (calls * source.len()) as f64
        });
        let [growth, largest] = [ns[1] / ns[0], ns[2] / ns[0]];
        let met = bars.hold(&format!("{}: growth {growth:.2}, asked {GROWTH_BAR}", shape.about), growth <= GROWTH_BAR);
        println!(
            "  {:58} {:6.2} {:6.2} {:6.2}   {growth:5.2} {largest:5.2}   asked {GROWTH_BAR}: {met}",
            shape.about, ns[0], ns[1], ns[2]
        );
    }
}

/// Tokens, line table and unescaping of the oracle's source
fn time_calls(bars: &mut Bars) {
    let source = (WRITTEN[1].source)(BYTES);
    let text = std::str::from_utf8(&source).unwrap();
    let row = |name: &str, time| println!("  {name:58} {:8.1} MB/s", speed(source.len(), time));
    let ratio = |name: &str, ours, other| println!("  {name:58} {:8.2}", times(ours, other));

    let count = calls::tokens(&source).unwrap().len();
    let lines = calls::lines(&source).unwrap().len();
    println!("\nthe other calls, on {} bytes, {count} tokens, {lines} lines", source.len());

    let mut exact = vec![u32::MAX; 3 * count];
    let mut earlier = exact.clone();
    let mut ample = vec![u32::MAX; 3 * source.len()];
    let before_tokens = exports::BEFORE.map(|library| library.tokens);
    let [ours, before, ours_ample, lexer, listing] = best([
        &mut || assert_eq!(exports::tokens(&source, black_box(&mut exact)).refusal, 0),
        &mut || {
            let answer = before_tokens.map(|tokens| tokens(&source, black_box(&mut earlier)));
            assert_eq!(answer.map_or(0, |answer| answer.refusal), 0);
        },
        &mut || assert_eq!(exports::tokens(&source, black_box(&mut ample)).refusal, 0),
        &mut || calls::lex_only(black_box(text)),
        &mut || drop(black_box(calls::tokens(&source))),
    ]);
    println!("tokens");
    row("library, table just long enough, UTF-8 checked", ours);
    row("library, table of three numbers for each byte", ours_ample);
    row("Rust, its lexer alone: no table, no UTF-8 check", lexer);
    row("Rust, tokens collected, UTF-8 checked", listing);
    ratio("library / Rust", ours, lexer);
    if before_tokens.is_some() {
        row("an earlier library, table just long enough", before);
        let kept = times(ours, before);
        let met = bars.hold(&format!("shader_tokens: {kept:.2} times the earlier library"), kept >= TOKENS_BAR);
        println!("  {:58} {kept:8.2}   not slower: {met}", "library / earlier library");
    } else {
        println!("  whether it is slower than before is not told: no earlier library was named by BEFORE");
    }

    let mut table = vec![u32::MAX; lines];
    let mut library = || assert_eq!(exports::line_table(&source, black_box(&mut table)).refusal, 0);
    let [ours, rust] = best([&mut library, &mut || drop(black_box(calls::lines(&source)))]);
    println!("line table");
    row("library, table just long enough, UTF-8 checked", ours);
    row("Rust, line map and its starts, UTF-8 checked", rust);
    ratio("library / Rust", ours, rust);

    let mut output = vec![u8::MAX; source.len()];
    let mut library = || assert_eq!(exports::unescape(&source, black_box(&mut output)).refusal, 0);
    let [ours, rust] = best([&mut library, &mut || drop(black_box(calls::unescape(&source)))]);
    println!("unescape");
    row("library, output as long as the source, UTF-8 checked", ours);
    row("Rust, collected, UTF-8 checked", rust);
    ratio("library / Rust", ours, rust);
}
