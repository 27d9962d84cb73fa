//! Compares the static library with the Rust on many inputs, and prints figures.
//!
//!     host [before] [quick] [calls | reading | KIND ..]
//!     host [before] files FILE ..
//!
//! Without a word everything is compared; `calls` are the tokens, the line table, unescaping, lookup and
//! pasting, and `reading` is the reading of a source and of a define body. With `before` an earlier library is compared
//! with in place of the Rust, and each source goes through all calls. `host kinds` prints the words of the kinds of inputs.

use std::{
    collections::VecDeque,
    process::exit,
    sync::Mutex,
    time::{Duration, Instant},
};

use host::{
    checker::{Checker, Tally, CALLS},
    cut,
    exports::{Library, BEFORE},
    jobs::{self, plan, Plan, Work},
};

/// The Rust's `pp_concat` calls itself once for each ##; this holds the deepest body of 16,777,216 bytes. It is
/// reserved and not used.
const STACK: usize = 4 << 30;

/// Jobs that wait, and what came out of each kind so far
struct State {
    waiting: VecDeque<(usize, usize, Work)>,
    kinds: Vec<Kind>,
}

struct Kind {
    about: jobs::Kind,
    tally: Tally,
    work: Duration,
    open: usize,
}

fn main() {
    let words: Vec<String> = std::env::args().skip(1).collect();
    let words: Vec<&str> = words.iter().map(String::as_str).collect();
    let (earlier, words) = match words[..] {
        ["before", ref words @ ..] => (Some(BEFORE.unwrap_or_else(no_library)), words),
        ref words => (None, words),
    };
    let total = match words {
        ["files", files @ ..] => compare_files(files, earlier),
        ["kinds"] => {
            plan(true, &[]).unwrap().kinds.iter().for_each(|kind| println!("{:22} {}", kind.word, kind.name));
            return;
        }
        ["quick", words @ ..] => run(plan(true, words).unwrap_or_else(usage), earlier),
        words => run(plan(false, words).unwrap_or_else(usage), earlier),
    };
    if total.inputs == 0 {
        eprintln!("nothing was compared");
        exit(2);
    }
    exit((total.differences > 0) as i32);
}

fn usage() -> Plan {
    eprintln!("host [before] [quick] [calls | reading | KIND ..], host [before] files FILE .., host kinds");
    exit(2);
}

fn no_library() -> Library {
    eprintln!("no earlier library was named by BEFORE");
    exit(2);
}

fn compare_files(files: &[&str], earlier: Option<Library>) -> Tally {
    cut::hold();
    let (mut checker, mut total) = (Checker::beside(earlier), Tally::default());
    for (place, file) in files.iter().enumerate() {
        let source = std::fs::read(file).unwrap_or_else(|e| panic!("{file}: {e}"));
        checker.begin(place as u64);
        checker.source(&source);
        checker.reading(&source);
        total.add(&checker.tally);
    }
    println!("{}", figures("files", &total, Duration::ZERO));
    total
}

/// Runs the jobs on two threads. Large sources are the first thread's work, and the other takes part in it only
/// when nothing else is left.
fn run(plan: Plan, earlier: Option<Library>) -> Tally {
    cut::hold();
    let start = Instant::now();
    let kind = |about| Kind { about, tally: Tally::default(), work: Duration::ZERO, open: 0 };
    let mut kinds: Vec<Kind> = plan.kinds.into_iter().map(kind).collect();
    plan.jobs.iter().for_each(|&(_, kind, _)| kinds[kind].open += 1);
    let state = Mutex::new(State { waiting: plan.jobs.into(), kinds });

    println!("{:46} {:>11} {:>12} {:>11} {:>8}", "", "inputs", "calls", "differences", "seconds");
    std::thread::scope(|scope| {
        for large in [true, false] {
            let state = &state;
            std::thread::Builder::new()
                .stack_size(STACK)
                .spawn_scoped(scope, move || work(state, large, earlier))
                .unwrap();
        }
    });

    let kinds = state.into_inner().unwrap().kinds;
    let mut total = Tally::default();
    kinds.iter().for_each(|kind| total.add(&kind.tally));
    println!("{}", figures("all", &total, start.elapsed()));
    let calls: Vec<String> = CALLS.iter().zip(total.calls).map(|(call, n)| format!("{call} {n}")).collect();
    println!("calls compared: {}", calls.join(", "));
    match earlier {
        Some(_) => println!("sources left out: {}", total.left_out),
        None => println!("sources with vertical tabs, of which the Rust was asked with tabs: {}", total.tabs),
    }
    println!("{}", if total.differences == 0 { "no difference" } else { "DIFFERENCES" });
    total
}

fn work(state: &Mutex<State>, large: bool, earlier: Option<Library>) {
    let mut checker = Checker::beside(earlier);
    loop {
        let next = {
            let State { waiting, kinds } = &mut *state.lock().unwrap();
            let place = waiting.iter().position(|&(_, kind, _)| kinds[kind].about.large == large).unwrap_or(0);
            waiting.remove(place)
        };
        let Some((number, kind, work)) = next else {
            return;
        };
        let start = Instant::now();
        checker.begin(number as u64);
        work(&mut checker);
        let kind = &mut state.lock().unwrap().kinds[kind];
        kind.tally.add(&checker.tally);
        kind.work += start.elapsed();
        kind.open -= 1;
        if kind.open == 0 {
            println!("{}", figures(kind.about.name, &kind.tally, kind.work));
        }
    }
}

/// A row of the table; the seconds of a kind are those of both threads
fn figures(name: &str, tally: &Tally, time: Duration) -> String {
    let calls: u64 = tally.calls.iter().sum();
    let (inputs, differences, seconds) = (tally.inputs, tally.differences, time.as_secs_f64());
    format!("{name:46} {inputs:>11} {calls:>12} {differences:>11} {seconds:>8.1}")
}
