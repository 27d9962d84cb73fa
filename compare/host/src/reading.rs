//! Reads a source and a define body with the library and with the Rust, and compares every number.

use std::fmt::Write;

use oracle::calls::{self, Entry};

use crate::{
    checker::{difference, fills, shown, write_unlike, Checker, BODY, READ},
    claims, cut,
    exports::{self, Reading},
    lender::Lender,
    tabs, Random,
};

/// The tables of a reading, and the refusals of those that are too short, which the Rust does not have
const TABLES: [&str; 3] = ["the entry table", "the error table", "the line table"];
const TOO_SHORT: [u32; 3] = [4, 5, 6];

/// Above this length a source is read with fewer lengths of tables
const LONG: usize = 1 << 20;

/// What the Rust answers: the refusal, or the numbers of the three tables
#[derive(Default)]
struct Wanted {
    refusal: u32,
    counts: [u32; 3],
    tables: [Vec<u32>; 3],
}

/// Tables to lend, and what is wanted of them
#[derive(Default)]
pub struct Reader {
    wanted: Wanted,
    tables: [Lender<u32>; 3],
    body: Vec<u32>,
}

/// The numbers of entries, put into a table
fn put_entries(table: &mut Vec<u32>, entries: &[Entry]) {
    table.clear();
    table.extend(entries.iter().flat_map(|e| [!e.leaf as u32, e.kind as u32, e.level, e.start, e.end]));
}

impl Wanted {
    fn ask(&mut self, source: &[u8]) {
        let (_, answer) = calls::read(&tabs::asked(source));
        self.tables.iter_mut().for_each(Vec::clear);
        self.refusal = answer.as_ref().err().map_or(0, |&rust| cut::refusal(rust, source));
        let Ok(reading) = answer else {
            return;
        };
        self.counts = [reading.entries.len(), reading.errors.len(), reading.lines.len()].map(|n| n as u32);
        put_entries(&mut self.tables[0], &reading.entries);
        self.tables[1].extend(reading.errors.as_flattened());
        self.tables[2].extend(&reading.lines);
    }

    fn needs(&self) -> [usize; 3] {
        [0, 1, 2].map(|table| self.tables[table].len())
    }

    /// The answer with tables of these lengths
    fn answer(&self, rooms: [usize; 3]) -> Reading {
        let needs = self.needs();
        let short = || (0..3).find(|&table| rooms[table] < needs[table]).map_or(0, |table| TOO_SHORT[table]);
        let refusal = if self.refusal == 0 { short() } else { self.refusal };
        let [entries, errors, lines] = if refusal == 0 { self.counts } else { [0; 3] };
        Reading { refusal, entries, errors, lines }
    }

    /// Lengths of tables: just long enough; longer; each one number short, alone and with others; much
    /// shorter; none
    fn rooms(&self, random: &mut Random, bytes: usize) -> Vec<[usize; 3]> {
        let needs = self.needs();
        if self.refusal != 0 {
            let any = [0, 1, 2].map(|_| random.below(5 * bytes.min(LONG) + 2));
            return vec![[0; 3], any, [1 + random.below(12); 3]];
        }
        let less = |short: [bool; 3]| [0, 1, 2].map(|table| needs[table] - (short[table] && needs[table] > 0) as usize);
        let mut rooms = vec![needs, less([true, false, false]), less([false, false, true])];
        if needs[1] > 0 {
            rooms.extend([less([false, true, false]), less([false, true, true])]);
        }
        if bytes > LONG {
            rooms.push([0; 3]);
            return rooms;
        }
        let more = |random: &mut Random, table: usize| needs[table] + random.below(13);
        let below = |random: &mut Random, table: usize| random.below(needs[table].max(1));
        rooms.push([0, 1, 2].map(|table| more(random, table) + 1));
        rooms.push(less([true; 3]));
        // One table much shorter, and the others long enough; now and then all of them shorter, or none at all
        let victim = random.below(4);
        let short = |table: usize| victim == 3 || table == victim;
        rooms.push([0, 1, 2].map(|table| if short(table) { below(random, table) } else { more(random, table) }));
        if random.one_in(3) {
            rooms.push([0; 3]);
        }
        rooms
    }
}

impl Checker {
    /// Compares the reading of a source, and the reading of it as a define body
    pub fn reading(&mut self, source: &[u8]) {
        if self.earlier.is_some() {
            return self.libraries(source);
        }
        self.tally.source(source);
        self.reader.wanted.ask(source);
        for rooms in self.reader.wanted.rooms(&mut self.random, source.len()) {
            self.read(source, rooms);
        }
        self.body(source);
    }

    fn read(&mut self, source: &[u8], rooms: [usize; 3]) {
        let Reader { wanted, tables, .. } = &mut self.reader;
        let want = wanted.answer(rooms);
        let [entries, errors, lines] = &mut *tables;
        let got = exports::read(source, entries.lend(rooms[0]), errors.lend(rooms[1]), lines.lend(rooms[2]));
        self.tally.calls[READ] += 1;

        let numbers = |table: usize| if want.refusal == 0 { &wanted.tables[table][..] } else { &[] };
        let unlike = [0, 1, 2].map(|table| tables[table].unlike(numbers(table)));
        let untouched = [0, 1, 2].map(|table| tables[table].untouched());
        if got != want || unlike != [None; 3] || untouched != [true; 3] {
            difference(&mut self.tally, READ, || {
                let mut text = format!("tables of {rooms:?}, {}", shown(source));
                write!(text, "\n  wanted   {want:?}\n  library  {got:?}").unwrap();
                for table in 0..3 {
                    write_unlike(&mut text, TABLES[table], numbers(table), unlike[table], untouched[table]);
                }
                text
            });
        } else if got.refusal == 0 {
            let tables = [0, 1, 2].map(|table| tables[table].table());
            if let Some(claim) = claims::broken(source.len(), got, tables) {
                difference(&mut self.tally, READ, || format!("{}\n  it is not so that {claim}", shown(source)));
            }
        }
    }

    fn body(&mut self, source: &[u8]) {
        let (_, answer) = calls::body(&tabs::asked(source));
        let Self { tally, random, numbers, reader, .. } = self;
        let want = answer.as_ref().map_err(|&rust| cut::refusal(rust, source)).map(|entries| {
            put_entries(&mut reader.body, entries);
            (entries.len(), &reader.body[..])
        });
        fills(tally, random, numbers, BODY, source, want, exports::define_body);
    }
}
