//! Runs one source through the library and through an earlier one, and compares every number.

use std::{array, fmt::Write};

use crate::{
    checker::{difference, shown, write_unlike, Checker, Tally, BODY, LINES, READ, TOKENS, UNESCAPE},
    exports::{Counted, Library, LIBRARY},
    lender::{Lender, Number},
    tabs, Random,
};

/// Whether a source is left out, since it is answered otherwise than before
fn left_out(source: &[u8]) -> bool {
    tabs::has(source)
}

/// The refusals of tables that are too short
const TOO_SHORT: [u32; 4] = [4, 5, 6, 8];

/// Longer tables are lent where they are needed, and a longer source is tried with fewer lengths of tables
const LONG: usize = 1 << 20;

/// The refusal, and how many things each table holds
type Answer<const N: usize> = (u32, [u32; N]);

/// A call on a source: its place among those counted, how many things its tables hold at most for that many bytes, how
/// many numbers each of them has, and how it is made
struct Call<T, const N: usize> {
    place: usize,
    most: fn(usize) -> [usize; N],
    each: [usize; N],
    run: fn(&Library, &[u8], [&mut [T]; N]) -> Answer<N>,
}

const TOKENS_CALL: Call<u32, 1> = Call {
    place: TOKENS,
    most: |bytes| [bytes],
    each: [3],
    run: |library, source, [tokens]| counted((library.tokens)(source, tokens)),
};

const LINES_CALL: Call<u32, 1> = Call {
    place: LINES,
    most: |bytes| [bytes + 1],
    each: [1],
    run: |library, source, [lines]| counted((library.line_table)(source, lines)),
};

const UNESCAPE_CALL: Call<u8, 1> = Call {
    place: UNESCAPE,
    most: |bytes| [bytes],
    each: [1],
    run: |library, source, [output]| counted((library.unescape)(source, output)),
};

const BODY_CALL: Call<u32, 1> = Call {
    place: BODY,
    most: |bytes| [2 * bytes + 1],
    each: [5],
    run: |library, source, [entries]| counted((library.define_body)(source, entries)),
};

const READ_CALL: Call<u32, 3> = Call {
    place: READ,
    most: |bytes| [2 * bytes + 1, bytes, bytes + 1],
    each: [5, 10, 1],
    run: |library, source, [entries, errors, lines]| {
        let answer = (library.read)(source, entries, errors, lines);
        (answer.refusal, [answer.entries, answer.errors, answer.lines])
    },
};

fn counted(answer: Counted) -> Answer<1> {
    (answer.refusal, [answer.count])
}

/// An earlier library, and the tables that are lent to it and to the library
pub struct Earlier {
    pub(crate) library: Library,
    numbers: [[Lender<u32>; 1]; 2],
    bytes: [[Lender<u8>; 1]; 2],
    tables: [[Lender<u32>; 3]; 2],
}

impl Earlier {
    pub fn new(library: Library) -> Earlier {
        Earlier { library, numbers: Default::default(), bytes: Default::default(), tables: Default::default() }
    }
}

impl Checker {
    /// Compares all calls on a source with those of the earlier library
    pub(crate) fn libraries(&mut self, source: &[u8]) {
        let Self { tally, random, earlier: Some(Earlier { library, numbers, bytes, tables }), .. } = self else {
            return;
        };
        if left_out(source) {
            tally.left_out += 1;
            return;
        }
        tally.source(source);
        TOKENS_CALL.compare(tally, random, library, numbers, source);
        LINES_CALL.compare(tally, random, library, numbers, source);
        UNESCAPE_CALL.compare(tally, random, library, bytes, source);
        BODY_CALL.compare(tally, random, library, numbers, source);
        READ_CALL.compare(tally, random, library, tables, source);
    }
}

impl<T: Number, const N: usize> Call<T, N> {
    fn compare(
        &self,
        tally: &mut Tally,
        random: &mut Random,
        earlier: &Library,
        [before, now]: &mut [[Lender<T>; N]; 2],
        source: &[u8],
    ) {
        let answer = self.answer(earlier, before, source);
        for rooms in self.rooms(random, source.len(), answer) {
            let want = self.lent(earlier, before, source, rooms);
            let got = self.lent(&LIBRARY, now, source, rooms);
            tally.calls[self.place] += 1;
            let unlike: [_; N] = array::from_fn(|table| now[table].unlike(before[table].table()));
            let untouched: [_; N] = array::from_fn(|table| now[table].untouched());
            if got != want || unlike != [None; N] || untouched != [true; N] {
                difference(tally, self.place, || {
                    let mut text = format!("tables of {rooms:?}, {}", shown(source));
                    write!(text, "\n  before   {want:?}\n  library  {got:?}").unwrap();
                    for table in 0..N {
                        let name = format!("table {table}");
                        write_unlike(&mut text, &name, before[table].table(), unlike[table], untouched[table]);
                    }
                    text
                });
            }
        }
    }

    /// The answer of a library that is lent tables of these lengths
    fn lent(&self, library: &Library, lenders: &mut [Lender<T>; N], source: &[u8], rooms: [usize; N]) -> Answer<N> {
        let mut rooms = rooms.into_iter();
        (self.run)(library, source, lenders.each_mut().map(|lender| lender.lend(rooms.next().unwrap())))
    }

    /// The answer of a library that is lent tables long enough
    fn answer(&self, library: &Library, lenders: &mut [Lender<T>; N], source: &[u8]) -> Answer<N> {
        let most = self.most_numbers(source.len());
        let mut rooms = most.map(|room| room.min(LONG));
        loop {
            let answer = self.lent(library, lenders, source, rooms);
            if rooms == most || !TOO_SHORT.contains(&answer.0) {
                return answer;
            }
            rooms = array::from_fn(|table| most[table].min(2 * rooms[table]));
        }
    }

    fn most_numbers(&self, bytes: usize) -> [usize; N] {
        let most = (self.most)(bytes);
        array::from_fn(|table| self.each[table] * most[table])
    }

    /// Lengths of tables: just long enough; none; each one number short, alone and with the others; longer; one of
    /// them much shorter. Where the source is refused: none, and of any length.
    fn rooms(&self, random: &mut Random, bytes: usize, (refusal, counts): Answer<N>) -> Vec<[usize; N]> {
        if refusal != 0 {
            let any = self.most_numbers(bytes).map(|most| random.below(most.min(LONG) + 2));
            return vec![[0; N], any, [1 + random.below(12); N]];
        }
        let needs: [usize; N] = array::from_fn(|table| self.each[table] * counts[table] as usize);
        let mut rooms = vec![needs, [0; N]];
        let less = |one: usize| array::from_fn(|table| needs[table] - (table == one) as usize);
        rooms.extend((0..N).filter(|&table| needs[table] > 0).map(less));
        if bytes <= LONG {
            rooms.push(needs.map(|need| need.saturating_sub(1)));
            rooms.push(needs.map(|need| need + 1 + random.below(12)));
            let one = random.below(N);
            let shorter = random.below(needs[one].max(1));
            rooms.push(array::from_fn(|table| if table == one { shorter } else { needs[table] }));
        }
        rooms
    }
}
