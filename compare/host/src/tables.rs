//! Tables to be timed with: lent just as long as a reading needs.

use std::hint::black_box;

use crate::exports;

pub struct Tables([Vec<u32>; 3]);

impl Tables {
    /// Tables of these lengths
    pub fn of(rooms: [usize; 3]) -> Tables {
        Tables(rooms.map(|room| vec![u32::MAX; room]))
    }

    /// Tables of the lengths that the source needs: those that are refused are made longer
    pub fn needed(source: &[u8]) -> Tables {
        let mut tables = Tables::of([source.len(), 100, 100]);
        loop {
            let [entries, errors, lines] = &mut tables.0;
            let answer = exports::read(source, entries, errors, lines);
            match answer.refusal {
                0 => return Tables::of([5 * answer.entries, 10 * answer.errors, answer.lines].map(|n| n as usize)),
                refusal => {
                    let short = &mut tables.0[refusal as usize - 4];
                    short.resize(2 * short.len() + 100, 0);
                }
            }
        }
    }

    /// Tables with the reading of the source
    pub fn read_once(source: &[u8]) -> Tables {
        let mut tables = Tables::needed(source);
        tables.read(source);
        tables
    }

    pub fn lengths(&self) -> [usize; 3] {
        [0, 1, 2].map(|table| self.0[table].len())
    }

    /// Reads the source
    pub fn read(&mut self, source: &[u8]) {
        self.read_with(self.lengths(), source);
    }

    /// Reads the source with as much of the tables as is said
    pub fn read_with(&mut self, lengths: [usize; 3], source: &[u8]) {
        let [entries, errors, lines] = &mut self.0;
        let (entries, errors, lines) =
            (&mut entries[..lengths[0]], &mut errors[..lengths[1]], &mut lines[..lengths[2]]);
        let answer = exports::read(source, black_box(entries), black_box(errors), black_box(lines));
        assert_eq!(answer.refusal, 0);
    }

    /// What was read, in a few figures
    pub fn described(&self, bytes: usize) -> String {
        let [entries, errors, lines] = &self.0;
        let entry = |place: usize| &entries[5 * place..5 * place + 5];
        let leaves: Vec<usize> = (0..entries.len() / 5).filter(|&place| entry(place)[0] == 0).collect();
        let inside = leaves.iter().filter(|&&place| entry(place)[2] > 1).count();
        format!(
            "{bytes} bytes, {} leaves of {:.1} bytes, {:.1} % of them in directives, {} lines, {} errors",
            leaves.len(),
            bytes as f64 / leaves.len() as f64,
            100.0 * inside as f64 / leaves.len() as f64,
            lines.len(),
            errors.len() / 10
        )
    }
}
