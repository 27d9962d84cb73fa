//! Tables as they are lent to a call: full of rubbish, and with rubbish around them.

use std::fmt::Display;

/// What a table is made of: numbers of 32 bits, or bytes
pub trait Number: Copy + PartialEq + Default + Display {
    /// What stands in a table before it is lent
    const RUBBISH: Self;
}

impl Number for u32 {
    const RUBBISH: u32 = 0xa5a5_a5a5;
}

impl Number for u8 {
    const RUBBISH: u8 = 0xa5;
}

/// Rubbish numbers before and behind each lent table, which no call may touch
const GUARD: usize = 8;

/// The memory that tables are lent from
#[derive(Default)]
pub struct Lender<T> {
    memory: Vec<T>,
    room: usize,
}

impl<T: Number> Lender<T> {
    /// A table of that length
    pub fn lend(&mut self, room: usize) -> &mut [T] {
        let whole = room + 2 * GUARD;
        if self.memory.len() < whole {
            self.memory.resize(whole, T::RUBBISH);
        }
        self.memory[..whole].fill(T::RUBBISH);
        self.room = room;
        &mut self.memory[GUARD..GUARD + room]
    }

    /// The table that was lent last, as it is now
    pub fn table(&self) -> &[T] {
        &self.memory[GUARD..GUARD + self.room]
    }

    /// Whether the numbers around it are what they were
    pub fn untouched(&self) -> bool {
        let behind = GUARD + self.room;
        let mut around = self.memory[..GUARD].iter().chain(&self.memory[behind..behind + GUARD]);
        around.all(|&number| number == T::RUBBISH)
    }

    /// The first number that is not the wanted one, where zeros are wanted behind those given: its place,
    /// and what stands there
    pub fn unlike(&self, wanted: &[T]) -> Option<(usize, T)> {
        let table = self.table();
        let (used, unused) = table.split_at(wanted.len());
        if used == wanted && unused.iter().all(|&number| number == T::default()) {
            return None;
        }
        let want = |place| wanted.get(place).copied().unwrap_or_default();
        let place = (0..table.len()).find(|&place| table[place] != want(place)).unwrap();
        Some((place, table[place]))
    }
}
