//! Compares the exports of the static library with the Rust's answers, or with those of an earlier library.

pub mod before;
pub mod checker;
pub mod claims;
pub mod cut;
pub mod cut_sources;
pub mod damage;
pub mod directives;
pub mod exports;
pub mod jobs;
pub mod large;
pub mod lender;
pub mod reading;
pub mod shapes;
pub mod tab_sources;
pub mod tables;
pub mod tabs;

/// Random numbers (splitmix64)
#[derive(Default)]
pub struct Random(pub u64);

impl Random {
    pub fn number(&mut self) -> u64 {
        self.0 = self.0.wrapping_add(0x9e37_79b9_7f4a_7c15);
        let z = (self.0 ^ (self.0 >> 30)).wrapping_mul(0xbf58_476d_1ce4_e5b9);
        let z = (z ^ (z >> 27)).wrapping_mul(0x94d0_49bb_1331_11eb);
        z ^ (z >> 31)
    }

    pub fn below(&mut self, bound: usize) -> usize {
        (self.number() % bound as u64) as usize
    }

    pub fn one_in(&mut self, times: usize) -> bool {
        self.below(times) == 0
    }

    pub fn pick<T: Copy>(&mut self, from: &[T]) -> T {
        from[self.below(from.len())]
    }
}
