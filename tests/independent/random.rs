//! A seeded generator of numbers, so that every run can be repeated.

use crate::model::Number;

pub struct Random {
    state: u64,
}

impl Random {
    /// Each plan has a generator of its own, so that it depends on the seed and its index alone.
    pub fn of_plan(seed: u64, index: u64) -> Random {
        let mut outer = Random { state: seed };
        let start = outer.next();
        Random { state: start.wrapping_add(index.wrapping_mul(0xD1B5_4A32_D192_ED03)) }
    }

    /// Numbers to write have a generator apart from that of the plan with the same index.
    pub fn of_writing(seed: u64, index: u64) -> Random {
        Random::of_plan(!seed, index)
    }

    /// And so has a conversion.
    pub fn of_converting(seed: u64, index: u64) -> Random {
        Random::of_plan(seed ^ (1 << 63), index)
    }

    pub fn next(&mut self) -> u64 {
        self.state = self.state.wrapping_add(0x9E37_79B9_7F4A_7C15);
        let mut mixed = self.state;
        mixed = (mixed ^ (mixed >> 30)).wrapping_mul(0xBF58_476D_1CE4_E5B9);
        mixed = (mixed ^ (mixed >> 27)).wrapping_mul(0x94D0_49BB_1331_11EB);
        mixed ^ (mixed >> 31)
    }

    pub fn below(&mut self, count: usize) -> usize {
        (self.next() % count as u64) as usize
    }

    /// Both ends are possible; an empty range gives its low end.
    pub fn between(&mut self, low: Number, high: Number) -> Number {
        let span = (high - low + 1).max(1);
        low + Number::from(self.next()) % span
    }

    pub fn chance(&mut self, percent: usize) -> bool {
        self.below(100) < percent
    }

    pub fn byte(&mut self) -> u8 {
        self.next() as u8
    }

    pub fn bytes(&mut self, count: usize) -> Vec<u8> {
        (0..count).map(|_| self.byte()).collect()
    }

    pub fn pick<T: Copy>(&mut self, choices: &[T]) -> T {
        choices[self.below(choices.len())]
    }

    pub fn shuffle<T>(&mut self, list: &mut [T]) {
        for last in (1..list.len()).rev() {
            let other = self.below(last + 1);
            list.swap(last, other);
        }
    }
}
