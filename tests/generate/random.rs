//! A small generator of random numbers (splitmix64): the same seed gives the
//! same numbers on every machine.

pub struct Random {
    state: u64,
}

impl Random {
    pub fn new(seed: u64) -> Random {
        Random { state: seed }
    }

    pub fn next(&mut self) -> u64 {
        self.state = self.state.wrapping_add(0x9e37_79b9_7f4a_7c15);
        let mut z = self.state;
        z = (z ^ (z >> 30)).wrapping_mul(0xbf58_476d_1ce4_e5b9);
        z = (z ^ (z >> 27)).wrapping_mul(0x94d0_49bb_1331_11eb);
        z ^ (z >> 31)
    }

    /// A number from 0 to `bound` - 1.
    pub fn below(&mut self, bound: usize) -> usize {
        (self.next() % bound as u64) as usize
    }

    /// A number from `least` to `most`.
    pub fn between(&mut self, least: usize, most: usize) -> usize {
        least + self.below(most - least + 1)
    }

    /// True once in `count` times.
    pub fn once_in(&mut self, count: usize) -> bool {
        self.below(count) == 0
    }

    pub fn pick<T: Copy>(&mut self, items: &[T]) -> T {
        items[self.below(items.len())]
    }

    pub fn shuffle<T>(&mut self, items: &mut [T]) {
        for last in (1..items.len()).rev() {
            let other = self.below(last + 1);
            items.swap(last, other);
        }
    }

    /// A number of visits: often small, sometimes as large as allowed, and
    /// sometimes as many as go through the clauses several times.
    pub fn steps(&mut self, clauses: usize) -> usize {
        match self.below(12) {
            0 => 0,
            1 | 2 => 1,
            3 | 4 => self.between(1, 4),
            5 | 6 => self.between(0, clauses + 1),
            7 => clauses,
            8 => self.between(0, 65_535),
            9 | 10 => self.between(0, (clauses * clauses).min(65_535)),
            _ => 65_535,
        }
    }
}
