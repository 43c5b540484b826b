//! A small deterministic source of numbers (splitmix64).

/// The odd constant that splitmix64 adds to its state at each step.
const STEP: u64 = 0x9e37_79b9_7f4a_7c15;

/// A source of numbers that depends on its seed alone.
pub struct Random {
    state: u64,
}

impl Random {
    /// The source of one case, so that a case does not depend on the cases before it.
    pub fn of_case(seed: u64, case: u64) -> Random {
        let mut random = Random { state: seed };
        random.state = random.number() ^ case.wrapping_mul(STEP);
        random
    }

    /// The next number.
    pub fn number(&mut self) -> u64 {
        self.state = self.state.wrapping_add(STEP);
        let mut mixed = self.state;
        mixed = (mixed ^ (mixed >> 30)).wrapping_mul(0xbf58_476d_1ce4_e5b9);
        mixed = (mixed ^ (mixed >> 27)).wrapping_mul(0x94d0_49bb_1331_11eb);
        mixed ^ (mixed >> 31)
    }

    /// A number from 0 to one below the limit.
    pub fn below(&mut self, limit: usize) -> usize {
        (self.number() % limit as u64) as usize
    }

    /// A number from the least to the most.
    pub fn between(&mut self, least: usize, most: usize) -> usize {
        least + self.below(most - least + 1)
    }

    /// A byte from the least to the most.
    pub fn byte(&mut self, least: u8, most: u8) -> u8 {
        self.between(usize::from(least), usize::from(most)) as u8
    }

    /// A two-byte number from the least to the most.
    pub fn ticks(&mut self, least: u16, most: u16) -> u16 {
        self.between(usize::from(least), usize::from(most)) as u16
    }

    /// So many ticks, one more or one less.
    pub fn about(&mut self, ticks: u16) -> u16 {
        match self.below(3) {
            0 => ticks,
            1 => ticks + 1,
            _ => ticks.saturating_sub(1),
        }
    }

    /// True once in so many times.
    pub fn once_in(&mut self, times: usize) -> bool {
        self.below(times) == 0
    }

    /// One of the items.
    pub fn choose<T: Copy>(&mut self, items: &[T]) -> T {
        items[self.below(items.len())]
    }

    /// Puts the items in another order.
    pub fn shuffle<T>(&mut self, items: &mut [T]) {
        for last in (1..items.len()).rev() {
            items.swap(last, self.below(last + 1));
        }
    }

    /// So many distinct numbers below the limit, rising.
    pub fn distinct(&mut self, count: usize, limit: usize) -> Vec<usize> {
        let mut numbers: Vec<usize> = (0..limit).collect();
        self.shuffle(&mut numbers);
        numbers.truncate(count);
        numbers.sort_unstable();
        numbers
    }

    /// So many bytes that are not 0, so that a change to 0 shows.
    pub fn filled(&mut self, count: usize) -> Vec<u8> {
        (0..count).map(|_| self.byte(1, u8::MAX)).collect()
    }

    /// So many bytes.
    pub fn any_bytes(&mut self, count: usize) -> Vec<u8> {
        (0..count).map(|_| self.byte(0, u8::MAX)).collect()
    }
}
