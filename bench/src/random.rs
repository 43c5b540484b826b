//! A small deterministic source of numbers (splitmix64).

/// The odd constant that splitmix64 adds to its state at each step.
const STEP: u64 = 0x9e37_79b9_7f4a_7c15;

/// A source of numbers that depends on its seed alone.
pub struct Random {
    state: u64,
}

impl Random {
    /// The source of one measure, so that a measure does not depend on those before it.
    pub fn of_measure(seed: u64, measure: u64) -> Random {
        let mut random = Random { state: seed };
        random.state = random.number() ^ measure.wrapping_mul(STEP);
        random
    }

    /// The next number.
    pub fn number(&mut self) -> u64 {
        self.state = self.state.wrapping_add(STEP);
        let mut mixed = self.state;
        mixed = (mixed ^ (mixed >> 30)).wrapping_mul(0xbf58_476d_1ce4_e5b9);
        mixed = (mixed ^ (mixed >> 27)).wrapping_mul(0x94d0_49bb_1331_11eb);
        mixed ^ (mixed >> 31)
    }

    /// A number from the least to the most.
    pub fn between(&mut self, least: usize, most: usize) -> usize {
        least + (self.number() % (most - least + 1) as u64) as usize
    }

    /// A two-byte number from the least to the most.
    pub fn ticks(&mut self, least: u16, most: u16) -> u16 {
        self.between(usize::from(least), usize::from(most)) as u16
    }

    /// A real number from the least to below the most.
    pub fn real(&mut self, least: f64, most: f64) -> f64 {
        least + (most - least) * (self.number() >> 11) as f64 / (1u64 << 53) as f64
    }

    /// A real number whose logarithm is uniform from the least to the most.
    pub fn scaled(&mut self, least: f64, most: f64) -> f64 {
        self.real(least.ln(), most.ln()).exp()
    }

    /// True once in so many times.
    pub fn once_in(&mut self, times: usize) -> bool {
        self.between(1, times) == 1
    }

    /// One of the items.
    pub fn choose<T: Copy>(&mut self, items: &[T]) -> T {
        items[self.between(0, items.len() - 1)]
    }
}
