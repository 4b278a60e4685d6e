//! Random numbers from a seed (splitmix64).

pub struct Random(u64);

impl Random {
    pub fn new(seed: u64) -> Self {
        Self(seed)
    }

    pub fn bits(&mut self) -> u64 {
        self.0 = self.0.wrapping_add(0x9e37_79b9_7f4a_7c15);
        let mut z = self.0;
        z = (z ^ z >> 30).wrapping_mul(0xbf58_476d_1ce4_e5b9);
        z = (z ^ z >> 27).wrapping_mul(0x94d0_49bb_1331_11eb);
        z ^ z >> 31
    }

    /// A number from 0 up to, not including, `n`.
    pub fn below(&mut self, n: usize) -> usize {
        (self.bits() % n as u64) as usize
    }

    /// A number from `low` to `high`, both included.
    pub fn between(&mut self, low: usize, high: usize) -> usize {
        low + self.below(high - low + 1)
    }

    pub fn one_in(&mut self, n: usize) -> bool {
        self.below(n) == 0
    }

    pub fn pick<T: Copy>(&mut self, from: &[T]) -> T {
        from[self.below(from.len())]
    }

    /// A number in [0, 1).
    pub fn unit(&mut self) -> f64 {
        (self.bits() >> 11) as f64 / (1u64 << 53) as f64
    }

    pub fn range(&mut self, low: f64, high: f64) -> f64 {
        low + (high - low) * self.unit()
    }

    /// `x` or one of the two floats beside it.
    pub fn beside(&mut self, x: f64) -> f64 {
        match self.below(3) {
            0 => x.next_down(),
            1 => x,
            _ => x.next_up(),
        }
    }

    /// The place of a walk over `places` places: it mostly stays or moves to a neighbour.
    pub fn walk(&mut self, place: usize, places: usize) -> usize {
        match self.below(12) {
            0 => self.below(places),
            1..=2 => place.saturating_sub(1),
            3..=4 => (place + 1).min(places - 1),
            _ => place,
        }
    }
}

/// Each value with the floats one step below and above it, for values given in rising order.
pub fn marks(values: &[f64]) -> Vec<f64> {
    values
        .iter()
        .flat_map(|&x| [x.next_down(), x, x.next_up()])
        .collect()
}
