//! Numbers by seed: SplitMix64, small and the same on every machine.

/// A stream of numbers that its seed decides.
#[derive(Clone, Debug)]
pub struct Random {
    state: u64,
}

impl Random {
    /// The stream of that seed.
    pub fn new(seed: u64) -> Random {
        Random { state: seed }
    }

    /// The next number, any of 64 bits.
    pub fn word(&mut self) -> u64 {
        self.state = self.state.wrapping_add(0x9E37_79B9_7F4A_7C15);
        let mut z = self.state;
        z = (z ^ (z >> 30)).wrapping_mul(0xBF58_476D_1CE4_E5B9);
        z = (z ^ (z >> 27)).wrapping_mul(0x94D0_49BB_1331_11EB);
        z ^ (z >> 31)
    }

    /// A number from 0 to `end` − 1; `end` is not 0.
    pub fn below(&mut self, end: usize) -> usize {
        (self.word() % end as u64) as usize
    }

    /// A number from `low` to `high`, both within reach.
    pub fn between(&mut self, low: i64, high: i64) -> i64 {
        let count = high.wrapping_sub(low) as u64 + 1;
        low.wrapping_add((self.word() % count) as i64)
    }

    /// True in that many of a hundred draws.
    pub fn percent(&mut self, share: u64) -> bool {
        self.word() % 100 < share
    }

    /// One of some values.
    pub fn pick<T: Copy>(&mut self, values: &[T]) -> T {
        values[self.below(values.len())]
    }

    /// One of some values, or nothing where there are none.
    pub fn pick_from<T>(&mut self, values: Vec<T>) -> Option<T> {
        if values.is_empty() {
            return None;
        }
        let index = self.below(values.len());
        values.into_iter().nth(index)
    }

    /// Any bytes.
    pub fn bytes(&mut self, length: usize) -> Vec<u8> {
        (0..length).map(|_| self.word() as u8).collect()
    }

    /// An Int that is not 0, often one with a single byte set.
    pub fn not_zero(&mut self) -> i32 {
        let single = 1 << self.below(32);
        let any = self.word() as i32;
        self.pick(&[1, -1, i32::MIN, i32::MAX, single, any.max(1)])
    }

    /// Brings the values into another order.
    pub fn shuffle<T>(&mut self, values: &mut [T]) {
        for k in (1..values.len()).rev() {
            values.swap(k, self.below(k + 1));
        }
    }
}

#[cfg(test)]
mod tests {
    use super::Random;

    #[test]
    fn draws_stay_in_their_range() {
        let mut random = Random::new(1);
        for _ in 0..1000 {
            assert!(random.below(3) < 3);
            assert!((-2..=2).contains(&random.between(-2, 2)));
            assert_ne!(random.not_zero(), 0);
        }
        random.between(i64::MIN + 1, i64::MAX);
    }
}
