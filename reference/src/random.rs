//! A small generator of numbers (splitmix64): the same seed gives the same numbers.

pub struct Rng(u64);

impl Rng {
    pub fn new(seed: u64) -> Rng {
        Rng(seed)
    }

    pub fn draw(&mut self) -> u64 {
        self.0 = self.0.wrapping_add(0x9E37_79B9_7F4A_7C15);
        let mut z = self.0;
        z = (z ^ (z >> 30)).wrapping_mul(0xBF58_476D_1CE4_E5B9);
        z = (z ^ (z >> 27)).wrapping_mul(0x94D0_49BB_1331_11EB);
        z ^ (z >> 31)
    }

    /// 0 to n − 1; 0 if n is 0.
    pub fn below(&mut self, n: usize) -> usize {
        match u64::try_from(n) {
            Ok(n) if n > 0 => (self.draw() % n) as usize,
            _ => 0,
        }
    }

    /// From `low` to `high`, both among them.
    pub fn from_to(&mut self, low: i64, high: i64) -> i64 {
        let span = (i128::from(high) - i128::from(low) + 1).max(1);
        let offset = i128::from(self.draw()) % span;
        (i128::from(low) + offset) as i64
    }

    /// True in so many of a hundred cases.
    pub fn percent(&mut self, n: usize) -> bool {
        self.below(100) < n
    }

    /// One of them; `first` is what stands if there is none.
    pub fn pick<T: Copy>(&mut self, first: T, others: &[T]) -> T {
        let chosen = self.below(others.len() + 1);
        if chosen == 0 {
            first
        } else {
            others.get(chosen - 1).copied().unwrap_or(first)
        }
    }

    /// The number of one of these weights, by weight.
    pub fn weighted(&mut self, weights: &[usize]) -> usize {
        let mut left = self.below(weights.iter().sum());
        for (index, weight) in weights.iter().enumerate() {
            if left < *weight {
                return index;
            }
            left -= weight;
        }
        0
    }
}
