//! A tiny seeded generator (splitmix64). It works on whole numbers only, so
//! the same seed gives the same row of numbers on every machine.

/// The state of the generator.
pub struct Random {
    state: u64,
}

impl Random {
    /// A generator that starts from `seed`.
    pub fn new(seed: u64) -> Random {
        Random { state: seed }
    }

    /// The next 64 bits.
    pub fn next(&mut self) -> u64 {
        self.state = self.state.wrapping_add(0x9E37_79B9_7F4A_7C15);
        let mut z = self.state;
        z = (z ^ (z >> 30)).wrapping_mul(0xBF58_476D_1CE4_E5B9);
        z = (z ^ (z >> 27)).wrapping_mul(0x94D0_49BB_1331_11EB);
        z ^ (z >> 31)
    }

    /// The next 32 bits.
    pub fn word(&mut self) -> u32 {
        (self.next() >> 32) as u32
    }

    /// The next 8 bits.
    pub fn byte(&mut self) -> u8 {
        (self.next() >> 56) as u8
    }

    /// A number from 0 to `limit` - 1; `limit` is at least 1. The slight
    /// unevenness of the remainder does not matter for making cases.
    pub fn below(&mut self, limit: usize) -> usize {
        (self.next() % limit as u64) as usize
    }

    /// A number from `low` to `high`, both included; `low` is not above `high`
    /// and they are not all numbers of 64 bits.
    pub fn between(&mut self, low: u64, high: u64) -> u64 {
        low + self.next() % (high - low + 1)
    }

    /// True once in `n` on average.
    pub fn one_in(&mut self, n: usize) -> bool {
        self.below(n) == 0
    }

    /// One of the items, which are not none.
    pub fn pick<T: Copy>(&mut self, items: &[T]) -> T {
        items[self.below(items.len())]
    }

    /// Eight bytes.
    pub fn bytes(&mut self) -> [u8; 8] {
        self.next().to_be_bytes()
    }
}

#[cfg(test)]
mod tests {
    use super::*;

    #[test]
    fn known_numbers_of_splitmix64() {
        // The published first outputs for the seed 1234567.
        let mut random = Random::new(1_234_567);
        assert_eq!(random.next(), 6_457_827_717_110_365_317);
        assert_eq!(random.next(), 3_203_168_211_198_807_973);
        assert_eq!(random.next(), 9_817_491_932_198_370_423);
    }

    #[test]
    fn between_gives_both_ends_and_no_more() {
        let mut random = Random::new(1);
        let mut met = [0; 5];
        for _ in 0..100 {
            met[random.between(1, 3) as usize] += 1;
        }
        assert_eq!((met[0], met[4]), (0, 0));
        assert!(met[1] > 0 && met[2] > 0 && met[3] > 0);
    }

    #[test]
    fn another_seed_gives_other_numbers() {
        assert_ne!(Random::new(1).next(), Random::new(2).next());
    }
}
