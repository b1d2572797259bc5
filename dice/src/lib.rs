//! Random numbers, the same for the same seed: for the cases of tests and comparisons, and for recordings that are measured.
#![forbid(unsafe_code)]

/// The golden ratio in 64 bits, odd: the step of the generator.
const STEP: u64 = 0x9E37_79B9_7F4A_7C15;

/// A number well mixed (splitmix64).
pub fn mix(number: u64) -> u64 {
    let mut z = number;
    z = (z ^ (z >> 30)).wrapping_mul(0xBF58_476D_1CE4_E5B9);
    z = (z ^ (z >> 27)).wrapping_mul(0x94D0_49BB_1331_11EB);
    z ^ (z >> 31)
}

/// Dice that are thrown one after the other.
pub struct Dice(u64);

impl Dice {
    /// The dice of a seed.
    pub fn new(seed: u64) -> Dice {
        Dice(seed)
    }

    /// The dice of one case: they depend on the seed and the case's number alone.
    pub fn of(seed: u64, case: u64) -> Dice {
        Dice(mix(seed.wrapping_add(STEP)) ^ mix(case.wrapping_mul(STEP).wrapping_add(1)))
    }

    /// Any number of 64 bits.
    pub fn word(&mut self) -> u64 {
        self.0 = self.0.wrapping_add(STEP);
        mix(self.0)
    }

    /// From 0 to `n` - 1.
    pub fn below(&mut self, n: u64) -> u64 {
        self.word() % n
    }

    /// From 0 to `n` - 1, as an index.
    pub fn index(&mut self, n: usize) -> usize {
        self.below(n as u64) as usize
    }

    /// From `low` to `high`, both included.
    pub fn within(&mut self, low: i64, high: i64) -> i64 {
        let width = (high - low) as u64 + 1;
        low + self.below(width) as i64
    }

    /// True once in `n` throws.
    pub fn once_in(&mut self, n: u64) -> bool {
        self.below(n) == 0
    }

    /// One of a list.
    pub fn pick<T: Copy>(&mut self, list: &[T]) -> T {
        list[self.index(list.len())]
    }
}

#[cfg(test)]
mod tests {
    use super::Dice;

    /// A case that is told by its seed and number stays that case: splitmix64 throws these numbers.
    #[test]
    fn the_numbers_of_a_seed_stay() {
        let mut dice = Dice::new(1_234_567);
        let thrown = [(); 3].map(|()| dice.word());
        assert_eq!(thrown, [6_457_827_717_110_365_317, 3_203_168_211_198_807_973, 9_817_491_932_198_370_423]);
        assert_eq!(Dice::of(1, 2).word(), Dice::of(1, 2).word());
        assert_ne!(Dice::of(1, 2).word(), Dice::of(2, 1).word());
    }
}
