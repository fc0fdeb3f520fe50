//! SplitMix64: a small generator of numbers, the same for the same seed.

#[derive(Debug, Clone)]
pub struct Rng {
    state: u64,
}

impl Rng {
    pub fn new(seed: u64) -> Self {
        Rng { state: seed }
    }

    pub fn next_u64(&mut self) -> u64 {
        self.state = self.state.wrapping_add(0x9E37_79B9_7F4A_7C15);
        let z = (self.state ^ (self.state >> 30)).wrapping_mul(0xBF58_476D_1CE4_E5B9);
        let z = (z ^ (z >> 27)).wrapping_mul(0x94D0_49BB_1331_11EB);
        z ^ (z >> 31)
    }

    pub fn next_i128(&mut self) -> i128 {
        let high = i128::from(self.next_u64());
        (high << 64) | i128::from(self.next_u64())
    }

    /// A number of at most 64 bits, small ones as likely as large ones.
    pub fn any_size(&mut self) -> u64 {
        let shift = self.below(64);
        self.next_u64() >> shift
    }

    /// A number below `bound`, which is not 0.
    pub fn below(&mut self, bound: usize) -> usize {
        (self.next_u64() % bound as u64) as usize
    }

    /// A number from `low` to `high`, both included.
    pub fn between(&mut self, low: usize, high: usize) -> usize {
        low + self.below(high - low + 1)
    }

    /// A number from `low` to `high`, both included.
    pub fn between_i64(&mut self, low: i64, high: i64) -> i64 {
        let number = self.next_u64();
        match high.abs_diff(low).checked_add(1) {
            Some(count) => low.wrapping_add((number % count) as i64),
            None => number as i64,
        }
    }

    /// True once in `n` times.
    pub fn one_in(&mut self, n: usize) -> bool {
        self.below(n) == 0
    }

    pub fn byte(&mut self) -> u8 {
        self.next_u64() as u8
    }

    pub fn bytes(&mut self, length: usize) -> Vec<u8> {
        let mut bytes: Vec<u8> = (0..length.div_ceil(8))
            .flat_map(|_| self.next_u64().to_le_bytes())
            .collect();
        bytes.truncate(length);
        bytes
    }

    pub fn pick<T: Copy>(&mut self, from: &[T]) -> T {
        from[self.below(from.len())]
    }
}

#[cfg(test)]
mod tests {
    use super::Rng;

    /// The reference outputs of SplitMix64 for the seed 1234567.
    #[test]
    fn reference_outputs() {
        let mut rng = Rng::new(1_234_567);
        let outputs: Vec<u64> = (0..5).map(|_| rng.next_u64()).collect();
        assert_eq!(
            outputs,
            [
                6_457_827_717_110_365_317,
                3_203_168_211_198_807_973,
                9_817_491_932_198_370_423,
                4_593_380_528_125_082_431,
                16_408_922_859_458_223_821,
            ]
        );
    }

    #[test]
    fn ranges_are_kept_and_reached() {
        let mut rng = Rng::new(1);
        let mut seen = [0; 4];
        for _ in 0..1000 {
            seen[rng.between(2, 5) - 2] += 1;
            assert!((-3..=3).contains(&rng.between_i64(-3, 3)));
        }
        assert!(seen.iter().all(|&count| count > 150), "{seen:?}");
        assert_eq!(rng.between_i64(i64::MAX, i64::MAX), i64::MAX);
    }
}
