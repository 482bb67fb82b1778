//! Random numbers: Steele, Lea and Flood's SplitMix64, or the bytes that a fuzzer chose.

/// A source of random numbers: the same seed, or the same bytes, give the same ones.
pub struct Random(Source);

enum Source {
    Mixed(u64),
    Chosen(std::vec::IntoIter<u8>),
}

impl Random {
    pub fn new(seed: u64) -> Self {
        Self(Source::Mixed(seed))
    }

    /// Numbers made of these bytes, and zeros after them.
    pub fn chosen(bytes: Vec<u8>) -> Self {
        Self(Source::Chosen(bytes.into_iter()))
    }

    /// All 64 bits.
    pub fn bits(&mut self) -> u64 {
        match &mut self.0 {
            Source::Mixed(state) => mixed(state),
            Source::Chosen(bytes) => number(bytes, 8),
        }
    }

    /// A number below `n`, which is not 0.
    pub fn below(&mut self, n: u64) -> u64 {
        match &mut self.0 {
            Source::Mixed(state) => ((u128::from(mixed(state)) * u128::from(n)) >> 64) as u64,
            // As few bytes as can tell n numbers apart.
            Source::Chosen(bytes) => number(bytes, (71 - (n - 1).leading_zeros()) / 8) % n,
        }
    }

    /// A whole number from `low` to `high`, both included.
    pub fn whole(&mut self, low: i64, high: i64) -> i64 {
        low + self.below((high - low) as u64 + 1) as i64
    }

    /// A number from 0 to 1, in steps of 2^-53.
    pub fn unit(&mut self) -> f64 {
        (self.bits() >> 11) as f64 / (1u64 << 53) as f64
    }

    /// One of several.
    pub fn of<T: Copy>(&mut self, choices: &[T]) -> T {
        choices[self.below(choices.len() as u64) as usize]
    }
}

fn mixed(state: &mut u64) -> u64 {
    *state = state.wrapping_add(0x9E37_79B9_7F4A_7C15);
    let mut z = *state;
    z = (z ^ (z >> 30)).wrapping_mul(0xBF58_476D_1CE4_E5B9);
    z = (z ^ (z >> 27)).wrapping_mul(0x94D0_49BB_1331_11EB);
    z ^ (z >> 31)
}

/// The next `count` bytes, the first the highest.
fn number(bytes: &mut impl Iterator<Item = u8>, count: u32) -> u64 {
    (0..count).fold(0, |n, _| n << 8 | u64::from(bytes.next().unwrap_or(0)))
}
