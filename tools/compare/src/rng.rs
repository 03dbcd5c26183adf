//! Seeded numbers (splitmix64). Everything derived from them uses only
//! arithmetic that IEEE 754 fixes, so a seed gives the same on every host.

/// The f64 so many steps above in size, or below.
pub fn beside64(x: f64, steps: i64) -> f64 {
    f64::from_bits((x.to_bits() as i64 + steps) as u64)
}

pub fn beside32(x: f32, steps: i32) -> f32 {
    f32::from_bits((x.to_bits() as i32 + steps) as u32)
}

pub struct Rng(u64);

impl Rng {
    /// The numbers of one item of a seed; items do not depend on each other.
    pub fn new(seed: u64, item: u64) -> Rng {
        let mut rng = Rng(seed);
        let start = rng.next();
        Rng(start ^ item.wrapping_mul(0xD1B5_4A32_D192_ED03))
    }

    pub fn next(&mut self) -> u64 {
        self.0 = self.0.wrapping_add(0x9E37_79B9_7F4A_7C15);
        let mut z = self.0;
        z = (z ^ (z >> 30)).wrapping_mul(0xBF58_476D_1CE4_E5B9);
        z = (z ^ (z >> 27)).wrapping_mul(0x94D0_49BB_1331_11EB);
        z ^ (z >> 31)
    }

    /// 0 up to `n` − 1.
    pub fn below(&mut self, n: u64) -> u64 {
        ((self.next() as u128 * n as u128) >> 64) as u64
    }

    /// Both ends included.
    pub fn whole(&mut self, least: usize, greatest: usize) -> usize {
        least + self.below((greatest - least + 1) as u64) as usize
    }

    /// Once in `n`.
    pub fn once_in(&mut self, n: u64) -> bool {
        self.below(n) == 0
    }

    pub fn between(&mut self, low: f64, high: f64) -> f64 {
        let unit = (self.next() >> 11) as f64 / (1u64 << 53) as f64;
        low + (high - low) * unit
    }

    /// About normal, deviation 1: twelve uniform numbers less six.
    pub fn normal(&mut self) -> f64 {
        (0..12).map(|_| self.between(0.0, 1.0)).sum::<f64>() - 6.0
    }

    /// A size of any power of two between 2^`low` and 2^`high`.
    pub fn size(&mut self, low: i64, high: i64) -> f64 {
        let exponent = low + self.below((high - low) as u64) as i64;
        f64::from_bits(((1023 + exponent) as u64) << 52) * self.between(1.0, 2.0)
    }

    pub fn pick<T: Copy>(&mut self, from: &[T]) -> T {
        from[self.below(from.len() as u64) as usize]
    }
}
