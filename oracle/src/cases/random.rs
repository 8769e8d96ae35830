//! A small random generator: the same numbers on every machine.

pub struct Random(u64);

/// A power of two, of a normal number.
pub fn two_to(exponent: i64) -> f64 {
    f64::from_bits(((1023 + exponent) as u64) << 52)
}

impl Random {
    pub fn new(seed: u64) -> Random {
        Random(seed)
    }

    /// Seeded by a name: Fowler, Noll and Vo's hash, 1a.
    pub fn named(name: &str) -> Random {
        let step = |hash: u64, byte: u8| (hash ^ byte as u64).wrapping_mul(0x0000_0100_0000_01B3);
        Random(name.bytes().fold(0xCBF2_9CE4_8422_2325, step))
    }

    /// Steele, Lea and Flood's split mix.
    fn next(&mut self) -> u64 {
        self.0 = self.0.wrapping_add(0x9E37_79B9_7F4A_7C15);
        let mut z = self.0;
        z = (z ^ (z >> 30)).wrapping_mul(0xBF58_476D_1CE4_E5B9);
        z = (z ^ (z >> 27)).wrapping_mul(0x94D0_49BB_1331_11EB);
        z ^ (z >> 31)
    }

    pub fn below(&mut self, bound: usize) -> usize {
        (self.next() % bound as u64) as usize
    }

    /// Both ends included.
    pub fn between(&mut self, low: i64, high: i64) -> i64 {
        low + self.below((high - low + 1) as usize) as i64
    }

    pub fn chance(&mut self, percent: usize) -> bool {
        self.below(100) < percent
    }

    /// A full fraction, in size from 1/8 to 8.
    fn full(&mut self) -> f64 {
        let fraction = 1.0 + (self.next() >> 12) as f64 * two_to(-52);
        fraction * two_to(self.between(-3, 2))
    }

    /// Mostly full fractions, sometimes whole numbers and zeros, of either sign.
    pub fn number(&mut self) -> f64 {
        let size = match self.below(8) {
            0 => self.below(5) as f64,
            _ => self.full(),
        };
        if self.chance(50) { -size } else { size }
    }

    pub fn numbers(&mut self, count: usize) -> Vec<f64> {
        (0..count).map(|_| self.number()).collect()
    }

    /// L L' for a random lower triangle with a diagonal that isn't small.
    pub fn variance(&mut self, size: usize) -> Vec<f64> {
        let mut lower = vec![0.0; size * size];
        for j in 0..size {
            lower[j + j * size] = 1.0 + self.full();
            (j + 1..size).for_each(|i| lower[i + j * size] = self.number() * 0.25);
        }
        let entry = |i: usize, j: usize| (0..size).fold(0.0, |sum, k| sum + lower[i + k * size] * lower[j + k * size]);
        (0..size * size).map(|at| entry(at % size, at / size)).collect()
    }
}
