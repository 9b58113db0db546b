//! A small random number generator (splitmix64) and picks weighted to edges.

use crate::ranges::Range;

pub struct Random(u64);

impl Random {
    pub fn new(seed: u64) -> Self {
        Random(seed)
    }

    pub fn word(&mut self) -> u64 {
        self.0 = self.0.wrapping_add(0x9e3779b97f4a7c15);
        let mut z = self.0;
        z = (z ^ (z >> 30)).wrapping_mul(0xbf58476d1ce4e5b9);
        z = (z ^ (z >> 27)).wrapping_mul(0x94d049bb133111eb);
        z ^ (z >> 31)
    }

    /// 0 to n - 1.
    pub fn below(&mut self, n: u64) -> u64 {
        self.word() % n
    }

    /// True in one of n cases.
    pub fn one_in(&mut self, n: u64) -> bool {
        self.below(n) == 0
    }

    pub fn pick<T: Copy>(&mut self, items: &[T]) -> T {
        items[self.below(items.len() as u64) as usize]
    }

    /// 0 to 1, without 1.
    pub fn unit(&mut self) -> f64 {
        (self.word() >> 11) as f64 / (1u64 << 53) as f64
    }

    pub fn between(&mut self, low: f64, high: f64) -> f64 {
        low + (high - low) * self.unit()
    }

    /// Even in the magnitude.
    pub fn magnitude(&mut self, low: f64, high: f64) -> f64 {
        self.between(low.ln(), high.ln()).exp()
    }

    /// A number of a range: in one of four cases on or just inside an end, else even,
    /// even in the magnitude, or a short decimal.
    pub fn within(&mut self, (low, high): Range) -> f64 {
        let x = match self.below(16) {
            0 => low,
            1 => high,
            2 => low.next_up(),
            3 => high.next_down(),
            4..=7 if low > 0.0 => self.magnitude(low, high),
            8 | 9 => self.between(low, high).round(),
            _ => self.between(low, high),
        };
        x.clamp(low, high)
    }

    /// Any f64 by its bits, NaN left out.
    pub fn any_number(&mut self) -> f64 {
        loop {
            let x = f64::from_bits(self.word());
            if !x.is_nan() {
                return x;
            }
        }
    }

    /// Zeros, subnormals, infinities, powers of two, ends of the format.
    pub fn odd_number(&mut self) -> f64 {
        let sign = self.pick(&[1.0, -1.0]);
        let size = match self.below(10) {
            0 => 0.0,
            1 => f64::from_bits(1),
            2 => f64::from_bits(self.word() >> 12),
            3 => f64::MIN_POSITIVE.next_down(),
            4 => f64::MIN_POSITIVE,
            5 => f64::MAX,
            6 => f64::INFINITY,
            7 => 1.0,
            8 => f64::from_bits((1 + self.below(2046)) << 52),
            _ => self.any_number().abs(),
        };
        sign * size
    }

    /// The number itself or a neighbour of it.
    pub fn near(&mut self, x: f64) -> f64 {
        match self.below(5) {
            0 => x.next_up(),
            1 => x.next_down(),
            _ => x,
        }
    }
}
