//! Document 01's stand-ins in place of the methods of f64, for the benchmark: nothing is noted.

pub trait StandIns {
    fn max_zero(self) -> f64;
    fn min_first(self, q: f64) -> f64;
    fn square(self) -> f64;
    /// NaN for a refused argument.
    fn ln_or_refuse(self) -> f64;
}

impl StandIns for f64 {
    #[inline]
    fn max_zero(self) -> f64 {
        if self > 0.0 {
            self
        } else {
            0.0
        }
    }

    #[inline]
    fn min_first(self, q: f64) -> f64 {
        if q < self {
            q
        } else {
            self
        }
    }

    #[inline]
    fn square(self) -> f64 {
        self * self
    }

    #[inline]
    #[allow(clippy::approx_constant)]
    fn ln_or_refuse(self) -> f64 {
        if !(self > 0.0 && self.is_normal()) {
            return f64::NAN;
        }
        let bits = self.to_bits();
        let mut m = f64::from_bits((bits & ((1 << 52) - 1)) | (1023 << 52));
        let mut k = (bits >> 52) as i32 - 1023;
        if m > 1.4142135623730951 {
            m /= 2.0;
            k += 1;
        }
        let s = (m - 1.0) / (m + 1.0);
        let w = s * s;
        const PARTS: [f64; 10] = [
            1.0 / 19.0,
            1.0 / 17.0,
            1.0 / 15.0,
            1.0 / 13.0,
            1.0 / 11.0,
            1.0 / 9.0,
            1.0 / 7.0,
            1.0 / 5.0,
            1.0 / 3.0,
            1.0,
        ];
        let mut p = 1.0 / 21.0;
        for part in PARTS {
            p = p * w + part;
        }
        (2.0 * s) * p + f64::from(k) * 0.6931471805599453
    }
}
