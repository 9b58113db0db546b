//! Document 01's stand-ins as the judge uses them, in place of the methods of f64.
//! Nearly equal and Sum2 stand in the shims `approx` and `accurate`.

use std::cell::Cell;

/// Above it the mantissa is halved.
#[allow(clippy::approx_constant)] // the digits of document 01
const LN_HALVING: f64 = 1.4142135623730951;
#[allow(clippy::approx_constant)] // the digits of document 01
const LN_2: f64 = 0.6931471805599453;

thread_local! {
    static LOGARITHM_REFUSED: Cell<bool> = const { Cell::new(false) };
    static LOGARITHMS: Cell<u64> = const { Cell::new(0) };
}

pub trait StandIns {
    fn max_zero(self) -> f64;
    fn min_first(self, q: f64) -> f64;
    fn square(self) -> f64;
    fn ln_or_refuse(self) -> f64;
}

impl StandIns for f64 {
    /// p if p > 0, else 0.
    fn max_zero(self) -> f64 {
        if self > 0.0 {
            self
        } else {
            0.0
        }
    }

    /// The smaller, of two equal ones the first.
    fn min_first(self, q: f64) -> f64 {
        if q < self {
            q
        } else {
            self
        }
    }

    fn square(self) -> f64 {
        self * self
    }

    /// Counted for the judge. A refused argument gives NaN and is noted for it too.
    fn ln_or_refuse(self) -> f64 {
        LOGARITHMS.set(LOGARITHMS.get() + 1);
        ln(self).unwrap_or_else(|| {
            LOGARITHM_REFUSED.set(true);
            f64::NAN
        })
    }
}

/// Whether a logarithm was refused since the last time this was asked.
pub fn take_logarithm_refused() -> bool {
    LOGARITHM_REFUSED.replace(false)
}

/// How many logarithms were taken since the last time this was asked.
pub fn take_logarithms() -> u64 {
    LOGARITHMS.replace(0)
}

/// ln, or None where the argument is not positive, normal and finite.
pub fn ln(argument: f64) -> Option<f64> {
    if !(argument > 0.0 && argument.is_normal()) {
        return None;
    }
    let bits = argument.to_bits();
    let mut m = f64::from_bits((bits & ((1 << 52) - 1)) | (1023 << 52));
    let mut k = (bits >> 52) as i32 - 1023;
    if m > LN_HALVING {
        m /= 2.0;
        k += 1;
    }
    let s = (m - 1.0) / (m + 1.0);
    let w = s * s;
    let mut p = 1.0 / 21.0;
    for d in (1..=19).rev().step_by(2) {
        p = p * w + 1.0 / f64::from(d);
    }
    Some((2.0 * s) * p + f64::from(k) * LN_2)
}
