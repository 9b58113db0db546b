//! Records of document 01's stand-ins.

use crate::judge;
use crate::random::Random;
use crate::record::Record;
use crate::stand_ins::{self, StandIns};

const ROOT_2: f64 = std::f64::consts::SQRT_2;

/// Any f64: odd ones, any bits, ordinary ones.
fn any(random: &mut Random) -> f64 {
    match random.below(4) {
        0 | 1 => random.odd_number(),
        2 => random.any_number(),
        _ => random.between(-1000.0, 1000.0),
    }
}

/// Any f64, NaN among them.
fn any_or_nan(random: &mut Random) -> f64 {
    match random.below(12) {
        0 => f64::NAN,
        _ => any(random),
    }
}

pub fn finite(random: &mut Random) -> Record {
    let x = any_or_nan(random);
    Record::new(1).float(x).flag(x.is_finite())
}

/// A number about `step` away from p, on the border or beside it.
fn about_away(random: &mut Random, p: f64, step: f64) -> f64 {
    let q = p + random.pick(&[step, -step]);
    let q = random.near(q);
    random.near(q)
}

pub fn nearly_equal(random: &mut Random) -> Record {
    let epsilon = match random.below(6) {
        0 => random.pick(&[0.0, 1.0, f64::MIN_POSITIVE]),
        1 => random.magnitude(1e-12, 1.0),
        _ => random.pick(&[1e-10, 1e-6]),
    };
    let max_relative = random.pick(&[f64::EPSILON, f64::EPSILON, 1e-9]);
    let p = match random.below(6) {
        0 => any_or_nan(random),
        1 => 0.0,
        2 => random.magnitude(1e-12, 1e12),
        3 => random.pick(&[1.0, 20.0, 60.0, 2f64.powi(20)]),
        _ => random.between(-100.0, 100.0),
    };
    let q = match random.below(8) {
        0 => any_or_nan(random),
        1 => random.near(p),
        2 => -p,
        3 | 4 => about_away(random, p, epsilon),
        5 | 6 => about_away(random, p, p.abs() * max_relative),
        _ => p + random.between(-2.0, 2.0) * epsilon,
    };
    let (p, q) = if random.one_in(2) { (p, q) } else { (q, p) };
    let equal = approx::nearly_equal(p, q, epsilon, max_relative);
    Record::new(2).floats(&[p, q, epsilon, max_relative]).flag(equal)
}

pub fn max_zero(random: &mut Random) -> Record {
    let p = any_or_nan(random);
    Record::new(3).float(p).float(p.max_zero())
}

/// Without NaN, of which document 01 does not speak here.
pub fn min(random: &mut Random) -> Record {
    let p = any(random);
    let q = match random.below(4) {
        0 => random.near(p),
        1 => p,
        2 => -p,
        _ => any(random),
    };
    Record::new(4).floats(&[p, q]).float(p.min_first(q))
}

pub fn square(random: &mut Random) -> Record {
    let p = match random.below(3) {
        0 => any_or_nan(random),
        1 => random.pick(&[1.0, -1.0]) * random.magnitude(1e-170, 1e160),
        _ => random.between(-300.0, 300.0),
    };
    Record::new(5).float(p).float(p.square())
}

/// Items of one size, of all sizes, or such that cancel; infinite ones and NaN seldom.
fn items(random: &mut Random) -> Vec<f64> {
    let count = match random.below(4) {
        0 => random.below(4),
        _ => random.below(65),
    };
    let style = random.below(16);
    let mut items: Vec<f64> = Vec::new();
    for _ in 0..count {
        let last = items.last().copied().unwrap_or(1.0);
        items.push(match style {
            0..=5 => random.between(-100.0, 100.0),
            6..=8 => random.pick(&[1.0, -1.0]) * random.magnitude(1e-20, 1e20),
            9..=11 if random.one_in(2) => -last,
            9..=11 => random.between(-1.0, 1.0) * 2f64.powi(random.below(120) as i32),
            12 => random.pick(&[0.0, -0.0, f64::from_bits(1), f64::MIN_POSITIVE, 1e-310]),
            13 => random.pick(&[1.0, -1.0]) * random.magnitude(1e300, 1.7e308),
            14 => any_or_nan(random),
            _ => any(random),
        });
    }
    items
}

pub fn sum2(random: &mut Random) -> Record {
    let items = items(random);
    Record::new(6).counted(&items).float(judge::sum2(&items))
}

fn power_of_two(random: &mut Random) -> f64 {
    2f64.powi(random.below(2098) as i32 - 1074)
}

pub fn ln(random: &mut Random) -> Record {
    let x = match random.below(10) {
        0 => any_or_nan(random),
        1 | 2 => {
            let x = ROOT_2 * power_of_two(random);
            random.near(x)
        }
        3 => power_of_two(random),
        4 => {
            let x = power_of_two(random);
            random.near(x)
        }
        5 => f64::from_bits(random.below(1 << 63)),
        6 => random.magnitude(1e-300, 1e300),
        _ => random.magnitude(1e-3, 1e9),
    };
    Record::new(7).float(x).optional(stand_ins::ln(x))
}

pub fn truncate(random: &mut Random) -> Record {
    let x = match random.below(8) {
        0 => any_or_nan(random),
        1 => {
            let x = random.below(1_000_000) as f64;
            random.near(x)
        }
        2 | 3 => {
            let x = random.magnitude(2f64.powi(51), 2f64.powi(66));
            random.near(x)
        }
        4 => {
            let x = 2f64.powi(50 + random.below(17) as i32);
            random.near(x)
        }
        5 => random.between(0.0, 24.0) * 3600.0 / random.pick(&[0.1, 20.0, 60.0, 3600.0]),
        6 => random.between(-2.0, 2.0),
        _ => random.magnitude(1e-3, 1e20),
    };
    Record::new(8).float(x).word(x as usize as u64)
}
