//! Document 01's nearly equal, under the names of `approx`.

/// max_relative unless given: 2^-52.
pub const MAX_RELATIVE: f64 = f64::EPSILON;

pub fn nearly_equal(p: f64, q: f64, epsilon: f64, max_relative: f64) -> bool {
    if p == q {
        return true;
    }
    if !p.is_finite() || !q.is_finite() {
        return false;
    }
    let difference = (p - q).abs();
    let larger = if p.abs() > q.abs() { p.abs() } else { q.abs() };
    difference <= epsilon || difference <= larger * max_relative
}

#[macro_export]
macro_rules! relative_eq {
    ($p:expr, $q:expr, epsilon = $epsilon:expr $(,)?) => {
        $crate::nearly_equal($p, $q, $epsilon, $crate::MAX_RELATIVE)
    };
    ($p:expr, $q:expr, max_relative = $max_relative:expr, epsilon = $epsilon:expr $(,)?) => {
        $crate::nearly_equal($p, $q, $epsilon, $max_relative)
    };
}
