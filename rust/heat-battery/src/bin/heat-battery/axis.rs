//! An axis: its ends, its ticks and their labels.

/// About how many ticks an axis has, and at most.
const MOST_TICKS: usize = 24;
/// Numbers beyond this are not drawn.
const FARTHEST: f64 = 1e100;

pub struct Axis {
    pub low: f64,
    pub high: f64,
    step: f64,
}

/// Whether a number has a place in a picture.
pub fn is_drawable(x: f64) -> bool {
    x.abs() <= FARTHEST
}

impl Axis {
    /// An axis for the numbers that can be drawn, its ends on ticks.
    pub fn new(numbers: impl Iterator<Item = f64>, ticks: usize) -> Axis {
        let start = (f64::INFINITY, f64::NEG_INFINITY);
        let (mut low, mut high) = numbers
            .filter(|x| is_drawable(*x))
            .fold(start, |(low, high), x| (low.min(x), high.max(x)));
        if low > high {
            (low, high) = (0.0, 1.0);
        }
        let room = low.abs().max(high.abs()).max(1.0) * 1e-9;
        if high - low < room {
            (low, high) = (low - 1.0f64.max(room), high + 1.0f64.max(room));
        }
        let step = nice_step((high - low) / ticks as f64);
        Axis { low: (low / step).floor() * step, high: (high / step).ceil() * step, step }
    }

    /// An axis over hours, with ticks that divide days.
    pub fn hours(low: f64, high: f64, ticks: usize) -> Axis {
        let least = (high - low) / ticks as f64;
        let step = [1.0, 2.0, 3.0, 6.0, 12.0, 24.0].into_iter().find(|step| *step >= least);
        let step = match step {
            Some(step) if least > 0.5 => step,
            Some(_) => nice_step(least),
            None => nice_step(least / 24.0) * 24.0,
        };
        Axis { low, high, step }
    }

    /// An axis from one whole number to another.
    pub fn whole(low: f64, high: f64, ticks: usize) -> Axis {
        let high = high.max(low + 1.0);
        let step = nice_step((high - low) / ticks as f64).max(1.0);
        Axis { low, high, step }
    }

    /// Where a number lies between the ends, 0 to 1.
    pub fn place(&self, x: f64) -> f64 {
        (x - self.low) / (self.high - self.low)
    }

    /// Ticks with their labels.
    pub fn ticks(&self) -> Vec<(f64, String)> {
        let first = (self.low / self.step).ceil();
        let ticks = (0..MOST_TICKS).map(|at| (first + at as f64) * self.step);
        let last = self.high + self.step * 1e-6;
        ticks.take_while(|x| *x <= last).map(|x| (x, self.label(x))).collect()
    }

    fn label(&self, x: f64) -> String {
        let size = self.low.abs().max(self.high.abs());
        if size >= 1e6 || self.step < 1e-6 {
            return format!("{x:.2e}");
        }
        let decimals = (-self.step.log10().floor()).max(0.0) as usize;
        let text = format!("{:.decimals$}", x + 0.0);
        // A rounded zero has no sign.
        match text.trim_start_matches('-').trim_matches(['0', '.']).is_empty() {
            true => text.trim_start_matches('-').into(),
            false => text.replace('-', "\u{2212}"),
        }
    }
}

/// 1, 2 or 5 times a power of ten, not below `least`.
fn nice_step(least: f64) -> f64 {
    let power = 10f64.powf(least.log10().floor());
    let factor = [1.0, 2.0, 5.0].into_iter().find(|factor| factor * power >= least * (1.0 - 1e-9));
    factor.unwrap_or(10.0) * power
}
