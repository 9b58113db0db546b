//! Demand that a battery didn't meet.

use crate::answer::{Answer, Line};
use crate::call::Call;
use std::fmt;

/// A demand that lacks no more than this is met, kWh.
pub const LEAST_SHORTFALL: f64 = 0.001;

/// What a committed demand lacks, kWh: required minus energy, where that is above
/// [`LEAST_SHORTFALL`]. A refused demand got nothing, so it lacks all that was required. A trial
/// and the other calls lack nothing.
///
/// ```
/// use heat_battery::{shortfall, Battery, Call, Card, Refusal, ServiceType};
///
/// let mut battery = Battery::open(&Card::example())?;
/// let demand = |required| Call::Demand {
///     service: ServiceType::Direct,
///     commit: true,
///     control_on: false,
///     required,
///     start: 0.0,
///     return_temperature: Some(10.0),
/// };
/// assert_eq!(shortfall(&demand(1.0), &battery.call(&demand(1.0))?), None);
/// let answer = battery.call(&demand(20.0))?;
/// assert_eq!(shortfall(&demand(20.0), &answer), Some(20.0 - answer.energy));
/// # Ok::<(), Refusal>(())
/// ```
pub fn shortfall(call: &Call, answer: &Answer) -> Option<f64> {
    match *call {
        Call::Demand { commit: true, required, .. } => {
            Some(required - answer.energy).filter(|lack| *lack > LEAST_SHORTFALL)
        }
        _ => None,
    }
}

impl Line {
    /// What the line's demand lacks, as [`shortfall`] has it.
    pub fn shortfall(&self) -> Option<f64> {
        shortfall(&self.call, &self.answer)
    }
}

/// The demands of some lines that weren't met.
#[derive(Clone, Copy, Debug, Default, PartialEq)]
pub struct Unmet {
    /// How many lines.
    pub lines: u64,
    /// What they lack together, kWh.
    pub energy: f64,
}

impl Unmet {
    /// Of the lines of a sheet.
    pub fn of<'a>(lines: impl IntoIterator<Item = &'a Line>) -> Unmet {
        let mut unmet = Unmet::default();
        for line in lines {
            unmet.add(line.shortfall());
        }
        unmet
    }

    /// Adds what one more line lacks.
    pub fn add(&mut self, shortfall: Option<f64>) {
        if let Some(lack) = shortfall {
            self.lines += 1;
            self.energy += lack;
        }
    }

    /// Whether every demand was met.
    pub fn is_none(&self) -> bool {
        self.lines == 0
    }
}

/// `demand unmet: 3 lines, 1.204 kWh`
impl fmt::Display for Unmet {
    fn fmt(&self, f: &mut fmt::Formatter<'_>) -> fmt::Result {
        let end = if self.lines == 1 { "" } else { "s" };
        write!(f, "demand unmet: {} line{end}, {:.3} kWh", self.lines, self.energy)
    }
}
