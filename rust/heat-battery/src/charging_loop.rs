//! How long the pump of the charging loop ran.

use crate::answer::Line;
use crate::call::Call;
use crate::version::Version;
use std::fmt;

/// The answered hydronic charges of some lines. Their time is in none of the running totals.
///
/// ```
/// use heat_battery::{Call, Card, ChargingLoop, Refusal, Sheet};
///
/// let charge = "hydronic inlet=70 hours=0.25 flow=8 target=1 limit=4 hex_a=174 hex_b=-930 \
///               velocity=0.035 diameter=0.0065";
/// let charge: Call = charge.parse().unwrap();
/// let mut sheet = Sheet::open(&Card::example())?;
/// sheet.call(&charge)?;
/// sheet.call(&charge)?;
/// let lines: Vec<_> = sheet.lines().collect();
/// let pump = ChargingLoop::of(sheet.version(), &lines).unwrap();
/// assert_eq!((pump.lines, pump.hours()), (2, 0.5));
/// assert_eq!(sheet.battery().totals().pump_hours, 0.0);
/// # Ok::<(), Refusal>(())
/// ```
#[derive(Clone, Copy, Debug, Default, PartialEq)]
pub struct ChargingLoop {
    /// How many lines.
    pub lines: u64,
    /// Their times added in order, s.
    pub seconds: f64,
}

const HOUR: f64 = 3600.0;

impl ChargingLoop {
    /// Of the lines of a sheet; None where its version doesn't show the time.
    pub fn of<'a>(
        version: Version,
        lines: impl IntoIterator<Item = &'a Line>,
    ) -> Option<ChargingLoop> {
        let mut pump = ChargingLoop::default();
        for Line { call, answer, .. } in lines {
            if matches!(call, Call::Hydronic { .. }) && answer.refusal.is_none() {
                pump.lines += 1;
                pump.seconds += answer.time;
            }
        }
        version.shows_hydronic_time().then_some(pump)
    }

    /// How long the pump ran, h.
    pub fn hours(&self) -> f64 {
        self.seconds / HOUR
    }
}

/// `charging loop: 3 lines, 0.02229 h`
impl fmt::Display for ChargingLoop {
    fn fmt(&self, f: &mut fmt::Formatter<'_>) -> fmt::Result {
        let end = if self.lines == 1 { "" } else { "s" };
        write!(f, "charging loop: {} line{end}, {:.5} h", self.lines, self.hours())
    }
}
