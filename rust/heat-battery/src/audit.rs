//! The audit, and what lies behind a refusal.

use crate::answer::{Answer, Line, Totals};
use crate::battery::Battery;
use crate::call::Call;
use crate::ffi;
use crate::reading::{read, Damage};
use crate::refusal::Refusal;
use std::fmt;

/// The most bytes of a sheet that the laboratory's audit program reads; see [`is_too_long`].
pub const MOST_AUDITED: usize = 65_536;

/// What the auditor says of a sheet.
#[derive(Clone, Copy, Debug, PartialEq, Eq)]
pub enum Verdict {
    /// The number of call lines; all of them agree with the steps.
    Accepted(u64),
    /// The refusal, 40 to 43, and the line it is for, 0 for the card's.
    Refused {
        /// 40 to 43.
        refusal: Refusal,
        /// The lowest line that is refused.
        line: u64,
    },
}

/// The line that the laboratory's audit program prints.
impl fmt::Display for Verdict {
    fn fmt(&self, f: &mut fmt::Formatter<'_>) -> fmt::Result {
        match self {
            Verdict::Accepted(lines) => write!(f, "accepted {lines}"),
            Verdict::Refused { refusal, line } => {
                write!(f, "refused {} line {line}", refusal.number())
            }
        }
    }
}

/// Audits a sheet of any length: its calls are made again on a fresh battery and every answer is
/// compared.
///
/// ```
/// use heat_battery::{audit, Refusal, Verdict};
///
/// assert_eq!(audit(&[1]), Verdict::Refused { refusal: Refusal::BadCard, line: 0 });
/// assert_eq!(audit(&[1]).to_string(), "refused 41 line 0");
/// ```
pub fn audit(sheet: &[u8]) -> Verdict {
    let ffi::Verdict { refusal, line } = ffi::audit_whole(sheet);
    match Refusal::from_number(refusal) {
        None => Verdict::Accepted(line),
        Some(refusal) => Verdict::Refused { refusal, line },
    }
}

/// Whether the laboratory's audit program refuses a sheet unread, with 44: it has more than
/// [`MOST_AUDITED`] bytes. C's `heat_battery_audit` does the same, [`audit`] has no such limit.
///
/// ```
/// use heat_battery::{audit, is_too_long, Call, Card, Refusal, Sheet, Verdict};
///
/// let mut sheet = Sheet::open(&Card::example())?;
/// for _ in 0..1000 {
///     sheet.call(&Call::StandingLoss)?;
/// }
/// assert_eq!(audit(sheet.as_bytes()), Verdict::Accepted(1000));
/// assert!(is_too_long(sheet.as_bytes()));
/// # Ok::<(), Refusal>(())
/// ```
pub fn is_too_long(sheet: &[u8]) -> bool {
    sheet.len() > MOST_AUDITED
}

/// A field of an answer that isn't what the steps give.
#[derive(Clone, Debug, PartialEq, Eq)]
pub struct Difference {
    /// Which field, with its unit.
    pub field: String,
    /// What the sheet says.
    pub shown: String,
    /// What the steps give.
    pub given: String,
}

/// What lies behind a verdict.
#[derive(Clone, Debug, PartialEq)]
pub enum Explanation {
    /// Nothing: layout, card and every line are as they should be.
    Agreement,
    /// The layout is left, or the card or a call is refused.
    Damage(Damage),
    /// A line's answer disagrees with the steps.
    Differences {
        /// The line, from 1.
        line: u64,
        /// Its call.
        call: Call,
        /// Each field that disagrees.
        fields: Vec<Difference>,
    },
}

/// Finds what the audit refuses a sheet for: the calls are made again through the entries, in the
/// sheet's own version, up to the line that disagrees, which is compared field by field.
pub fn explain(sheet: &[u8]) -> Explanation {
    match first_trouble(sheet) {
        Ok(None) => Explanation::Agreement,
        Ok(Some((line, call, fields))) => Explanation::Differences { line, call, fields },
        Err(damage) => Explanation::Damage(damage),
    }
}

type Disagreement = (u64, Call, Vec<Difference>);

fn first_trouble(sheet: &[u8]) -> Result<Option<Disagreement>, Damage> {
    let (version, card, lines) = read(sheet)?;
    let refused = |refusal: Refusal, line, kind| Damage {
        refusal: kind,
        line,
        words: format!("the entry refuses it with {refusal}"),
    };
    let mut battery = Battery::open_as(version, &card)
        .map_err(|refusal| refused(refusal, 0, Refusal::BadCard))?;
    for line in lines {
        let Line { index, call, answer } = line?;
        let given =
            battery.answer(&call).map_err(|refusal| refused(refusal, index, Refusal::BadLine))?;
        let fields = differences(&call, &answer, &given);
        if !fields.is_empty() {
            return Ok(Some((index, call, fields)));
        }
    }
    Ok(None)
}

/// Every field in which the answer to a call that is shown is not the one given, by f64 equality.
pub fn differences(call: &Call, shown: &Answer, given: &Answer) -> Vec<Difference> {
    let mut found = Found(Vec::new());
    found.compare("refusal", &refusal_number(shown), &refusal_number(given));
    found.number(figure_name(call), shown.figure(), given.figure());
    if shown.outlet != given.outlet {
        found.add("outlet, °C", optional(shown.outlet), optional(given.outlet));
    }
    found.number(time_name(call), shown.time, given.time);
    found.compare("substeps", &shown.substeps, &given.substeps);
    for (at, (shown, given)) in shown.zones.iter().zip(given.zones.iter()).enumerate() {
        found.number(&format!("zone {}, °C", at + 1), *shown, *given);
    }
    let totals = shown.totals.numbers().into_iter().zip(given.totals.numbers());
    for ((name, unit), (shown, given)) in Totals::NAMES.iter().zip(totals) {
        found.number(&format!("{name}, {unit}"), shown, given);
    }
    found.0
}

/// What the figure of an answer to a call is.
fn figure_name(call: &Call) -> &'static str {
    match call {
        Call::StateOfCharge => "state of charge",
        Call::ChargeEnergyDemand { .. } => "charge energy demand, kWh",
        Call::Demand { commit: false, .. } => "energy of the trial, kWh",
        _ => "energy, kWh",
    }
}

/// What the time of an answer to a call is.
fn time_name(call: &Call) -> &'static str {
    match call {
        Call::Hydronic { .. } => "time of the charging loop, s (0 in version 1)",
        _ => "time, s",
    }
}

fn refusal_number(answer: &Answer) -> u8 {
    answer.refusal.map_or(0, |refusal| refusal.number())
}

fn optional(x: Option<f64>) -> String {
    x.map_or("absent".into(), |x| format!("{x:?}"))
}

struct Found(Vec<Difference>);

impl Found {
    fn add(&mut self, field: &str, shown: String, given: String) {
        self.0.push(Difference { field: field.into(), shown, given });
    }

    fn compare<T: PartialEq + fmt::Display>(&mut self, field: &str, shown: &T, given: &T) {
        if shown != given {
            self.add(field, shown.to_string(), given.to_string());
        }
    }

    fn number(&mut self, field: &str, shown: f64, given: f64) {
        if shown != given {
            self.add(field, format!("{shown:?}"), format!("{given:?}"));
        }
    }
}
