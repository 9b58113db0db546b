//! The auditor of document 01's module 8, with document 02's version, written from these alone. It
//! takes version and calls from the sheet, never an answer.

use crate::entries::Step;
use crate::model::{is_known, Answer, Battery, Call, Card};
use crate::plain;
use crate::reading;
use crate::sheet;
use std::fmt;

/// The most bytes that the program and the C audit take.
pub const MOST_BYTES: usize = 65_536;

#[derive(Clone, Copy, Debug, PartialEq, Eq)]
pub enum Verdict {
    /// The number of call lines.
    Accepted(u64),
    Refused {
        refusal: u8,
        line: u64,
    },
}

/// What the C audit of any length returns.
#[repr(C)]
#[derive(Clone, Copy, Debug, PartialEq, Eq)]
pub struct Fields {
    /// 0 for none.
    pub refusal: u8,
    /// The refused line's index, or the number of call lines.
    pub line: u64,
}

impl Verdict {
    pub fn refused(refusal: u8, line: u64) -> Self {
        Verdict::Refused { refusal, line }
    }

    /// The C audit's answer.
    pub fn word(&self) -> u64 {
        match *self {
            Verdict::Accepted(lines) => lines * 256,
            Verdict::Refused { refusal, line } => line * 256 + u64::from(refusal),
        }
    }

    /// The answer of the C audit of any length.
    pub fn fields(&self) -> Fields {
        match *self {
            Verdict::Accepted(line) => Fields { refusal: 0, line },
            Verdict::Refused { refusal, line } => Fields { refusal, line },
        }
    }

    /// The refusal, 0 for none.
    pub fn refusal(&self) -> u8 {
        self.fields().refusal
    }
}

/// What the audit program prints, without the newline.
impl fmt::Display for Verdict {
    fn fmt(&self, f: &mut fmt::Formatter<'_>) -> fmt::Result {
        match self {
            Verdict::Accepted(lines) => write!(f, "accepted {lines}"),
            Verdict::Refused { refusal, line } => write!(f, "refused {refusal} line {line}"),
        }
    }
}

/// The audit of any length, by the plain steps.
pub fn audit(sheet: &[u8]) -> Verdict {
    audit_by(plain::step, sheet)
}

/// The program's and the C audit: 44 first.
pub fn audit_limited(sheet: &[u8]) -> Verdict {
    limited(sheet, audit)
}

/// 44 for a sheet that is too long, else the verdict.
pub fn limited(sheet: &[u8], audit: impl FnOnce(&[u8]) -> Verdict) -> Verdict {
    if sheet.len() > MOST_BYTES {
        Verdict::refused(44, 0)
    } else {
        audit(sheet)
    }
}

/// `audit` by the steps given.
pub fn audit_by(step: Step, sheet: &[u8]) -> Verdict {
    let (version, lines) = match sheet.split_first() {
        Some((&version, lines)) if is_known(version) => (version, lines),
        _ => return Verdict::refused(40, 0),
    };
    match card_line(version, lines) {
        Some((card, lines)) => call_lines(step, version, Battery::fresh(&card), lines),
        None => Verdict::refused(41, 0),
    }
}

/// The content of the first line, and what follows it; None where it is cut short.
fn first_line(bytes: &[u8]) -> Option<(&[u8], &[u8])> {
    let (length, rest) = bytes.split_first_chunk::<2>()?;
    rest.split_at_checked(usize::from(u16::from_be_bytes(*length)))
}

fn card_line(version: u8, bytes: &[u8]) -> Option<(Card, &[u8])> {
    let (content, rest) = first_line(bytes)?;
    let card = reading::card(version, content)?;
    (plain::card_refusal(&card) == 0).then_some((card, rest))
}

/// A call line's call and answer; None where refusal 42 applies.
fn call_line(version: u8, card: &Card, content: &[u8]) -> Option<(Call, Answer)> {
    let length = sheet::call_length(version, *content.first()?)?;
    let (call, answer) = content.split_at_checked(length)?;
    Some((reading::call(version, card, call)?, reading::answer(card.layers, answer)?))
}

fn call_lines(step: Step, version: u8, mut battery: Battery, mut bytes: &[u8]) -> Verdict {
    let mut line = 0;
    while !bytes.is_empty() {
        line += 1;
        let Some((content, rest)) = first_line(bytes) else {
            return Verdict::refused(42, line);
        };
        let Some((call, shown)) = call_line(version, &battery.card, content) else {
            return Verdict::refused(42, line);
        };
        let (answer, after) = step(version, &battery, &call);
        if !agree(&answer, &shown) {
            return Verdict::refused(43, line);
        }
        (battery, bytes) = (after, rest);
    }
    Verdict::Accepted(line)
}

/// Numbers agree when f64 equality holds, which no NaN does.
fn agree(answer: &Answer, shown: &Answer) -> bool {
    answer.refusal == shown.refusal
        && answer.energy == shown.energy
        && answer.outlet == shown.outlet
        && answer.time == shown.time
        && answer.substeps == shown.substeps
        && answer.state.zones == shown.state.zones
        && answer.state.totals.numbers() == shown.state.totals.numbers()
}
