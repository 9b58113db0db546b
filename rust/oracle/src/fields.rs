//! Where things stand in the bytes of a call and of a sheet, for those who damage them.

use crate::model::lists_services;
use crate::random::Random;
use crate::ranges::{self, Range};
use crate::sheet;

/// How much later a demand's fields stand than in version 1, its type aside.
fn later(version: u8) -> usize {
    usize::from(lists_services(version))
}

/// Places of a call's type and flags, each with its largest value. From version 3 on a type has none.
fn flags(version: u8, kind: u8) -> &'static [(usize, u8)] {
    match kind {
        1 if lists_services(version) => &[(3, 1), (4, 1)],
        1 => &[(1, 3), (2, 1), (3, 1)],
        _ => &[],
    }
}

/// The place of a call's mark; its number stands after it.
pub fn mark(version: u8, kind: u8) -> Option<usize> {
    match kind {
        1 => Some(20 + later(version)),
        7 => Some(1),
        _ => None,
    }
}

/// Places and ranges of a call's numbers, the one after the mark included.
pub fn numbers(version: u8, kind: u8, timestep: f64) -> Vec<(usize, Range)> {
    let later = later(version);
    match kind {
        1 => vec![
            (4 + later, ranges::REQUIRED),
            (12 + later, (0.0, timestep)),
            (21 + later, ranges::TEMPERATURE),
        ],
        2 => vec![(1, ranges::POWER), (9, ranges::FRACTION)],
        3 => (0..9).map(|at| (1 + 8 * at, HYDRONIC[at])).collect(),
        7 => vec![(2, ranges::TEMPERATURE), (10, ranges::FRACTION)],
        _ => Vec::new(),
    }
}

const HYDRONIC: [Range; 9] = [
    ranges::TEMPERATURE,
    ranges::HOURS,
    ranges::FLOW,
    ranges::FRACTION,
    ranges::LIMIT,
    ranges::EXCHANGER,
    ranges::EXCHANGER,
    ranges::VELOCITY,
    ranges::DIAMETER_IN_METRES,
];

pub fn number_at(bytes: &[u8], at: usize) -> f64 {
    let bytes = bytes[at..at + 8].try_into().expect("eight bytes");
    f64::from_bits(u64::from_be_bytes(bytes))
}

pub fn put_number(bytes: &mut [u8], at: usize, x: f64) {
    bytes[at..at + 8].copy_from_slice(&x.to_bits().to_be_bytes());
}

/// A NaN of either sign and any payload, or an infinity.
pub fn not_finite(random: &mut Random) -> f64 {
    let bits: u64 = match random.below(6) {
        0 => 0x7ff0000000000000,
        1 => 0x7ff8000000000000,
        2 => 0x7ff0000000000001,
        _ => 0x7ff0000000000000 | random.word() >> 12,
    };
    f64::from_bits(bits | random.below(2) << 63)
}

/// A number outside a range, most often by one unit in the last place.
pub fn outside(random: &mut Random, (low, high): Range) -> f64 {
    match random.below(6) {
        0 | 1 => low.next_down(),
        2 | 3 => high.next_up(),
        4 => not_finite(random),
        _ => random.pick(&[low - 1.0, high + 1.0, f64::MIN, f64::MAX]),
    }
}

/// A kind that is none of the seven.
pub fn unknown_kind(random: &mut Random) -> u8 {
    let any = 8 + random.below(248) as u8;
    random.pick(&[0, 8, 8, 9, 128, 255, any])
}

/// Breaks one field of a call that is in range, in its length: refusal 10, on a line 42.
pub fn break_call(random: &mut Random, version: u8, call: &mut [u8], timestep: f64) {
    let kind = call[0];
    let (flags, mark) = (flags(version, kind), mark(version, kind));
    let numbers = numbers(version, kind, timestep);
    match random.below(8) {
        0 | 1 if !flags.is_empty() => {
            let (at, largest) = random.pick(flags);
            call[at] = random.pick(&[largest + 1, largest + 1, 128, 255]);
        }
        2 | 3 if mark.is_some() => break_mark(random, call, mark.unwrap_or_default()),
        4..=6 if !numbers.is_empty() => {
            let (at, range) = random.pick(&numbers);
            if mark.is_some_and(|mark| mark + 1 == at) {
                call[at - 1] = 1;
            }
            put_number(call, at, outside(random, range));
        }
        _ => call[0] = unknown_kind(random),
    }
}

/// Another mark than 0 and 1, or nonzero bytes under mark 0: a sign, a bit or any number.
fn break_mark(random: &mut Random, call: &mut [u8], at: usize) {
    match random.below(4) {
        0 => call[at] = random.pick(&[2, 2, 128, 255]),
        1 => {
            call[at] = 0;
            put_number(call, at + 1, -0.0);
        }
        2 => {
            call[at] = 0;
            put_number(call, at + 1, 0.0);
            call[at + 1 + random.below(8) as usize] = 1 << random.below(8);
        }
        _ => {
            call[at] = 0;
            put_number(call, at + 1, random.between(1.0, 250.0));
        }
    }
}

/// The places of a call line in a sheet.
#[derive(Clone, Copy, Debug)]
pub struct Line {
    pub version: u8,
    /// 1 for the first call line.
    pub index: u64,
    /// Where its length stands.
    pub at: usize,
    pub kind: u8,
    pub layers: u8,
}

impl Line {
    pub fn call(&self) -> usize {
        self.at + 2
    }

    fn call_length(&self) -> usize {
        sheet::call_length(self.version, self.kind).expect("a known kind")
    }

    /// The bytes of a demand's type.
    pub fn service_type(&self) -> std::ops::Range<usize> {
        let at = self.call() + 1;
        at..at + 1 + later(self.version)
    }

    /// The commit flag of a demand.
    pub fn commit(&self) -> usize {
        self.service_type().end
    }

    /// The mark of a demand's return temperature.
    pub fn return_mark(&self) -> usize {
        self.commit() + 18
    }

    /// The first byte of the answer, its refusal.
    pub fn answer(&self) -> usize {
        self.call() + self.call_length()
    }

    /// The limit of a hydronic call.
    pub fn limit(&self) -> usize {
        self.call() + 33
    }

    pub fn call_bytes(&self) -> std::ops::Range<usize> {
        self.call()..self.answer()
    }

    pub fn energy(&self) -> usize {
        self.answer() + 1
    }

    pub fn outlet_mark(&self) -> usize {
        self.answer() + 9
    }

    pub fn outlet(&self) -> usize {
        self.answer() + 10
    }

    pub fn time(&self) -> usize {
        self.answer() + 18
    }

    pub fn substeps(&self) -> usize {
        self.answer() + 26
    }

    pub fn state(&self) -> usize {
        self.answer() + sheet::ANSWER_HEAD_BYTES
    }

    pub fn end(&self) -> usize {
        self.state() + sheet::state_length(self.layers)
    }

    pub fn whole(&self) -> std::ops::Range<usize> {
        self.at..self.end()
    }

    /// Energy, time, zones and totals: the numbers that every answer has.
    pub fn numbers(&self) -> Vec<usize> {
        let mut places = vec![self.energy(), self.time()];
        places.extend((self.state()..self.end()).step_by(8));
        places
    }
}

/// Where the call lines of a sheet begin, by the length of its line 0.
pub fn opening_end(sheet: &[u8]) -> usize {
    3 + usize::from(u16::from_be_bytes([sheet[1], sheet[2]]))
}

/// The call lines of an accepted sheet.
pub fn lines(sheet: &[u8]) -> Vec<Line> {
    let (version, layers) = (sheet[0], sheet[3]);
    let mut lines: Vec<Line> = Vec::new();
    let mut at = opening_end(sheet);
    while at < sheet.len() {
        let index = lines.len() as u64 + 1;
        let line = Line { version, index, at, kind: sheet[at + 2], layers };
        at = line.end();
        lines.push(line);
    }
    lines
}
