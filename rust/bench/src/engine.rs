//! Our engine: its C entries as they stand, and the Rust crate over them.

use heat_battery::{ffi, Record, Version};
use oracle::model::{Battery, Call, Card};
use oracle::sheet;
use std::sync::OnceLock;

/// The version that the rows run in: the first one, whose answers are the published Rust's alone, or
/// the one that the variable BENCH_VERSION names.
pub fn version() -> Version {
    static ASKED: OnceLock<Version> = OnceLock::new();
    *ASKED.get_or_init(|| match std::env::var("BENCH_VERSION") {
        Ok(number) => {
            let known = number.parse().ok().and_then(Version::from_number);
            known.unwrap_or_else(|| panic!("BENCH_VERSION is one of {}", Version::known()))
        }
        Err(_) => Version::One,
    })
}

/// That version, or with a floor the first that has one, if it is later.
pub fn version_with(floor: bool) -> Version {
    match floor {
        true => version().max(Version::Four),
        false => version(),
    }
}

fn calls_bytes(version: Version, calls: &[Call]) -> Vec<Vec<u8>> {
    calls.iter().map(|call| sheet::call_bytes(version.number(), call)).collect()
}

/// A battery and a list of calls, on the caller's own record, by heat_battery_advance. It begins a cache
/// line, wherever it is put: across two, a call with one substep took up to a tenth longer.
#[repr(align(64))]
pub struct Engine {
    version: u8,
    battery: ffi::Battery,
    zones: Vec<f64>,
    totals: [f64; 5],
    calls: Vec<Vec<u8>>,
}

impl Engine {
    pub fn new(version: Version, battery: &Battery, calls: &[Call]) -> Self {
        let card = &battery.card;
        let zones = battery.state.zones.clone();
        let totals = battery.state.totals.numbers();
        let battery = ffi::Battery {
            card: ffi::Card {
                layers: card.layers,
                units: card.units,
                simultaneous: card.simultaneous,
                budget: card.budget,
                numbers: card.numbers(),
            },
            zones: [0.0; heat_battery::MOST_LAYERS],
            count: card.layers,
            totals,
            services: 0,
            numbers: [0; ffi::MOST_SERVICES],
            classes: [0; ffi::MOST_SERVICES],
            floor: card.floor,
        };
        let calls = calls_bytes(version, calls);
        Engine { version: version.number(), battery, zones, totals, calls }
    }

    /// The list, the state written back first: the sum of energies, refusals and the first zone, and the substeps.
    pub fn list(&mut self) -> (f64, u64) {
        let (mut sum, mut substeps) = (0.0, 0);
        self.battery.zones[..self.zones.len()].copy_from_slice(&self.zones);
        self.battery.totals = self.totals;
        for call in &self.calls {
            let shown = ffi::advance(self.version, &mut self.battery, call);
            sum = sum + shown.energy + f64::from(shown.refusal);
            substeps += u64::from(shown.substeps);
        }
        (sum + self.battery.zones[0], substeps)
    }
}

/// The same by the crate's types, also at the start of a cache line.
#[repr(align(64))]
pub struct Crate {
    start: Record,
    record: Record,
    calls: Vec<heat_battery::Call>,
}

impl Crate {
    pub fn new(version: Version, battery: &Battery, calls: &[Call]) -> Self {
        let bytes = sheet::battery_bytes(version.number(), battery);
        let start = heat_battery::Battery::from_bytes(version, &bytes).expect("a good battery");
        let read = |call: &Vec<u8>| heat_battery::Call::from_bytes(version, call).expect("a call");
        let start = Record::from(&start);
        let calls = calls_bytes(version, calls).iter().map(read).collect();
        Crate { record: start.clone(), start, calls }
    }

    /// The sum of figures, refusals and the first zone, from the record as it was at first.
    pub fn list(&mut self) -> f64 {
        let mut sum = 0.0;
        self.record.clone_from(&self.start);
        for call in &self.calls {
            sum += match self.record.advance(call) {
                Ok(answer) => answer.figure(),
                Err(refusal) => f64::from(refusal.number()),
            };
        }
        sum + self.record.zones()[0]
    }
}

/// A list of calls from a fresh battery, on bytes, with its sheet.
pub struct Day {
    version: u8,
    card: Vec<u8>,
    calls: Vec<Vec<u8>>,
    record: Vec<u8>,
    pub sheet: Vec<u8>,
}

impl Day {
    pub fn new(card: &Card, calls: &[Call]) -> Self {
        let (version, calls) = (version().number(), calls_bytes(version(), calls));
        let lines: usize = calls.iter().map(|call| sheet::line_length(call, card.layers)).sum();
        let card = sheet::card_bytes(version, card);
        let record = vec![0; sheet::record_length(&card)];
        let sheet = vec![0; sheet::opening_length(&card) + lines];
        Day { version, card, calls, record, sheet }
    }

    pub fn lines(&self) -> usize {
        self.calls.len()
    }

    /// Opens the sheet and writes every line: the last result.
    pub fn write(&mut self) -> u8 {
        let Day { version, card, calls, record, sheet } = self;
        let answer = record.len() - card.len() + sheet::ANSWER_HEAD_BYTES;
        let mut result = ffi::open(*version, card, record, sheet);
        let mut free = &mut sheet[sheet::opening_length(card)..];
        for call in calls.iter() {
            result = ffi::call(*version, record, call, free);
            free = &mut free[2 + call.len() + answer..];
        }
        result
    }

    /// The audit's verdict on the sheet.
    pub fn audit(&self) -> u64 {
        ffi::audit(&self.sheet)
    }
}
