//! What is compared: the library and the referee. The variable HEAT_BATTERY_FAULT puts a fault
//! in, to show that it is found: `referee` in the referee's steps, a name of `oracle::faults` in
//! the library, whose place the oracle's own entries then take.

use entries::Linked;
use oracle::auditor::Fields;
use oracle::entries::Step;
use oracle::faults::Faulty;
use oracle::library::Library;
use oracle::model::{Answer, Battery, Call};
use oracle::own::{Record, Shown};
use oracle::plain;
use std::sync::LazyLock;

static FAULT: LazyLock<Option<String>> = LazyLock::new(|| std::env::var("HEAT_BATTERY_FAULT").ok());

const IN_REFEREE: &str = "referee";

pub enum Tested {
    Linked,
    Faulty(Faulty),
}

pub fn library() -> Tested {
    match FAULT.as_deref() {
        None | Some("" | IN_REFEREE) => Tested::Linked,
        Some(name) => Tested::Faulty(Faulty::named(name)),
    }
}

impl Library for Tested {
    fn open(&self, version: u8, card: &[u8], record: &mut [u8], sheet: &mut [u8]) -> u8 {
        match self {
            Tested::Linked => Linked.open(version, card, record, sheet),
            Tested::Faulty(faulty) => faulty.open(version, card, record, sheet),
        }
    }

    fn call(&self, version: u8, record: &mut [u8], call: &[u8], sheet: &mut [u8]) -> u8 {
        match self {
            Tested::Linked => Linked.call(version, record, call, sheet),
            Tested::Faulty(faulty) => faulty.call(version, record, call, sheet),
        }
    }

    fn audit(&self, sheet: &[u8]) -> u64 {
        match self {
            Tested::Linked => Linked.audit(sheet),
            Tested::Faulty(faulty) => faulty.audit(sheet),
        }
    }

    fn audit_whole(&self, sheet: &[u8]) -> Fields {
        match self {
            Tested::Linked => Linked.audit_whole(sheet),
            Tested::Faulty(faulty) => faulty.audit_whole(sheet),
        }
    }
}

/// The library's call on the caller's own record.
pub fn advance(version: u8, record: &mut Record, call: &[u8]) -> Shown {
    if let Tested::Faulty(faulty) = library() {
        return faulty.advance(version, record, call);
    }
    const { assert!(size_of::<Record>() == size_of::<heat_battery_sys::Battery>()) };
    // SAFETY: both are the header's struct heat_battery, of whole numbers and floats.
    let battery = unsafe { &mut *std::ptr::from_mut(record).cast() };
    let shown = heat_battery_sys::advance(version, battery, call);
    let heat_battery_sys::Shown { refusal, mark, substeps, energy, outlet, time } = shown;
    Shown { refusal, mark, substeps, energy, outlet, time }
}

/// The referee's steps.
pub fn referee() -> Step {
    match FAULT.as_deref() {
        Some(IN_REFEREE) => wrong,
        _ => plain::step,
    }
}

/// The plain steps with 23 in the place of 24.
fn wrong(version: u8, battery: &Battery, call: &Call) -> (Answer, Battery) {
    let (mut answer, after) = plain::step(version, battery, call);
    if answer.refusal == 24 {
        answer.refusal = 23;
    }
    (answer, after)
}
