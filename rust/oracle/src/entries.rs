//! The entries of document 01's module 9 on byte slices, with document 02's version, written from
//! these alone. What is lent is changed only where an entry returns 0 or one of 20 to 25.

use crate::model::{is_known, Answer, Battery, Call};
use crate::plain;
use crate::reading;
use crate::sheet;

/// One call of the steps in a known version: the answer, and the battery that it leaves.
pub type Step = fn(u8, &Battery, &Call) -> (Answer, Battery);

/// The plain implementation's steps, and with the published file the judge's.
#[cfg(published)]
pub const STEPS: [Step; 2] = [plain::step, crate::judge::step];
#[cfg(not(published))]
pub const STEPS: [Step; 1] = [plain::step];

/// The judge's steps, or without the published file the plain ones.
pub const BEST: Step = STEPS[STEPS.len() - 1];

/// The steps by name.
pub fn steps(name: &str) -> Option<Step> {
    match name {
        "plain" => Some(plain::step),
        "judge" => STEPS.get(1).copied(),
        "best" => Some(BEST),
        _ => None,
    }
}

/// Writes version and line 0 to the front of the sheet, and the fresh battery.
pub fn open(version: u8, card: &[u8], record: &mut [u8], sheet: &mut [u8]) -> u8 {
    if !is_known(version) {
        return 40;
    }
    let Some(read) = reading::card(version, card) else {
        return 1;
    };
    let refusal = plain::card_refusal(&read);
    if refusal != 0 {
        return refusal;
    }
    let fresh = sheet::battery_bytes(version, &Battery::fresh(&read));
    if record.len() != fresh.len() {
        return 10;
    }
    if sheet.len() < sheet::opening_length(card) {
        return 11;
    }
    record.copy_from_slice(&fresh);
    put_in_front(sheet, &sheet::opening(version, &read));
    0
}

/// Writes the call's line to the front of the sheet and renews the battery, by the plain steps.
pub fn call(version: u8, record: &mut [u8], call: &[u8], sheet: &mut [u8]) -> u8 {
    call_by(plain::step, version, record, call, sheet)
}

/// `call` by the steps given.
pub fn call_by(step: Step, version: u8, record: &mut [u8], call: &[u8], sheet: &mut [u8]) -> u8 {
    if !is_known(version) {
        return 40;
    }
    let Some(battery) = reading::battery(version, record) else {
        return 10;
    };
    let Some(read) = reading::call(version, &battery.card, call) else {
        return 10;
    };
    if sheet.len() < sheet::line_length(call, battery.card.layers) {
        return 11;
    }
    let (answer, after) = step(version, &battery, &read);
    put_in_front(sheet, &sheet::line_with(call, &answer));
    record.copy_from_slice(&sheet::battery_bytes(version, &after));
    answer.refusal
}

fn put_in_front(sheet: &mut [u8], bytes: &[u8]) {
    sheet[..bytes.len()].copy_from_slice(bytes);
}
