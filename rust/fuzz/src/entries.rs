//! The target of heat_battery_open, heat_battery_call and heat_battery_advance: an opening, then
//! a list of calls, each on bytes and on the caller's own record.

use crate::change;
use crate::input::{filled, Input};
use crate::tested;
use oracle::compare::{check_advance, check_call, check_open, Report};
use oracle::generate::points_card;
use oracle::own::Record;
use oracle::random::Random;
use oracle::raw::{Calling, Known, Opening};
use oracle::sheet;

pub fn check(bytes: &[u8], report: &mut Report) {
    let input = Input::read(bytes);
    let (library, step, version) = (tested::library(), tested::referee(), input.version);
    let opening = Opening {
        version,
        card: input.card.clone(),
        record: filled(input.record),
        sheet: filled(input.room),
        known: Known::Nothing,
    };
    check_open(&library, &opening, report);
    let mut battery = change::battery(version, &input.card);
    let calls = change::affordable(&input);
    for called in input.calls.into_iter().take(calls) {
        let handed_in = !called.record.is_empty();
        let left = || sheet::battery_bytes(version, &battery);
        let record = if handed_in { called.record } else { left() };
        let count = u8::try_from(called.count).unwrap_or(u8::MAX);
        let own = own(version, &record, count);
        check_advance(tested::advance, step, version, &own, &called.call, report);
        let sheet = filled(called.room);
        let calling = Calling { version, record, call: called.call, sheet, known: Known::Nothing };
        battery = check_call(&library, step, &calling, report).unwrap_or(battery);
    }
}

/// The caller's own record of a record's bytes, with a count where it isn't 0.
fn own(version: u8, bytes: &[u8], count: u8) -> Record {
    let mut record = Record::of_bytes(version, bytes);
    if count != 0 {
        record.count = count;
    }
    record
}

/// Some changes are libFuzzer's own on all bytes.
pub fn mutate(random: &mut Random, bytes: &[u8], most: usize) -> Vec<u8> {
    if random.one_in(4) {
        return crate::mutated(bytes, most);
    }
    let mut input = Input::read(bytes);
    if input.card.is_empty() {
        input.card = sheet::card_bytes(input.version, &points_card());
    }
    for _ in 0..1 + random.below(3) {
        change::input(random, &mut input);
    }
    input.bytes()
}
