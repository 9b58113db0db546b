//! The target of both C audits: the input is a sheet. Most changes take it apart and write
//! it anew, so that its lines agree, and damage it in one place or not at all.

use crate::change;
use crate::input::Input;
use crate::tested;
use oracle::compare::{check_sheet, Report};
use oracle::damage::{self, Known, Sheet};
use oracle::entries;
use oracle::generate;
use oracle::model::{is_known, VERSIONS};
use oracle::random::Random;
use oracle::sheet;

pub fn check(bytes: &[u8], report: &mut Report) {
    let input = apart(bytes);
    if input.calls.len() > change::affordable(&input) {
        return;
    }
    let sheet = Sheet { what: "a sheet", bytes: bytes.to_vec(), known: Known::From(0) };
    check_sheet(&tested::library(), tested::referee(), &sheet, report);
}

/// Version, card and calls of a sheet, as far as its lines have a kind and a length.
fn apart(sheet: &[u8]) -> Input {
    let version = sheet.first().copied().unwrap_or(0);
    let rest = sheet.get(3..).unwrap_or_default();
    let (card, mut lines) =
        rest.split_at(sheet::card_in_front(version, rest).map_or(rest.len(), <[u8]>::len));
    let layers = card.first().copied().unwrap_or(1);
    let mut input = Input { version, card: card.to_vec(), record: 0, room: 0, calls: Vec::new() };
    while let Some(length) = lines.get(2).and_then(|kind| sheet::call_length(version, *kind)) {
        let Some(call) = lines.get(2..2 + length) else { break };
        input.calls.push(change::called(call.to_vec(), layers));
        lines = lines.get(2 + length + sheet::answer_length(layers)..).unwrap_or_default();
    }
    input
}

/// The sheet that the referee writes, for an unknown version the oldest one's; calls that it refuses
/// with 10 have no line.
fn written(input: &Input) -> Vec<u8> {
    let version = if is_known(input.version) { input.version } else { VERSIONS[0] };
    let battery = change::battery(version, &input.card);
    let mut record = sheet::battery_bytes(version, &battery);
    let mut bytes = sheet::opening(version, &battery.card);
    for called in input.calls.iter().take(change::affordable(input)) {
        let used = bytes.len();
        bytes.resize(used + sheet::line_length(&called.call, battery.card.layers), 0);
        let result = entries::call(version, &mut record, &called.call, &mut bytes[used..]);
        if result == 10 || result == 11 {
            bytes.truncate(used);
        }
    }
    bytes
}

/// Some changes are libFuzzer's own on all bytes.
pub fn mutate(random: &mut Random, bytes: &[u8], most: usize) -> Vec<u8> {
    let way = random.below(8);
    if way < 2 {
        return crate::mutated(bytes, most);
    }
    let mut input = apart(bytes);
    match way {
        2 => change::card(random, input.version, &mut input.card),
        3 => change::turn(&mut input, generate::version(random)),
        _ => change::one_call(random, &mut input),
    }
    let sheet = written(&input);
    match random.below(3) {
        0 => damage::damaged(random, &sheet).map_or(sheet, |damaged| damaged.bytes),
        1 => crate::mutated(&sheet, most),
        _ => sheet,
    }
}
