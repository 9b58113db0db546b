//! Writes the inputs that a target starts from, drawn by the oracle.

use fuzz::change;
use fuzz::input::{Called, Input};
use oracle::arguments::{ended, Arguments};
use oracle::auditor::MOST_BYTES;
use oracle::damage;
use oracle::entries;
use oracle::generate;
use oracle::model::{is_known, Battery, Card};
use oracle::random::Random;
use oracle::raw::{self, Calling};
use oracle::reading;
use oracle::sheet;
use oracle::sheets;
use std::fs;
use std::path::Path;
use std::process::ExitCode;

const USAGE: &str = "usage: seeds entries|audit all|sound OUTDIR [--count N] [--seed S]";

/// The most calls of a list, and copies of a sheet.
const MOST: u64 = 6;

/// The battery that a call leaves.
fn after(version: u8, battery: Battery, calling: Calling) -> Battery {
    let Calling { mut record, call, mut sheet, .. } = calling;
    entries::call(version, &mut record, &call, &mut sheet);
    is_known(version).then(|| reading::battery(version, &record)).flatten().unwrap_or(battery)
}

/// An opening and calls of any sort.
fn any_list(random: &mut Random) -> Input {
    let opening = raw::opening(random);
    let version = opening.version;
    let mut input = Input {
        version,
        record: opening.record.len() as u16,
        room: opening.sheet.len() as u16,
        calls: Vec::new(),
        card: opening.card,
    };
    let mut battery = change::battery(version, &input.card);
    let mut left = sheet::battery_bytes(version, &battery);
    battery = generate::battery(random, &battery.card);
    for _ in 0..1 + random.below(MOST) {
        let calling = raw::calling(random, version, &battery);
        input.calls.push(Called {
            call: calling.call.clone(),
            room: calling.sheet.len() as u16,
            count: 0,
            record: if calling.record == left { Vec::new() } else { calling.record.clone() },
        });
        battery = after(version, battery, calling);
        left = sheet::battery_bytes(version, &battery);
    }
    input
}

/// An opening and calls, each in range and with room.
fn sound_list(random: &mut Random) -> Input {
    let version = generate::version(random);
    let card = sound_card(random, version);
    let mut calls = Vec::new();
    let battery = Battery::fresh(&card);
    for _ in 0..1 + random.below(MOST) {
        let call = sheet::call_bytes(version, &generate::next_call(random, version, &battery));
        calls.push(change::called(call, card.layers));
    }
    let card = sheet::card_bytes(version, &card);
    let (record, room) = (sheet::record_length(&card) as u16, sheet::opening_length(&card) as u16);
    Input { version, card, record, room, calls }
}

/// A card whose calls don't take long.
fn sound_card(random: &mut Random, version: u8) -> Card {
    let card = generate::card_of(random, version);
    Card { budget: card.budget.min(1000), ..card }
}

/// Sheets as written, and damaged copies.
fn any_sheets(random: &mut Random, count: u64) -> Vec<Vec<u8>> {
    let mut all: Vec<Vec<u8>> = sheets::all().into_iter().map(|named| named.bytes).collect();
    let wanted = all.len() + count as usize;
    while all.len() < wanted {
        let sheet = sound_sheet(random);
        for _ in 0..random.below(MOST) {
            all.extend(damage::damaged(random, &sheet).map(|damaged| damaged.bytes));
        }
        all.push(sheet);
    }
    all
}

/// A sheet as written; one in forty has nearly as many bytes as the audit takes.
fn sound_sheet(random: &mut Random) -> Vec<u8> {
    let version = generate::version(random);
    let card = sound_card(random, version);
    if random.one_in(40) {
        let card = Card { layers: 64, budget: card.budget.min(100), ..card };
        return damage::write(random, version, &card, 140, MOST_BYTES).bytes;
    }
    let calls = random.below(2 * MOST);
    damage::write(random, version, &card, calls, MOST_BYTES).bytes
}

fn run() -> Result<(), String> {
    let arguments = Arguments::read(std::env::args().skip(1))?;
    let count = arguments.number("--count", 400)?;
    let mut random = Random::new(arguments.number("--seed", 1)?);
    let random = &mut random;
    let (inputs, folder): (Vec<Vec<u8>>, &str) = match arguments.words()[..] {
        ["entries", "all", folder] => {
            ((0..count).map(|_| any_list(random).bytes()).collect(), folder)
        }
        ["entries", "sound", folder] => {
            ((0..count).map(|_| sound_list(random).bytes()).collect(), folder)
        }
        ["audit", "all", folder] => (any_sheets(random, count), folder),
        ["audit", "sound", folder] => ((0..count).map(|_| sound_sheet(random)).collect(), folder),
        _ => return Err(USAGE.to_string()),
    };
    fs::create_dir_all(folder).map_err(|error| format!("{folder}: {error}"))?;
    for (at, bytes) in inputs.iter().enumerate() {
        let path = Path::new(folder).join(format!("{at:04}"));
        fs::write(&path, bytes).map_err(|error| format!("{}: {error}", path.display()))?;
    }
    println!("{} inputs", inputs.len());
    Ok(())
}

fn main() -> ExitCode {
    ended(run())
}
