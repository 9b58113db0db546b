//! Changes of an input that know its parts: fields on the edges of their ranges, drawn calls and
//! records, room that just fits; and libFuzzer's own changes within one part.

use crate::input::{Called, Input, MOST_CALLS};
use oracle::fields;
use oracle::generate;
use oracle::model::{has_floor_flag, is_known, lists_services, Battery, Card, Services};
use oracle::plain;
use oracle::random::Random;
use oracle::ranges;
use oracle::reading;
use oracle::sheet::{self, CARD_BYTES};

/// The most zones times substeps that an input may call for, so that none takes long.
const MOST_WORK: usize = 4_000_000;

/// How many calls a list of that card may have, at least one.
fn calls_of(card: &[u8]) -> usize {
    let work = match card {
        [layers, _, _, _, high, low, ..] => {
            usize::from(*layers) * usize::from(u16::from_be_bytes([*high, *low]))
        }
        _ => 0,
    };
    (MOST_WORK / work.max(1)).max(1)
}

/// How many calls of an input are made: as few as its dearest card allows.
pub fn affordable(input: &Input) -> usize {
    let records = input.calls.iter().map(|called| called.record.as_slice());
    records.chain([input.card.as_slice()]).map(calls_of).min().unwrap_or(1)
}

/// The fresh battery of a card, or of one that is accepted.
pub fn battery(version: u8, card: &[u8]) -> Battery {
    let read = reading::card(version, card).filter(|card| plain::card_refusal(card) == 0);
    Battery::fresh(&read.unwrap_or_else(generate::points_card))
}

/// Another version, with card and demands as far as they can be laid out as it does.
pub fn turn(input: &mut Input, version: u8) {
    let before = input.version;
    input.version = version;
    if !is_known(before) || !is_known(version) {
        return;
    }
    if let Some(card) = reading::card(before, &input.card) {
        input.card = sheet::card_bytes(version, &card);
    }
    if lists_services(before) == lists_services(version) {
        return;
    }
    for called in &mut input.calls {
        let call = &mut called.call;
        if call.first() != Some(&1) || sheet::call_length(before, 1) != Some(call.len()) {
            continue;
        }
        match lists_services(version) {
            true => call.insert(1, 0),
            false => drop(call.remove(1)),
        }
    }
}

/// libFuzzer's own change of bytes, in their length.
fn in_place(bytes: &mut Vec<u8>) {
    let length = bytes.len();
    if length > 0 {
        *bytes = crate::mutated(bytes, length);
        bytes.resize(length, 0);
    }
}

/// Changes one field of a card, its services or its flag, or takes another card.
pub fn card(random: &mut Random, version: u8, card: &mut Vec<u8>) {
    match random.below(10) {
        0 => *card = sheet::card_bytes(version, &generate::card_of(random, version)),
        1 => *card = sheet::card_bytes(version, &generate::any_card_of(random, version)),
        2 => *card = crate::mutated(card, card.len() + 4),
        3 => in_place(card),
        4 | 5 if lists_services(version) => services(random, version, card),
        6 if has_floor_flag(version) => flag(random, version, card),
        7 if lists_services(version) => near_floor(random, version, card),
        _ if card.len() >= CARD_BYTES => {
            let at = random.below(19) as usize;
            fields::put_number(card, 6 + 8 * at, random.within(ranges::CARD[at]));
        }
        _ => card.resize(sheet::card_length(version, 0), 0),
    }
}

/// Takes another flag: most often the other of 0 and 1.
fn flag(random: &mut Random, version: u8, card: &mut Vec<u8>) {
    let whole = sheet::card_in_front(version, card).is_some_and(|front| front.len() == card.len());
    match card.last_mut() {
        Some(flag) if whole => {
            *flag = match random.below(4) {
                0 => generate::refused_floor(random),
                _ => u8::from(*flag == 0),
            }
        }
        _ => *card = sheet::card_bytes(version, &generate::card_of(random, version)),
    }
}

/// Takes salt, start and losses of another card, which often come to the floor.
fn near_floor(random: &mut Random, version: u8, card: &mut Vec<u8>) {
    let drawn = generate::card_of(random, version);
    let read = reading::card(version, card).unwrap_or(drawn);
    let taken = Card { layers: read.layers, services: read.services, floor: read.floor, ..drawn };
    *card = sheet::card_bytes(version, &taken);
}

/// Takes another list of services, or changes bytes of this one.
fn services(random: &mut Random, version: u8, card: &mut Vec<u8>) {
    let Some(read) = reading::card(version, card) else {
        *card = sheet::card_bytes(version, &generate::card_of(random, version));
        return;
    };
    let mut list = read.services.listed().to_vec();
    let count = list.len() as u64;
    let services = match random.below(6) {
        0 => generate::services(random),
        1 => generate::refused_services(random),
        _ if count == 0 => generate::services(random),
        which => {
            let at = random.below(count) as usize;
            match which {
                2 => drop(list.remove(at)),
                3 => list[at].class = random.pick(&[0, 1, 2, 3, 4, 255]),
                4 => list[at].number = list[at].number.wrapping_add(random.pick(&[1, 255, 65535])),
                _ => list.swap(at, random.below(count) as usize),
            }
            Services::new(&list)
        }
    };
    *card = sheet::card_bytes(version, &Card { services, ..read });
}

/// Changes one field of a call, or takes another call.
fn call(random: &mut Random, version: u8, call: &mut Vec<u8>, battery: &Battery) {
    let timestep = battery.card.timestep;
    let kind = call.first().copied().unwrap_or(0);
    let whole = sheet::call_length(version, kind) == Some(call.len());
    let numbers = fields::numbers(version, kind, timestep);
    match random.below(10) {
        0 => *call = drawn(random, version, battery),
        1 => *call = crate::mutated(call, call.len() + 2),
        2 if whole => fields::break_call(random, version, call, timestep),
        9 if whole && kind == 1 && lists_services(version) => service(random, call, battery),
        8 if whole && kind == 3 => equalize(random, call, battery.card.layers),
        3 | 4 => in_place(call),
        _ if whole && !numbers.is_empty() => {
            let (at, range) = random.pick(&numbers);
            if fields::mark(version, kind).is_some_and(|mark| mark + 1 == at) {
                call[at - 1] = 1;
            }
            fields::put_number(call, at, random.within(range));
        }
        _ => *call = drawn(random, version, battery),
    }
}

/// Another service of a demand: a listed one, or its bytes exchanged, or a neighbour.
fn service(random: &mut Random, call: &mut [u8], battery: &Battery) {
    let listed = battery.card.services.listed();
    match random.below(3) {
        0 => call.swap(1, 2),
        1 => call[2] = call[2].wrapping_add(1),
        _ if listed.is_empty() => call[1] ^= 1,
        _ => call[1..3].copy_from_slice(&random.pick(listed).number.to_be_bytes()),
    }
}

/// A hydronic charge's exchanger that brings the water to each zone's temperature.
fn equalize(random: &mut Random, call: &mut [u8], layers: u8) {
    let flow = fields::number_at(call, 17);
    fields::put_number(call, 41, 0.0);
    fields::put_number(call, 49, random.near(generate::equalizing_b(layers, flow)));
}

fn drawn(random: &mut Random, version: u8, battery: &Battery) -> Vec<u8> {
    sheet::call_bytes(version, &generate::next_call(random, version, battery))
}

/// Hands a record in, changes a number of the one handed in, or takes it back.
fn record(random: &mut Random, version: u8, record: &mut Vec<u8>, battery: &Battery) {
    let card = &battery.card;
    let front = sheet::card_in_front(version, record).map_or(record.len(), <[u8]>::len);
    match random.below(6) {
        0 => record.clear(),
        1 => *record = crate::mutated(record, record.len() + 2),
        2 => in_place(record),
        3 if lists_services(version) && random.one_in(2) => {
            let listing = match has_floor_flag(version) && random.one_in(2) {
                true => Card { floor: generate::refused_floor(random), ..*card },
                false => Card { services: generate::refused_services(random), ..*card },
            };
            *record = sheet::battery_bytes(version, &Battery::fresh(&listing));
        }
        _ if record.len() >= front + 8 => {
            let at = random.below((record.len() - front) as u64 / 8) as usize;
            let number = generate::any_zone(random, card);
            fields::put_number(record, front + 8 * at, number);
        }
        _ => *record = sheet::battery_bytes(version, &generate::battery(random, card)),
    }
}

/// Room that just fits, or nearly so, or any.
fn room(random: &mut Random, needed: usize) -> u16 {
    let room = match random.below(6) {
        0 => needed - 1,
        1 => needed + 1,
        2 => random.below(needed as u64 + 64) as usize,
        _ => needed,
    };
    room as u16
}

/// A call with room for its line.
pub fn called(call: Vec<u8>, layers: u8) -> Called {
    let mut called = Called { call, ..Called::default() };
    fit(&mut called, layers);
    called
}

/// Room for a call's line.
fn fit(called: &mut Called, layers: u8) {
    let layers = called.record.first().copied().unwrap_or(layers);
    called.room = sheet::line_length(&called.call, layers) as u16;
}

/// Lengths and room for a card and its calls.
fn fit_all(input: &mut Input) {
    let layers = input.card.first().copied().unwrap_or(1);
    input.record = sheet::record_length(&input.card) as u16;
    input.room = input.room.max(sheet::opening_length(&input.card) as u16);
    input.calls.iter_mut().for_each(|called| fit(called, layers));
}

/// Adds, repeats, removes, swaps or changes a call, or removes those without a kind.
pub fn one_call(random: &mut Random, input: &mut Input) {
    let version = input.version;
    let battery = battery(version, &input.card);
    let calls = &mut input.calls;
    let count = calls.len() as u64;
    if count == 0 || (calls.len() < MOST_CALLS && random.one_in(6)) {
        let at = random.below(count + 1) as usize;
        let new = called(drawn(random, version, &battery), battery.card.layers);
        calls.insert(at, new);
        return;
    }
    let at = random.below(count) as usize;
    match random.below(10) {
        0 => {
            calls.remove(at);
        }
        1 => calls.insert(at, calls[at].clone()),
        2 => calls.swap(at, random.below(count) as usize),
        3 => calls.retain(|called| !called.call.is_empty()),
        _ => {
            call(random, version, &mut calls[at].call, &battery);
            if !random.one_in(4) {
                fit(&mut calls[at], battery.card.layers);
            }
        }
    }
}

/// Changes the room, record or count that a call is lent.
fn one_lent(random: &mut Random, input: &mut Input) {
    let version = input.version;
    let battery = battery(version, &input.card);
    let count = input.calls.len() as u64;
    if count == 0 {
        return;
    }
    let called = &mut input.calls[random.below(count) as usize];
    match random.below(8) {
        0 | 1 => {
            let layers = called.record.first().copied().unwrap_or(battery.card.layers);
            called.room = room(random, sheet::line_length(&called.call, layers));
        }
        2 => called.count = random.pick(&[0, 0, 1, 2, 63, 64, 65, 255]),
        _ => {
            record(random, version, &mut called.record, &battery);
            fit(called, battery.card.layers);
        }
    }
}

/// A known version, or seldom another one.
fn version(random: &mut Random) -> u8 {
    match random.below(4) {
        0 => generate::unknown_version(random),
        _ => generate::version(random),
    }
}

/// One change of any part.
pub fn input(random: &mut Random, input: &mut Input) {
    match random.below(11) {
        10 => {
            turn(input, version(random));
            fit_all(input);
        }
        0 => {
            card(random, input.version, &mut input.card);
            fit_all(input);
        }
        1 => {
            input.record = room(random, sheet::record_length(&input.card));
            input.room = room(random, sheet::opening_length(&input.card));
        }
        2..=4 => one_lent(random, input),
        _ => one_call(random, input),
    }
}
