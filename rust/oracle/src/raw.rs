//! Random bytes for the entries: valid ones, every refusal, damaged ones, any room.

use crate::fields;
use crate::generate;
use crate::model::{has_floor_flag, lists_services, Battery, Card};
use crate::plain;
use crate::random::Random;
use crate::ranges;
use crate::sheet::{self, CARD_BYTES};

/// What is lent to `open`.
pub struct Opening {
    pub version: u8,
    pub card: Vec<u8>,
    pub record: Vec<u8>,
    pub sheet: Vec<u8>,
    /// What the making settles.
    pub known: Known,
}

/// What is lent to `call`.
pub struct Calling {
    pub version: u8,
    pub record: Vec<u8>,
    pub call: Vec<u8>,
    pub sheet: Vec<u8>,
    pub known: Known,
}

/// Which result the making of an input settles.
#[derive(Clone, Copy, Debug, PartialEq, Eq)]
pub enum Known {
    Nothing,
    /// 0, or for a call one of 20 to 25 as well.
    Line,
    Refusal(u8),
}

impl Known {
    pub fn allows(&self, result: u8) -> bool {
        match *self {
            Known::Nothing => true,
            Known::Line => result == 0 || (20..=25).contains(&result),
            Known::Refusal(refusal) => result == refusal,
        }
    }
}

pub fn garbage(random: &mut Random, length: usize) -> Vec<u8> {
    match random.below(4) {
        0 => vec![0; length],
        1 => vec![0xff; length],
        _ => (0..length).map(|_| random.word() as u8).collect(),
    }
}

/// Another length than `right`.
fn wrong_length(random: &mut Random, right: usize) -> usize {
    let any = random.below(900) as usize;
    let lengths = [right - 1, right + 1, right + 3, right + 8, right / 2, CARD_BYTES, 0, 1, any];
    match random.pick(&lengths) {
        length if length == right => right + 1,
        length => length,
    }
}

/// The same bytes, cut or continued.
fn resized(random: &mut Random, bytes: &[u8], length: usize) -> Vec<u8> {
    let kept = bytes.len().min(length);
    let mut resized = bytes[..kept].to_vec();
    resized.extend(garbage(random, length - kept));
    resized
}

/// Free bytes, from 0 to more than enough.
fn room(random: &mut Random, needed: usize) -> usize {
    match random.below(16) {
        0 => needed - 1,
        1 => random.below(needed as u64) as usize,
        2 => random.pick(&[0, 1, 2]),
        3..=8 => needed,
        9 => needed + 1,
        _ => needed + random.below(300) as usize,
    }
}

fn flip(random: &mut Random, bytes: &mut [u8]) {
    let at = random.below(bytes.len() as u64) as usize;
    bytes[at] ^= 1 << random.below(8);
}

/// A card that 1 to 4 refuse, or 61: with one number outside its range, a whole field, a relation, a
/// list of services, a flag, or more of these.
fn refused_card(random: &mut Random, version: u8) -> Card {
    loop {
        let mut card = generate::any_card_of(random, version);
        if random.one_in(2) {
            let at = random.below(19) as usize;
            *card.numbers_mut()[at] = fields::outside(random, ranges::CARD[at]);
        }
        if plain::card_refusal(&card) != 0 {
            return card;
        }
    }
}

/// An accepted card of a version but for its services, which 61 refuses.
fn badly_listed(random: &mut Random, version: u8) -> Card {
    let services = generate::refused_services(random);
    Card { services, ..generate::card_of(random, version) }
}

/// A card with a flag that 1 refuses, most often with nothing else wrong.
fn badly_flagged(random: &mut Random, version: u8) -> Card {
    let card = match random.below(4) {
        0 => badly_listed(random, version),
        1 => twice_refused(random, version),
        _ => generate::card_of(random, version),
    };
    Card { floor: generate::refused_floor(random), ..card }
}

/// A card whose services 61 refuses too, after 2, 3 or 4 for a relation of its fields.
fn twice_refused(random: &mut Random, version: u8) -> Card {
    let mut card = badly_listed(random, version);
    match random.below(4) {
        0 => card.lower = card.upper.next_up(),
        1 => card.max = random.pick(&[20.0, 19.0]),
        2 => card.reference = card.max,
        _ => card.reference = card.max.next_up(),
    }
    card
}

/// Another count than the list's, which then is of another length.
fn put_count(random: &mut Random, bytes: &mut [u8]) {
    let count = bytes[CARD_BYTES];
    let any = random.word() as u8;
    let other = random.pick(&[count.wrapping_add(1), count.wrapping_sub(1), 0, 32, 33, 255, any]);
    bytes[CARD_BYTES] = if other == count { !count } else { other };
}

/// A card's bytes, and which of 1 to 4 and 61 they get where that is known.
fn raw_card(random: &mut Random, version: u8) -> (Vec<u8>, Option<u8>) {
    let card = generate::card_of(random, version);
    let mut bytes = sheet::card_bytes(version, &card);
    match random.below(20) {
        0 => {
            let length = wrong_length(random, bytes.len());
            (resized(random, &bytes, length), Some(1))
        }
        1 => {
            let length = bytes.len();
            (garbage(random, length), None)
        }
        2 => {
            flip(random, &mut bytes);
            (bytes, None)
        }
        3..=6 => {
            let refused = refused_card(random, version);
            (sheet::card_bytes(version, &refused), Some(plain::card_refusal(&refused)))
        }
        7 if lists_services(version) => {
            put_count(random, &mut bytes);
            (bytes, Some(1))
        }
        8..=10 if lists_services(version) => {
            (sheet::card_bytes(version, &badly_listed(random, version)), Some(61))
        }
        11 if lists_services(version) => {
            let refused = twice_refused(random, version);
            (sheet::card_bytes(version, &refused), Some(plain::card_refusal(&refused)))
        }
        12 if has_floor_flag(version) => {
            (sheet::card_bytes(version, &badly_flagged(random, version)), Some(1))
        }
        13 if lists_services(version) => {
            // The same card laid out as in the other version with services.
            let other = if has_floor_flag(version) { version - 1 } else { version + 1 };
            (sheet::card_bytes(other, &card), Some(1))
        }
        _ => (bytes, Some(0)),
    }
}

/// The version, or in one of twelve cases an unknown one, and what is known then: 40, whatever else
/// is wrong. Seldom it is any known one.
fn raw_version(random: &mut Random, version: u8, known: Known) -> (u8, Known) {
    match random.below(24) {
        0 | 1 => (generate::unknown_version(random), Known::Refusal(40)),
        2 => (generate::version(random), Known::Nothing),
        _ => (version, known),
    }
}

pub fn opening(random: &mut Random) -> Opening {
    let version = generate::version(random);
    let (card, refusal) = raw_card(random, version);
    let (right, needed) = (sheet::record_length(&card), sheet::opening_length(&card));
    let length = if random.one_in(8) { wrong_length(random, right) } else { right };
    let room = room(random, needed);
    let known = match refusal {
        None => Known::Nothing,
        Some(0) if length != right => Known::Refusal(10),
        Some(0) if room < needed => Known::Refusal(11),
        Some(0) => Known::Line,
        Some(refusal) => Known::Refusal(refusal),
    };
    let (version, known) = raw_version(random, version, known);
    let (record, sheet) = (garbage(random, length), garbage(random, room));
    Opening { version, card, record, sheet, known }
}

/// Where the flag of a good record of version 4 stands.
fn flag_at(record: &[u8]) -> usize {
    sheet::card_length(4, record[CARD_BYTES]) - 1
}

/// A damaged record of a good battery, and whether 10 is certain.
fn damaged_record(random: &mut Random, version: u8, battery: &Battery) -> (Vec<u8>, bool) {
    let record = &sheet::battery_bytes(version, battery);
    let mut damaged = record.to_vec();
    match random.below(12) {
        0 => {
            let length = wrong_length(random, record.len());
            (resized(random, record, length), true)
        }
        1 => {
            damaged[0] = damaged[0].wrapping_add(random.pick(&[1, 255, 64, 200]));
            (damaged, true)
        }
        2 | 3 => {
            let card = match random.below(4) {
                0 | 1 if lists_services(version) => badly_listed(random, version),
                2 if has_floor_flag(version) => badly_flagged(random, version),
                _ => refused_card(random, version),
            };
            let mut damaged = sheet::card_bytes(version, &card);
            damaged.extend(vec![0; sheet::state_length(card.layers)]);
            (damaged, true)
        }
        4 | 5 => {
            let numbers = sheet::state_length(battery.card.layers) / 8;
            let at = record.len() - 8 * (1 + random.below(numbers as u64) as usize);
            fields::put_number(&mut damaged, at, fields::not_finite(random));
            (damaged, true)
        }
        6 => {
            flip(random, &mut damaged);
            (damaged, false)
        }
        7 if lists_services(version) => {
            put_count(random, &mut damaged);
            (damaged, true)
        }
        8 if lists_services(version) => {
            // The battery with another list.
            let services = generate::services(random);
            let card = Card { services, ..battery.card };
            let other = Battery { card, state: battery.state.clone() };
            (sheet::battery_bytes(version, &other), false)
        }
        9 | 11 if has_floor_flag(version) => {
            // The battery with another flag.
            let floor = random.pick(&[0, 1, 2, 2, 2, 16, 255]);
            damaged[flag_at(record)] = floor;
            (damaged, floor > 1)
        }
        10 if lists_services(version) => {
            // The battery with its card laid out as in the other version with services.
            let other = if has_floor_flag(version) { version - 1 } else { version + 1 };
            (sheet::battery_bytes(other, battery), true)
        }
        _ => (garbage(random, record.len()), false),
    }
}

/// A damaged call, and whether 10 is certain.
fn damaged_call(random: &mut Random, version: u8, call: &[u8], timestep: f64) -> (Vec<u8>, bool) {
    let mut damaged = call.to_vec();
    match random.below(8) {
        0 => {
            let length = wrong_length(random, call.len());
            (resized(random, call, length), true)
        }
        1 => {
            flip(random, &mut damaged);
            (damaged, false)
        }
        2 => {
            let kind = 1 + random.below(7) as u8;
            let length = sheet::call_length(version, kind).expect("a known kind");
            let mut damaged = garbage(random, length);
            damaged[0] = kind;
            (damaged, false)
        }
        3 => {
            let length = random.below(100) as usize;
            (garbage(random, length), false)
        }
        4 if call[0] == 1 => {
            // A demand with a type of the other width.
            match lists_services(version) {
                true => drop(damaged.remove(1)),
                false => damaged.insert(1, 0),
            }
            (damaged, true)
        }
        _ => {
            fields::break_call(random, version, &mut damaged, timestep);
            (damaged, true)
        }
    }
}

/// An input of `call` for a battery that is good, in a list of a version.
pub fn calling(random: &mut Random, version: u8, battery: &Battery) -> Calling {
    let record = sheet::battery_bytes(version, battery);
    let call = sheet::call_bytes(version, &generate::next_call(random, version, battery));
    let needed = sheet::line_length(&call, battery.card.layers);
    let free = room(random, needed);
    let (record, call, known) = match random.below(8) {
        0 => {
            let (record, certain) = damaged_record(random, version, battery);
            (record, call, if certain { Known::Refusal(10) } else { Known::Nothing })
        }
        1 => {
            let (call, certain) = damaged_call(random, version, &call, battery.card.timestep);
            (record, call, if certain { Known::Refusal(10) } else { Known::Nothing })
        }
        _ if free < needed => (record, call, Known::Refusal(11)),
        _ => (record, call, Known::Line),
    };
    let (version, known) = raw_version(random, version, known);
    Calling { version, record, call, sheet: garbage(random, free), known }
}
