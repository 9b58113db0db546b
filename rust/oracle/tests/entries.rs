//! The independent entries: order of refusals, what is written, what stays.

use oracle::compare;
use oracle::entries;
use oracle::faults::{Faulty, IN_BOTH, IN_ENTRIES};
use oracle::fields::put_number;
use oracle::generate::points_card;
use oracle::model::{has_floor_flag, lists_services, Battery, Call, Card, Demand, VERSIONS};
#[cfg(published)]
use oracle::{judge, library::Independent};
use oracle::{plain, sheet};

const UNTOUCHED: u8 = 0xee;
const UNKNOWN: [u8; 4] = [0, VERSIONS[VERSIONS.len() - 1] + 1, 49, 255];

fn untouched(length: usize) -> Vec<u8> {
    vec![UNTOUCHED; length]
}

/// By how many bytes a card without services is longer than in version 1, and so its record and its
/// opening: a count, and a flag.
fn longer(version: u8) -> usize {
    usize::from(lists_services(version)) + usize::from(has_floor_flag(version))
}

/// By how many bytes a demand is longer, whose fields stand so much later.
fn later(version: u8) -> usize {
    usize::from(lists_services(version))
}

fn record(version: u8, card: &Card) -> Vec<u8> {
    sheet::battery_bytes(version, &Battery::fresh(card))
}

fn demand() -> Demand {
    Demand {
        service_type: 1,
        commit: 1,
        control_on: 1,
        required: 0.05,
        start: 0.0,
        return_temperature: Some(10.0),
    }
}

/// A version with this refusal, and unknown ones with 40.
fn and_unknown(version: u8, refusal: u8) -> impl Iterator<Item = (u8, u8)> {
    [(version, refusal)].into_iter().chain(UNKNOWN.map(|version| (version, 40)))
}

/// An opening that is refused, or for an unknown version with 40; no byte changes.
fn assert_open_refused(version: u8, card: &[u8], record_length: usize, room: usize, refusal: u8) {
    for (version, refusal) in and_unknown(version, refusal) {
        let (mut record, mut lent) = (untouched(record_length), untouched(room));
        assert_eq!(entries::open(version, card, &mut record, &mut lent), refusal);
        assert_eq!((record, lent), (untouched(record_length), untouched(room)));
    }
}

/// The same of a call.
fn assert_call_refused(version: u8, record: &[u8], bytes: &[u8], room: usize, refusal: u8) {
    for (version, refusal) in and_unknown(version, refusal) {
        let (mut after, mut lent) = (record.to_vec(), untouched(room));
        assert_eq!(entries::call(version, &mut after, bytes, &mut lent), refusal, "{bytes:?}");
        assert_eq!((&after[..], lent), (record, untouched(room)));
    }
}

// ---- Opening

#[test]
fn opening_writes_version_line_0_and_the_fresh_record() {
    let card = Card { layers: 2, ..points_card() };
    for version in VERSIONS {
        let (bytes, longer) = (sheet::card_bytes(version, &card), longer(version));
        let (mut record, mut lent) = (untouched(214 + longer), untouched(165 + longer));
        assert_eq!(entries::open(version, &bytes, &mut record, &mut lent), 0);
        assert_eq!(lent[..3], [version, 0, 158 + longer as u8]);
        assert_eq!(lent[3..161 + longer], bytes);
        assert_eq!(lent[161 + longer..], untouched(4));
        let (card, state) = record.split_at(158 + longer);
        assert_eq!(card, bytes);
        assert_eq!(state[..8], 60f64.to_be_bytes());
        assert_eq!(state[8..16], 60f64.to_be_bytes());
        assert_eq!(state[16..], [0; 40]);
    }
}

/// Where nothing else is wrong.
#[test]
fn an_unknown_version_is_40_and_changes_nothing() {
    let card = points_card();
    for (version, layout) in UNKNOWN.into_iter().flat_map(|v| VERSIONS.map(|known| (v, known))) {
        let bytes = sheet::card_bytes(layout, &card);
        let length = 206 + longer(layout);
        let (mut fresh, mut lent) = (untouched(length), untouched(165));
        assert_eq!(entries::open(version, &bytes, &mut fresh, &mut lent), 40);
        assert_eq!((fresh, &lent), (untouched(length), &untouched(165)));
        let mut after = record(layout, &card);
        assert_eq!(entries::call(version, &mut after, &[4], &mut lent), 40);
        assert_eq!((after, lent), (record(layout, &card), untouched(165)));
    }
}

#[test]
fn opening_refuses_in_order() {
    let card = points_card();
    for version in VERSIONS {
        let longer = longer(version);
        let refused = |card: &[u8], record_length, room, refusal| {
            assert_open_refused(version, card, record_length, room, refusal)
        };
        let bytes = |card: Card| sheet::card_bytes(version, &card);
        let good = bytes(card);
        refused(&good[..157 + longer], 0, 0, 1);
        refused(&[&good[..], &[0]].concat(), 206 + longer, 161 + longer, 1);
        refused(&[], 206, 161, 1);
        refused(&bytes(Card { layers: 65, ..card }), 718 + longer, 161 + longer, 1);
        refused(&bytes(Card { lower: 57.0, max: 20.0, ..card }), 0, 0, 2);
        refused(&bytes(Card { max: 20.0, reference: 20.0, ..card }), 0, 0, 3);
        refused(&bytes(Card { reference: 80.0, ..card }), 0, 0, 4);
        refused(&good, 205 + longer, 160 + longer, 10);
        refused(&good, 207 + longer, 161 + longer, 10);
        refused(&good, 206 + longer, 160 + longer, 11);
        refused(&good, 206 + longer, 0, 11);
    }
}

// ---- Calls

/// Document 01's closing line, with its length.
#[test]
fn closing_line_of_document_01() {
    let mut line = vec![0x00, 0x4f, 0x05];
    line.extend([0; 30]);
    line.extend([0x40, 0x4e, 0, 0, 0, 0, 0, 0]);
    line.extend([0; 40]);
    assert_eq!(line.len(), 81);
    for version in VERSIONS {
        let before = record(version, &points_card());
        let (mut after, mut lent) = (before.clone(), untouched(84));
        assert_eq!(entries::call(version, &mut after, &[5], &mut lent), 0);
        assert_eq!((&lent[..81], &lent[81..]), (&line[..], &untouched(3)[..]));
        assert_eq!(after, before);
    }
}

#[test]
fn an_answered_call_renews_the_record() {
    for version in VERSIONS {
        let (before, card) = (record(version, &points_card()), 158 + longer(version));
        let mut after = before.clone();
        let mut lent = untouched(81);
        assert_eq!(entries::call(version, &mut after, &[4], &mut lent), 0);
        assert_eq!(after[..card], before[..card]);
        assert_ne!(after[card..card + 8], before[card..card + 8]);
        assert_eq!(after[card..], lent[33..]);
    }
}

/// -0 is in range and stands on the line as it came.
#[test]
fn the_line_has_the_calls_own_bytes() {
    let call = Call::Demand(Demand { required: -0.0, ..demand() });
    for version in VERSIONS {
        let (bytes, later) = (sheet::call_bytes(version, &call), later(version));
        let mut lent = untouched(109 + later);
        let mut record = record(version, &points_card());
        assert_eq!(entries::call(version, &mut record, &bytes, &mut lent), 0);
        assert_eq!(lent[2..31 + later], bytes);
    }
}

#[test]
fn a_refusal_line_leaves_the_record() {
    let refused = [
        (Demand { return_temperature: None, service_type: 0, ..demand() }, 20),
        (Demand { service_type: 0, ..demand() }, 21),
        (Demand { required: 1e6, ..demand() }, 22),
    ];
    for (fields, refusal) in refused {
        for version in VERSIONS {
            let before = record(version, &Card { budget: 1, ..points_card() });
            let bytes = sheet::call_bytes(version, &Call::Demand(fields));
            let later = later(version);
            let (mut after, mut lent) = (before.clone(), untouched(109 + later));
            assert_eq!(entries::call(version, &mut after, &bytes, &mut lent), refusal);
            assert_eq!(after, before);
            assert_eq!(lent[31 + later], refusal);
            assert_eq!(lent[32 + later..61 + later], [0; 29]);
            assert_eq!(lent[61 + later..], before[158 + longer(version)..]);
        }
    }
}

#[test]
fn room_is_tested_last_and_to_the_byte() {
    let call = Call::Demand(Demand { return_temperature: None, ..demand() });
    for version in VERSIONS {
        let (good, later) = (record(version, &points_card()), later(version));
        let refused = sheet::call_bytes(version, &call);
        assert_call_refused(version, &good, &refused, 108 + later, 11);
        assert_call_refused(version, &good, &[5], 80, 11);
        assert_call_refused(version, &good, &[5], 0, 11);
        assert_call_refused(version, &good, &[8], 0, 10);
        assert_call_refused(version, &good[..205 + longer(version)], &[5], 0, 10);
    }
}

#[test]
fn damaged_calls_are_10() {
    for version in VERSIONS {
        let (good, later) = (record(version, &points_card()), later(version));
        let refused = |bytes: &[u8]| assert_call_refused(version, &good, bytes, 900, 10);
        let bytes = sheet::call_bytes(version, &Call::Demand(demand()));
        for kind in [0, 8, 255] {
            refused(&[kind]);
        }
        refused(&[]);
        refused(&bytes[..28 + later]);
        refused(&[&bytes[..], &[0]].concat());
        for (at, byte) in [(2, 2), (3, 2), (20, 2), (20, 0)] {
            let mut damaged = bytes.clone();
            damaged[at + later] = byte;
            refused(&damaged);
        }
        let outside = [(4, 1e6f64.next_up()), (12, 1f64.next_up()), (12, -1e-300), (21, f64::NAN)];
        for (at, x) in outside {
            let mut damaged = bytes.clone();
            put_number(&mut damaged, at + later, x);
            refused(&damaged);
        }
        // A type above 3, in the one byte that it has.
        if !lists_services(version) {
            refused(&[&[1, 4], &bytes[2..]].concat());
        }
    }
}

#[test]
fn an_absent_number_has_zero_bytes() {
    let absent = Call::ChargeEnergyDemand { flow_maximum: None, target: 1.0 };
    for version in VERSIONS {
        let good = record(version, &points_card());
        let bytes = sheet::call_bytes(version, &absent);
        for at in 2..10 {
            for bit in 0..8 {
                let mut damaged = bytes.clone();
                damaged[at] = 1 << bit;
                assert_call_refused(version, &good, &damaged, 900, 10);
            }
        }
        assert_eq!(entries::call(version, &mut good.clone(), &bytes, &mut untouched(98)), 0);
    }
}

#[test]
fn damaged_records_are_10() {
    for version in VERSIONS {
        let (good, longer) = (record(version, &points_card()), longer(version));
        let refused = |record: &[u8]| assert_call_refused(version, record, &[5], 900, 10);
        for length in [0, 1, 157, 158, 198, 205] {
            refused(&good[..length]);
        }
        refused(&good[..205 + longer]);
        refused(&[&good[..], &[0]].concat());
        for at in (158..206).step_by(8) {
            for x in [f64::NAN, f64::INFINITY, f64::NEG_INFINITY] {
                let mut damaged = good.clone();
                put_number(&mut damaged, at + longer, x);
                refused(&damaged);
            }
        }
        let cards = [
            Card { power: 1000f64.next_up(), ..points_card() },
            Card { lower: 57.0, ..points_card() },
            Card { max: 20.0, ..points_card() },
            Card { reference: 80.0, ..points_card() },
        ];
        for card in cards {
            refused(&record(version, &card));
        }
        for floor in [2, 3, 16, 128, 255] {
            if has_floor_flag(version) {
                refused(&record(version, &Card { floor, ..points_card() }));
            }
        }
    }
}

// ---- Comparisons

#[cfg(published)]
#[test]
fn plain_and_judge_give_the_same_bytes() {
    let judged = Independent { step: judge::step };
    let report = compare::entries(&judged, plain::step, 40_000, 5);
    assert!(report.is_clean(), "{report}");
    for refusal in [0, 1, 2, 3, 4, 10, 11, 40, 61] {
        assert!(report.count("open", refusal) > 0, "open {refusal}");
    }
    for refusal in [0, 10, 11, 20, 21, 22, 23, 24, 25, 40] {
        assert!(report.count("call", refusal) > 0, "call {refusal}");
    }
}

/// Most with the first seed; one that shows in the last places alone may take more.
#[test]
fn a_comparison_finds_every_fault() {
    for (name, fault) in IN_ENTRIES.into_iter().chain(IN_BOTH) {
        let is_found = (7..15).any(|seed| {
            let report = compare::entries(&Faulty { fault }, plain::step, 10_000, seed);
            assert_eq!(report.surprises, 0, "{name}");
            report.disagreements > 0
        });
        assert!(is_found, "{name}");
    }
}
