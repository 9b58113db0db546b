//! The independent entry on the caller's own record.

use oracle::compare::{check_advance, Report};
use oracle::faults::{Faulty, IN_OWN};
use oracle::generate::{self, points_card};
use oracle::model::{has_floor_flag, lists_services, Battery, Card, VERSIONS};
use oracle::own::{self, Record, Shown};
use oracle::random::Random;
use oracle::raw::{self, Calling};
use oracle::{entries, plain, reading, sheet};

const CLOSE: [u8; 1] = [5];

type Advance = fn(u8, &mut Record, &[u8]) -> Shown;

fn advance(version: u8, record: &mut Record, call: &[u8]) -> Shown {
    own::advance(plain::step, version, record, call)
}

#[test]
fn as_the_entry_on_bytes() {
    let mut random = Random::new(11);
    for _ in 0..3000 {
        let version = generate::version(&mut random);
        let card = generate::card_of(&mut random, version);
        let battery = generate::battery(&mut random, &card);
        let next = generate::next_call(&mut random, version, &battery);
        let call = sheet::call_bytes(version, &next);
        let mut bytes = sheet::battery_bytes(version, &battery);
        let mut line = vec![0; sheet::line_length(&call, card.layers)];
        let before = bytes.clone();
        let refusal = entries::call(version, &mut bytes, &call, &mut line);
        let answer = reading::answer(card.layers, &line[2 + call.len()..]).expect("a line");
        let mut record = Record::of_bytes(version, &before);
        let shown = advance(version, &mut record, &call);
        assert_eq!((shown.refusal, shown.substeps), (refusal, answer.substeps));
        assert_eq!((shown.energy, shown.time), (answer.energy, answer.time));
        assert_eq!((shown.mark == 1).then_some(shown.outlet), answer.outlet);
        assert_eq!(record.words(), Record::of_bytes(version, &bytes).words());
    }
}

/// 40 comes before the record's 10.
#[test]
fn bad_records_and_versions_are_refused_and_stay() {
    let good = Record::from(&Battery::fresh(&points_card()));
    let mut card = good;
    card.card.layers = 65;
    let mut zone = good;
    zone.zones[0] = f64::NAN;
    let mut total = good;
    total.totals[4] = f64::INFINITY;
    for bad in [Record { count: 0, ..good }, Record { count: 2, ..good }, card, zone, total] {
        let mut record = bad;
        let known = VERSIONS.map(|version| (version, 10));
        let newest = VERSIONS[VERSIONS.len() - 1];
        for (version, refusal) in known.into_iter().chain([(0, 40), (newest + 1, 40)]) {
            let shown = advance(version, &mut record, &CLOSE);
            assert_eq!(shown.words(), [refusal, 0, 0, 0, 0, 0]);
            assert_eq!(record.words(), bad.words());
        }
    }
    let mut kept = good;
    assert_eq!(advance(255, &mut kept, &CLOSE).words(), [40, 0, 0, 0, 0, 0]);
    assert_eq!(kept.words(), good.words());
    // Places above the count are not read.
    let mut above = good;
    above.zones[1] = f64::NAN;
    assert_eq!(advance(1, &mut above, &CLOSE).refusal, 0);
}

/// A good record but for a count of services and what stands in the first places.
fn with(services: u8, pairs: &[(u16, u8)]) -> Record {
    let mut record = Record::from(&Battery::fresh(&points_card()));
    record.services = services;
    for (at, (number, class)) in pairs.iter().enumerate() {
        record.numbers[at] = *number;
        record.classes[at] = *class;
    }
    record
}

/// What 61 refuses is 10 from version 3 on, and is not read before.
#[test]
fn services_are_read_from_version_3_on() {
    let rising: Vec<(u16, u8)> = (0..32).map(|at| (4 + at, 3)).collect();
    let accepted = [
        with(0, &[(0, 0)]),
        with(1, &[(4, 1), (4, 9)]),
        with(2, &[(32767, 2), (32768, 3)]),
        with(32, &rising),
    ];
    let refused = [
        with(33, &rising),
        with(255, &rising),
        with(1, &[(3, 1)]),
        with(1, &[(4, 0)]),
        with(1, &[(4, 4)]),
        with(2, &[(4, 1), (4, 1)]),
        with(2, &[(5, 1), (4, 1)]),
        with(2, &[(4, 1), (0, 0)]),
    ];
    let records = accepted.map(|record| (record, 0)).into_iter();
    for (before, refusal) in records.chain(refused.map(|record| (record, 10))) {
        for version in VERSIONS {
            let mut record = before;
            let due = if lists_services(version) { refusal } else { 0 };
            assert_eq!(advance(version, &mut record, &CLOSE).refusal, due);
            assert_eq!(record.words(), before.words());
        }
    }
}

/// Another floor than 0 and 1 is 10 from version 4 on; before, anything may stand there, and is neither
/// read nor written.
#[test]
fn the_floor_is_read_from_version_4_on() {
    let card = Card { start: 76.0, ..points_card() };
    let good = Record::from(&Battery::fresh(&card));
    for floor in 0..=255 {
        for version in VERSIONS {
            let mut record = Record { floor, ..good };
            let shown = advance(version, &mut record, &[4]);
            let (refusal, zone, energy) = match floor {
                _ if !has_floor_flag(version) => (0, -103.0, 0.25),
                0 => (0, -103.0, 0.25),
                1 => (0, 16.0, 0.11777777777777777),
                _ => (10, 76.0, 0.0),
            };
            assert_eq!((shown.refusal, shown.energy), (refusal, energy), "{version} {floor}");
            assert_eq!((record.zones[0], record.floor), (zone, floor));
        }
    }
}

/// On records and calls as the entries on bytes get them, damaged ones among them.
fn compared(faulty: &Faulty) -> Report {
    let (mut random, mut report) = (Random::new(23), Report::default());
    let advance = |version, record: &mut Record, call: &[u8]| faulty.advance(version, record, call);
    while report.inputs < 3000 {
        let version = generate::version(&mut random);
        let card = generate::card_of(&mut random, version);
        let battery = generate::battery(&mut random, &card);
        let Calling { version, record, call, .. } = raw::calling(&mut random, version, &battery);
        let record = Record::of_bytes(version, &record);
        check_advance(advance, plain::step, version, &record, &call, &mut report);
    }
    report
}

#[test]
fn a_comparison_finds_every_fault() {
    let report = compared(&Faulty::named(""));
    assert!(report.is_clean(), "{report}");
    for refusal in [0, 10, 20, 21, 22, 25, 40] {
        assert!(report.count("advance", refusal) > 0, "{refusal}");
    }
    for (name, fault) in IN_OWN {
        assert!(compared(&Faulty { fault }).disagreements > 0, "{name}");
    }
}

#[test]
fn a_comparison_finds_faults() {
    let good = Record::from(&Battery::fresh(&points_card()));
    let faults: [Advance; 8] = [
        |version, record, call| Shown { substeps: 1, ..advance(version, record, call) },
        |version, record, call| Shown { energy: -0.0, ..advance(version, record, call) },
        |version, record, call| {
            record.zones[1] += 1.0;
            advance(version, record, call)
        },
        |version, record, call| {
            record.count = 2;
            advance(version, record, call)
        },
        |version, record, call| {
            record.services = 1;
            advance(version, record, call)
        },
        |version, record, call| {
            record.numbers[31] = 1;
            advance(version, record, call)
        },
        |version, record, call| {
            record.classes[31] = 1;
            advance(version, record, call)
        },
        |version, record, call| {
            record.floor = 1;
            advance(version, record, call)
        },
    ];
    let found = |library| {
        let mut report = Report::default();
        check_advance(library, plain::step, 1, &good, &CLOSE, &mut report);
        report.disagreements
    };
    assert_eq!(found(advance as Advance), 0);
    for fault in faults {
        assert_eq!(found(fault), 1);
    }
}
