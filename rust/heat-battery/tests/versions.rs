//! Versions: the figures of document 02's request Three, and the version in the crate.

mod common {
    pub mod figures;
}

use common::figures::{figures, Wet, POINTS, WET};
use heat_battery::{audit, explain, ffi, read, ChargingLoop, Explanation, Record, Totals, Verdict};
use heat_battery::{Answer, Battery, Call, Card, Refusal, Sheet, Version};
use std::fs;

// ---- The figures

/// What a battery answers as a battery, as a record and, if it is fresh, on a sheet: the same.
fn answer(battery: &Battery, call: &Call) -> Answer {
    let answer = battery.clone().answer(call).unwrap();
    assert_eq!(Record::from(battery).answer(call), Ok(answer));
    if Battery::open_as(battery.version(), battery.card()).unwrap() == *battery {
        let mut sheet = Sheet::open_as(battery.version(), battery.card()).unwrap();
        assert_eq!(sheet.answer(call), Ok(answer));
        assert_eq!(sheet.lines().next().unwrap().answer, answer);
        assert_eq!(audit(sheet.as_bytes()), Verdict::Accepted(1));
    }
    answer
}

/// The answers in all versions, which only differ in the time: none in version 1. Running totals
/// stay.
fn in_all(of: impl Fn(Version) -> Battery, call: &Call) -> Answer {
    let [one, two, later @ ..] = Version::ALL.map(|version| answer(&of(version), call));
    assert_eq!(one.time.to_bits(), 0);
    assert_eq!(Answer { time: 0.0, ..two }, one);
    assert!(later.iter().all(|later| *later == two));
    let Totals { running_hours, pump_hours, direct_hours, .. } = two.totals;
    let before = of(Version::Two).totals();
    assert_eq!([running_hours, pump_hours, direct_hours], before.numbers()[..3]);
    two
}

#[test]
fn a_hydronic_charge_shows_how_long_its_pump_ran() {
    for figure in figures() {
        let fresh = |version| Battery::open_as(version, &figure.card()).unwrap();
        let answer = in_all(fresh, &figure.wet.call());
        let (substeps, time) = (answer.substeps, answer.time.to_bits());
        assert_eq!((substeps, time), (figure.substeps, figure.time.to_bits()), "{answer:?}");
    }
}

#[test]
fn what_ends_the_charge_counts() {
    let [_, _, limited, _, _, cooled, ..] = figures().map(|figure| {
        let mut battery = Battery::open(&figure.card()).unwrap();
        battery.call(&figure.wet.call()).unwrap()
    });
    assert_eq!(*limited.zones, [40.9]);
    assert_eq!(cooled.energy, 0.0, "its outlet ends the loop at once");
}

/// The heats of two layers cancel, so that a limit of 0 is reached by a substep that took up nothing:
/// none is replayed. A limit above that lets the run go on. One last place less of hex b, and the
/// outlet ends the run whatever the limit.
#[test]
fn without_a_replay_the_last_substep_counts_whole() {
    let card = Card { layers: 2, ..POINTS };
    let of =
        |version| Battery::with_state(version, &card, &[1e20, 40.0], &Totals::default()).unwrap();
    let outlet_ends: f64 = 1673.6;
    for (hex_b, limit, ran) in [
        (outlet_ends.next_up(), 0.0, (1, 20.0)),
        (outlet_ends.next_up(), 1e6, (2, 40.0)),
        (outlet_ends, 0.0, (1, 20.0)),
        (outlet_ends, 1e6, (1, 20.0)),
    ] {
        let answer = in_all(of, &Wet { hex_b, limit, ..WET }.call());
        assert_eq!((answer.substeps, answer.time), ran, "hex b {hex_b}, limit {limit}");
        assert_eq!(answer.energy, 0.0);
    }
}

#[test]
fn a_refused_charge_shows_no_time() {
    let card = Card { start: 40.0, budget: 2, ..POINTS };
    let of = |version| Battery::open_as(version, &card).unwrap();
    let answer = in_all(of, &WET.call());
    assert_eq!((answer.refusal, answer.time.to_bits()), (Some(Refusal::OverBudget), 0));
}

#[test]
fn the_rules_have_the_figures() {
    let rules = fs::read_to_string("../../docs/RULES.md").unwrap();
    for figure in figures() {
        let row = format!(" | {} | {} |\n", figure.substeps, figure.time);
        assert!(rules.contains(&row), "no row ends in{row}");
    }
}

// ---- Sheets of all versions

/// A sheet of a version: a charge of 60 s, which the running hours don't have, and a demand.
fn sheet(version: Version) -> Vec<u8> {
    let mut sheet = Sheet::open_as(version, &Card { start: 40.0, ..POINTS }).unwrap();
    sheet.call(&WET.call()).unwrap();
    sheet.call(&DEMAND.parse().unwrap()).unwrap();
    sheet.into_bytes()
}

const DEMAND: &str =
    "demand service=space commit=yes control_on=no required=0.01 start=0 return_temperature=10";

/// Bytes of version and line 0 of a card without services and without a floor.
fn opening(version: u8) -> usize {
    match version {
        ..=2 => 161,
        3 => 162,
        _ => 163,
    }
}

fn with_time(mut sheet: Vec<u8>, time: f64) -> Vec<u8> {
    // Behind the opening, the first line's length, its call, refusal, energy and outlet.
    let at = opening(sheet[0]) + 2 + 73 + 1 + 8 + 9;
    sheet[at..][..8].copy_from_slice(&time.to_be_bytes());
    sheet
}

/// The fields in which the first line disagrees, each with what the sheet says and what the steps
/// give.
fn first_line(sheet: &[u8]) -> Vec<[String; 3]> {
    assert_eq!(audit(sheet), Verdict::Refused { refusal: Refusal::Disagrees, line: 1 });
    let Explanation::Differences { line: 1, fields, .. } = explain(sheet) else {
        panic!("{:?}", explain(sheet));
    };
    fields.into_iter().map(|found| [found.field, found.shown, found.given]).collect()
}

#[test]
fn versions_differ_in_the_first_byte_the_time_the_services_and_the_floor() {
    let [one, two, three, four] = Version::ALL.map(sheet);
    assert_eq!(with_time(one.clone(), 0.0), one);
    let mut other = with_time(one.clone(), 60.0);
    other[0] = 2;
    assert_eq!(other, two);
    // The card's length, its count of services, the second line's length and a byte of its type.
    let line_2 = 161 + 2 + 71 + 8 + 72;
    assert_eq!((&two[1..3], &two[line_2..line_2 + 4]), (&[0, 158][..], &[0, 107, 1, 2][..]));
    let [card, line_1] = [&two[3..161], &two[161..line_2]];
    let rest = &two[line_2 + 4..];
    let other = [&[3, 0, 159], card, &[0], line_1, &[0, 108, 1, 0, 2], rest].concat();
    assert_eq!(other, three);
    // The card's length and its flag.
    assert_eq!([&[4, 0, 160], &three[3..162], &[0], &three[162..]].concat(), four);
    for (version, sheet) in Version::ALL.into_iter().zip([one, two, three, four]) {
        assert_eq!(audit(&sheet), Verdict::Accepted(2));
        assert_eq!(explain(&sheet), Explanation::Agreement);
        assert_eq!(read(&sheet).unwrap().0, version);
    }
}

#[test]
fn a_wrong_time_is_refused_and_named() {
    let [one, two, later @ ..] = Version::ALL.map(sheet);
    let named = |shown: &str, given: &str| {
        [["time of the charging loop, s (0 in version 1)", shown, given].map(String::from)]
    };
    assert_eq!(first_line(&with_time(one.clone(), 60.0)), named("60.0", "0.0"));
    assert_eq!(first_line(&with_time(two.clone(), 0.0)), named("0.0", "60.0"));
    assert_eq!(first_line(&with_time(two.clone(), 40.0)), named("40.0", "60.0"));
    for sheet in later {
        assert_eq!(first_line(&with_time(sheet, 0.0)), named("0.0", "60.0"));
    }
    // The other version's first byte.
    assert_eq!(first_line(&[&[2], &one[1..]].concat()), named("0.0", "60.0"));
    assert_eq!(first_line(&[&[1], &two[1..]].concat()), named("60.0", "0.0"));
}

#[test]
fn the_charging_loop_is_summed_apart() {
    let lines = |sheet: &[u8]| -> Vec<_> { read(sheet).unwrap().2.map(Result::unwrap).collect() };
    let [one, two] = [Version::One, Version::Two].map(sheet);
    assert_eq!(ChargingLoop::of(Version::One, &lines(&one)), None);
    let lines = lines(&two);
    let pump = ChargingLoop::of(Version::Two, &lines).unwrap();
    assert_eq!((pump.lines, pump.seconds), (1, 60.0));
    assert_eq!(pump.to_string(), "charging loop: 1 line, 0.01667 h");
    let [charged, drawn] = [&lines[0].answer, &lines[1].answer];
    assert_eq!(charged.totals.running_hours, 0.0);
    assert_eq!(drawn.totals.pump_hours, drawn.time / 3600.0);
    // A refused charge is none.
    let refused = Answer { refusal: Some(Refusal::OverBudget), time: 9.0, ..*charged };
    let refused = heat_battery::Line { answer: refused, ..lines[0] };
    assert_eq!(ChargingLoop::of(Version::Two, [&refused, &lines[1]]).unwrap().lines, 0);
}

// ---- The version in the crate

#[test]
fn the_newest_is_the_default() {
    let card = Card::example();
    assert_eq!(Version::default(), Version::Four);
    assert_eq!(Sheet::open(&card).unwrap().as_bytes()[0], 4);
    assert_eq!(Sheet::open(&card).unwrap().version(), Version::NEWEST);
    assert_eq!(Battery::open(&card).unwrap().version(), Version::NEWEST);
    assert_eq!(Record::open(&card).unwrap().version(), Version::NEWEST);
}

#[test]
fn a_version_is_kept() {
    for version in Version::ALL {
        let sheet = Sheet::open_as(version, &Card::example()).unwrap();
        assert_eq!((sheet.version(), sheet.as_bytes()[0]), (version, version.number()));
        let battery = sheet.battery();
        let again = Battery::from_bytes(version, battery.as_bytes()).unwrap();
        assert_eq!((again.version(), &again), (version, battery));
        let record = Record::from(battery);
        assert_eq!((record.version(), record.clone().version()), (version, version));
        assert_eq!(Battery::from(&record), again);
        assert_eq!(Record::open_as(version, &Card::example()), Ok(record));
    }
}

#[test]
fn batteries_of_two_versions_are_not_equal() {
    let all = Version::ALL.map(|version| {
        let battery = Battery::open_as(version, &Card::example()).unwrap();
        (Record::from(&battery), battery)
    });
    for (at, one) in all.iter().enumerate() {
        for other in &all[at + 1..] {
            assert!(one.1 != other.1 && one.0 != other.0);
            let share = other.1.version() == Version::Two;
            assert_eq!(one.1.as_bytes() == other.1.as_bytes(), share, "only 1 and 2 share them");
            let mut record = one.0.clone();
            record.clone_from(&other.0);
            assert!(record == other.0);
        }
    }
}

#[test]
fn unknown_versions_are_40() {
    let good = sheet(Version::NEWEST);
    let refused = Verdict::Refused { refusal: Refusal::NoVersion, line: 0 };
    for byte in (0..=255).filter(|byte| Version::from_number(*byte).is_none()) {
        for sheet in [[&[byte], &good[1..]].concat(), vec![byte]] {
            assert_eq!(audit(&sheet), refused);
            let Explanation::Damage(damage) = explain(&sheet) else { panic!("no damage") };
            assert_eq!((damage.refusal, damage.line), (Refusal::NoVersion, 0));
            let known = Version::known();
            let words = format!("the first byte is {byte}, no known version ({known})");
            assert_eq!(damage.words, words);
        }
    }
    assert_eq!(audit(&[]), refused);
    assert_eq!(Version::known(), "1, 2, 3, 4");
}

/// 40 goes before all else, and nothing is changed.
#[test]
fn the_entries_refuse_unknown_versions() {
    let card = Card::example().to_bytes(Version::NEWEST).unwrap();
    let call = Call::StandingLoss.to_bytes(Version::NEWEST).unwrap();
    for version in [0, Version::NEWEST.number() + 1, 255] {
        for (card, record, sheet) in [(&card[..], 264, 163), (&card[..9], 264, 163), (&[], 0, 0)] {
            let (mut record, mut sheet) = (vec![7; record], vec![7; sheet]);
            assert_eq!(ffi::open(version, card, &mut record, &mut sheet), 40);
            assert!(record.iter().chain(&sheet).all(|byte| *byte == 7));
        }
        let good = Battery::open(&Card::example()).unwrap().as_bytes().to_vec();
        for (record, call, free) in [(&good[..], &call[..], 200), (&good[..9], &[9], 0)] {
            let (mut after, mut sheet) = (record.to_vec(), vec![7; free]);
            assert_eq!(ffi::call(version, &mut after, call, &mut sheet), 40);
            assert!(after == record && sheet.iter().all(|byte| *byte == 7));
        }
        let refused =
            ffi::Shown { refusal: 40, mark: 0, substeps: 0, energy: 0.0, outlet: 0.0, time: 0.0 };
        for (count, call) in [(1, &call[..]), (0, &call[..]), (1, &[])] {
            let mut battery = own(count);
            assert_eq!(ffi::advance(version, &mut battery, call), refused);
            assert_eq!(battery, own(count));
        }
    }
}

/// The caller's own record, of the points' card, with any count.
fn own(count: u8) -> ffi::Battery {
    let battery = Battery::open_as(Version::One, &POINTS).unwrap();
    let numbers = battery.as_bytes()[6..].to_vec();
    let mut numbers = numbers
        .chunks_exact(8)
        .map(|bytes| f64::from_bits(u64::from_be_bytes(bytes.try_into().unwrap())));
    let mut next = || numbers.next().unwrap();
    let numbers = std::array::from_fn(|_| next());
    let card = ffi::Card { layers: 1, units: 1, simultaneous: 0, budget: 1000, numbers };
    let mut zones = [0.0; heat_battery::MOST_LAYERS];
    zones[0] = next();
    let (totals, services, numbers, classes) = ([0.0; 5], 0, [0; 32], [0; 32]);
    ffi::Battery { card, zones, count, totals, services, numbers, classes, floor: 0 }
}

#[test]
fn the_header_has_the_versions() {
    let header = fs::read_to_string("../../include/heat_battery.h").unwrap();
    let [first, .., last] = Version::ALL;
    for (name, version) in [("OLDEST", first), ("NEWEST", last)] {
        let line = format!("#define HEAT_BATTERY_{name}_VERSION {version}");
        assert!(header.lines().any(|other| other == line), "no {line}");
    }
}
