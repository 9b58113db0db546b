//! Request Four of document 02: services with numbers of their own, from version 3 on. Its figures
//! hold for the plain implementation and, with the published file, for the judge.

mod common {
    pub mod opening;
}

use common::opening::{many, opened, UNTOUCHED};
use oracle::auditor::{audit_by, Verdict};
use oracle::entries::{self, Step, STEPS};
use oracle::fields;
use oracle::generate::{self, points_card};
#[cfg(published)]
use oracle::judge;
use oracle::model::{Answer, Battery, Call, Card, Demand, Service, Services};
use oracle::random::Random;
use oracle::{plain, reading, sheet};
use std::collections::BTreeMap;

fn services(listed: &[(u16, u8)]) -> Services {
    let listed: Vec<Service> =
        listed.iter().map(|&(number, class)| Service { number, class }).collect();
    Services::new(&listed)
}

/// The readings' card with a list.
fn card(services: Services) -> Card {
    Card { start: 76.0, services, ..points_card() }
}

fn bytes(card: &Card) -> Vec<u8> {
    sheet::card_bytes(3, card)
}

/// A demand of 0.001 kWh from a return temperature of 10 °C.
fn demand(service_type: u16, commit: u8) -> Demand {
    Demand {
        service_type,
        commit,
        control_on: 1,
        required: 0.001,
        start: 0.0,
        return_temperature: Some(10.0),
    }
}

// ---- Cards

#[test]
fn lengths_by_the_count() {
    for count in [0, 1, 2, 32] {
        let card = card(many(count));
        let length = 159 + 3 * usize::from(count);
        assert_eq!(bytes(&card).len(), length);
        assert_eq!(opened(3, &bytes(&card)), 0);
        assert_eq!(sheet::opening(3, &card).len(), 3 + length);
        let record = sheet::battery_bytes(3, &Battery::fresh(&card));
        assert_eq!(record.len(), length + 8 + 40);
    }
    assert_eq!(bytes(&card(many(255))).len(), 924);
}

/// 255 bytes are those of 32 services.
#[test]
fn a_count_of_33() {
    let right = bytes(&card(many(33)));
    assert_eq!(right.len(), 258);
    assert_eq!(opened(3, &right), 61);
    assert_eq!(opened(3, &right[..255]), 1);
    let no_layers = Card { layers: 0, ..card(many(33)) };
    assert_eq!(opened(3, &bytes(&no_layers)), 1);
    for count in [34, 40, 128, 255] {
        let right = bytes(&card(many(count)));
        assert_eq!(opened(3, &right), 61);
        assert_eq!(opened(3, &right[..right.len() - 1]), 1);
        assert_eq!(opened(3, &right[..right.len() - 3]), 1);
    }
}

#[test]
fn every_other_length_is_1() {
    let good = bytes(&card(many(2)));
    assert_eq!(good.len(), 165);
    for length in 0..good.len() {
        assert_eq!(opened(3, &good[..length]), 1);
    }
    for more in [1, 2, 3, 8] {
        assert_eq!(opened(3, &[&good[..], &vec![0; more]].concat()), 1);
    }
    for count in (0..=255).filter(|count| *count != 2) {
        let mut other = good.clone();
        other[158] = count;
        assert_eq!(opened(3, &other), 1);
    }
}

/// Lists, and whether they are accepted.
#[test]
fn lists_that_61_refuses() {
    let lists: [(&[(u16, u8)], u8); 18] = [
        (&[], 0),
        (&[(4, 1)], 0),
        (&[(65535, 3)], 0),
        (&[(4, 1), (5, 2), (6, 3)], 0),
        (&[(32767, 1), (32768, 2)], 0),
        (&[(255, 1), (256, 1), (257, 1), (515, 1)], 0),
        (&[(3, 1)], 61),
        (&[(0, 1), (4, 1)], 61),
        (&[(4, 0)], 61),
        (&[(4, 4)], 61),
        (&[(4, 255)], 61),
        (&[(4, 1), (5, 4)], 61),
        (&[(4, 1), (4, 1)], 61),
        (&[(4, 1), (5, 1), (5, 2)], 61),
        (&[(32768, 1), (32767, 2)], 61),
        (&[(256, 1), (255, 1)], 61),
        (&[(4, 1), (6, 1), (5, 1)], 61),
        (&[(4, 1), (3, 1)], 61),
    ];
    for (list, refusal) in lists {
        let card = card(services(list));
        assert_eq!(opened(3, &bytes(&card)), refusal, "{list:?}");
        assert_eq!(plain::card_refusal(&card), refusal, "{list:?}");
        #[cfg(published)]
        assert_eq!(judge::card_refusal(&card), refusal, "{list:?}");
    }
}

/// 1, 2, 3, 4, then 61; and 61 before 10 and 11.
#[test]
fn sixty_one_comes_after_4() {
    let bad = card(services(&[(3, 1)]));
    let cards = [
        (Card { budget: 0, ..bad }, 1),
        (Card { lower: 57.0, ..bad }, 2),
        (Card { max: 20.0, ..bad }, 3),
        (Card { reference: 80.0, ..bad }, 4),
        (bad, 61),
    ];
    for (card, refusal) in cards {
        assert_eq!(opened(3, &bytes(&card)), refusal);
        assert_eq!(entries::open(3, &bytes(&card), &mut [], &mut []), refusal);
        assert_eq!(plain::card_refusal(&card), refusal);
        #[cfg(published)]
        assert_eq!(judge::card_refusal(&card), refusal);
    }
}

/// Room for the opening is by the card's own length.
#[test]
fn room_for_a_longer_opening() {
    let bytes = bytes(&card(many(32)));
    let mut record = vec![0; 255 + 48];
    assert_eq!(entries::open(3, &bytes, &mut record, &mut [0; 257]), 11);
    assert_eq!(entries::open(3, &bytes, &mut record, &mut [0; 258]), 0);
    assert_eq!(entries::open(3, &bytes, &mut record[1..], &mut [0; 258]), 10);
}

// ---- Demands

#[test]
fn places_of_a_demand() {
    let fields = Demand { start: 0.25, ..demand(515, 1) };
    let call = sheet::call_bytes(3, &Call::Demand(fields));
    assert_eq!(call.len(), 30);
    assert_eq!(call[..5], [1, 2, 3, 1, 1]);
    assert_eq!(fields::number_at(&call, 5), 0.001);
    assert_eq!(fields::number_at(&call, 13), 0.25);
    assert_eq!(call[21], 1);
    assert_eq!(fields::number_at(&call, 22), 10.0);
    let battery = Battery::fresh(&card(many(1)));
    for length in [1, 28, 29, 31] {
        let mut other = call.clone();
        other.resize(length, 0);
        assert!(reading::call(3, &battery.card, &other).is_none());
    }
    // The flags and the mark, one place later than in version 2.
    for (at, byte) in [(3, 2), (4, 2), (21, 2), (21, 0)] {
        let mut other = call.clone();
        other[at] = byte;
        assert!(reading::call(3, &battery.card, &other).is_none());
    }
}

/// 100 + 8 L after the length, for any type.
#[test]
fn lines_of_a_demand() {
    for layers in [1, 8, 64] {
        let card = Card { layers, ..card(many(3)) };
        let mut record = sheet::battery_bytes(3, &Battery::fresh(&card));
        let call = sheet::call_bytes(3, &Call::Demand(demand(4, 1)));
        let length = 100 + 8 * usize::from(layers);
        let mut line = vec![UNTOUCHED; 2 + length];
        assert_eq!(entries::call(3, &mut record.clone(), &call, &mut line[1..]), 11);
        assert_eq!(entries::call(3, &mut record, &call, &mut line), 0);
        assert_eq!(line[..2], (length as u16).to_be_bytes());
        assert_eq!(line[2..32], call);
    }
}

/// Every type is in range.
#[test]
fn every_type_is_in_range() {
    let card = card(many(1));
    for service_type in 0..=u16::MAX {
        let call = sheet::call_bytes(3, &Call::Demand(demand(service_type, 1)));
        match reading::call(3, &card, &call) {
            Some(Call::Demand(read)) => assert_eq!(read.service_type, service_type),
            other => panic!("{other:?}"),
        }
    }
}

/// The class of a type by its answer: 0 where a commit is refused with 21, 3 where the time is a
/// direct one; 1 and 2 answer alike.
fn class(step: Step, card: &Card, service_type: u16) -> u8 {
    let battery = Battery::fresh(card);
    let (answer, after) = step(3, &battery, &Call::Demand(demand(service_type, 1)));
    let [running, pump, direct, ..] = after.state.totals.numbers();
    match answer.refusal {
        21 => {
            assert!(answer.same_bits(&Answer::refused(21, &battery.state)));
            0
        }
        0 => {
            assert!(running > 0.0 && running == pump + direct);
            if direct > 0.0 {
                3
            } else {
                1
            }
        }
        refusal => panic!("refusal {refusal}"),
    }
}

/// Types 256, 257 and 515 are ordinary numbers, and so are their neighbours and those of their bytes.
#[test]
fn classes_of_the_list() {
    let list = [(5, 3), (256, 1), (515, 3), (32767, 1), (32768, 3), (65535, 2)];
    let others = [0, 4, 6, 255, 257, 258, 514, 516, 770, 1280, 32766, 32769, 65534, 0xff7f];
    for step in STEPS {
        let card = card(services(&list));
        for (number, class_of_it) in list {
            assert_eq!(class(step, &card, number), [1, 1, 3][usize::from(class_of_it) - 1]);
        }
        for (number, class_of_it) in [(1, 1), (2, 1), (3, 3)] {
            assert_eq!(class(step, &card, number), class_of_it);
        }
        for number in others {
            assert_eq!(class(step, &card, number), 0, "{number}");
        }
        let card = Card { services: services(&[(257, 3)]), ..card };
        for (number, class_of_it) in [(257, 3), (256, 0), (1, 1), (515, 0)] {
            assert_eq!(class(step, &card, number), class_of_it);
        }
    }
}

/// Every listed one of 32 is found, the first and the last too.
#[test]
fn all_of_32_are_found() {
    let listed: Vec<(u16, u8)> = (0..32).map(|at| (4 + 7 * at, 1 + (at % 3) as u8)).collect();
    let card = card(services(&listed));
    for step in STEPS {
        for service_type in 4..240 {
            let found = listed.iter().find(|(number, _)| *number == service_type);
            let due = found.map_or(0, |(_, class)| if *class == 3 { 3 } else { 1 });
            assert_eq!(class(step, &card, service_type), due, "{service_type}");
        }
    }
}

/// An unlisted number is like type 0: 20, 21 and the 1e-10 under their conditions, and trials run.
#[test]
fn an_unlisted_number_is_like_type_0() {
    let battery = Battery::fresh(&card(many(2)));
    let demands = [
        (demand(0, 1), 21),
        (demand(0, 0), 0),
        (Demand { required: 1e-10, ..demand(0, 1) }, 0),
        (Demand { required: 1e-10f64.next_up(), ..demand(0, 1) }, 21),
        (Demand { required: -1.0, return_temperature: None, ..demand(0, 1) }, 0),
        (Demand { return_temperature: None, ..demand(0, 1) }, 20),
        (Demand { return_temperature: None, ..demand(0, 0) }, 20),
    ];
    for step in STEPS {
        for (fields, refusal) in demands {
            let (combi, _) = step(3, &battery, &Call::Demand(fields));
            assert_eq!(combi.refusal, refusal);
            for service_type in [6, 256, 257, 515, 32767, 32768, 65535] {
                let other = Call::Demand(Demand { service_type, ..fields });
                let (answer, after) = step(3, &battery, &other);
                assert!(answer.same_bits(&combi), "{other:?}");
                assert_eq!(after.state.zones, battery.state.zones);
            }
        }
        let (trial, _) = step(3, &battery, &Call::Demand(demand(65535, 0)));
        assert!(trial.outlet.is_some() && trial.energy > 0.0 && trial.substeps > 0);
    }
}

/// A number of class 1 and the same of class 2, and types 1 and 2: lines are equal but for the type.
#[test]
fn classes_1_and_2_show_no_difference() {
    let mut random = Random::new(31);
    let mut answered = 0;
    for _ in 0..3000 {
        let card = generate::card_of(&mut random, 3);
        let battery = generate::battery(&mut random, &card);
        let Call::Demand(fields) = generate::next_call(&mut random, 3, &battery) else { continue };
        let of = |services, service_type| {
            let battery = Battery { card: Card { services, ..card }, ..battery.clone() };
            let call = Call::Demand(Demand { service_type, ..fields });
            STEPS.map(|step| step(3, &battery, &call).0)
        };
        let one = services(&[(9, 1), (700, 1)]);
        let two = services(&[(9, 2), (700, 2)]);
        let [regular, space] = [of(one, 700), of(two, 700)];
        for (at, answer) in regular.iter().enumerate() {
            let line = |answer: &Answer| sheet::line_with(&[], answer);
            assert_eq!(line(answer), line(&space[at]));
            assert_eq!(line(answer), line(&of(one, 1)[at]));
            assert_eq!(line(answer), line(&of(one, 2)[at]));
            answered += u64::from(answer.refusal == 0);
        }
    }
    assert!(answered > 500, "{answered}");
}

// ---- Versions 2 and 3

/// A list that uses only types 0 to 3 gives equal answers in versions 2 and 3, whatever the card lists
/// there: by the steps, and on sheets, whose lines differ in the type's first byte.
#[test]
fn equal_answers_in_versions_2_and_3() {
    let mut random = Random::new(37);
    let mut counts = BTreeMap::new();
    for _ in 0..1500 {
        let old = generate::card(&mut random);
        let new = Card { services: generate::services(&mut random), ..old };
        let [mut bytes, mut longer] = [sheet::opening(2, &old), sheet::opening(3, &new)];
        let mut state = Battery::fresh(&old).state;
        for _ in 0..generate::list_length(&mut random) {
            let before = [old, new].map(|card| Battery { card, state: state.clone() });
            let call = generate::next_call(&mut random, 2, &before[0]);
            for step in STEPS {
                let answers = [2, 3].map(|v| step(v, &before[usize::from(v) - 2], &call).0);
                assert!(answers[0].same_bits(&answers[1]), "{call:?}");
            }
            let (answer, after) = plain::step(2, &before[0], &call);
            bytes.extend(sheet::call_line(2, &call, &answer));
            longer.extend(sheet::call_line(3, &call, &answer));
            *counts.entry((call.kind(), answer.refusal)).or_insert(0u64) += 1;
            state = after.state;
        }
        let lines = fields::lines(&bytes).len() as u64;
        for step in STEPS {
            assert_eq!(audit_by(step, &bytes), Verdict::Accepted(lines));
            assert_eq!(audit_by(step, &longer), Verdict::Accepted(lines));
        }
    }
    for kind in 1..=7 {
        assert!(counts[&(kind, 0)] > 300, "{counts:?}");
    }
    for refusal in 20..=25 {
        assert!(counts.keys().any(|(_, shown)| *shown == refusal), "{refusal}: {counts:?}");
    }
}

// ---- What is drawn

/// Cards of every count, and demands of every sort of type.
#[test]
fn drawn_lists_and_types() {
    let mut random = Random::new(41);
    let (mut listed, mut types) = (BTreeMap::new(), BTreeMap::new());
    for _ in 0..20_000 {
        let card = generate::card_of(&mut random, 3);
        assert_eq!(plain::card_refusal(&card), 0);
        *listed.entry(card.services.listed().len()).or_insert(0u64) += 1;
        let refused = Card { services: generate::refused_services(&mut random), ..card };
        assert_eq!(plain::card_refusal(&refused), 61, "{refused:?}");
        let battery = Battery::fresh(&card);
        let Call::Demand(fields) = generate::next_call(&mut random, 3, &battery) else { continue };
        let sort = match (fields.service_type, plain::class(&card, fields.service_type)) {
            (0..=3, _) => "0 to 3",
            (_, 0) => "unlisted",
            (..=255, _) => "listed, one byte",
            _ => "listed",
        };
        *types.entry((sort, fields.commit)).or_insert(0u64) += 1;
    }
    for count in 0..=32 {
        assert!(listed[&count] > 20, "{count}: {listed:?}");
    }
    assert_eq!(listed.len(), 33);
    assert!(types.len() == 8 && types.values().all(|count| *count > 50), "{types:?}");
}
