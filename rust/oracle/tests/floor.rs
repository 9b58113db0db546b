//! Request Six of document 02: a loss stops at room temperature, in version 4 with the flag 1. With it
//! the figures hold for the plain implementation alone, the published file has no floor; with the flag
//! 0 they hold for the judge too.

mod common {
    pub mod opening;
}

use common::opening::{many, opened};
use oracle::auditor::{audit_by, Verdict};
use oracle::entries::{self, STEPS};
use oracle::fields;
use oracle::generate::{self, points_card};
#[cfg(published)]
use oracle::judge;
use oracle::model::{Answer, Battery, Call, Card, Demand};
use oracle::plain::{self, Lowered, FLOOR};
use oracle::random::Random;
use oracle::sheet;
use std::collections::BTreeMap;

/// The readings' card with a flag, a start and losses.
fn card(floor: u8, start: f64, losses: f64) -> Card {
    Card { floor, start, losses, ..points_card() }
}

/// A standing loss in version 4 by the plain implementation.
fn lost(battery: &Battery) -> Answer {
    plain::step(4, battery, &Call::StandingLoss).0
}

/// The loss of a fresh battery's zone, and what the update with the floor makes of it.
fn lowered(card: &Card) -> (f64, Lowered) {
    let loss = plain::zone_loss(card, card.start, card.timestep * 3600.0, card.losses);
    let salt = plain::salt(card);
    let with = plain::calculate_new_zone_temperature_with_lowest(&salt, card.start, FLOOR, loss);
    (loss, with)
}

/// What a zone holds over 16 °C.
fn held(card: &Card) -> f64 {
    plain::calculate_layer_energy_stored(&plain::salt(card), card.start, FLOOR)
}

/// Where document 01's update ends.
fn unlimited(card: &Card) -> f64 {
    let (loss, _) = lowered(card);
    plain::calculate_new_zone_temperature(&plain::salt(card), card.start, loss)
}

// ---- Figures

/// Zone, energy, taken and rest of one layer.
fn assert_lost(card: Card, zone: f64, energy: f64, taken: f64, rest: f64) {
    let (_, with) = lowered(&card);
    assert_eq!((with.temperature, with.taken, with.rest), (zone, taken, rest));
    let answer = lost(&Battery::fresh(&card));
    assert_eq!((answer.refusal, answer.substeps), (0, 1));
    assert_eq!((answer.state.zones[0], answer.energy), (zone, energy));
    assert_eq!((answer.outlet, answer.time), (None, 0.0));
}

/// Without the floor it ends at -103 °C and 0.25 kWh count.
#[test]
fn the_point() {
    let point = card(1, 76.0, 0.25);
    assert_eq!(lowered(&point).0, 900.0);
    assert_lost(point, 16.0, 0.11777777777777777, 424.0, 476.0);
    assert_eq!(424.0 / 3600.0, 0.11777777777777777);
    let battery = Battery::fresh(&Card { floor: 0, ..point });
    for step in STEPS {
        for version in [1, 2, 3, 4] {
            let (answer, _) = step(version, &battery, &Call::StandingLoss);
            assert_eq!((answer.state.zones[0], answer.energy), (-103.0, 0.25));
        }
    }
}

/// The update ends at exactly 16, so all of the energy is taken, though less is held: 2 would be
/// 0.0005555555555555556.
#[test]
fn taken_can_pass_what_is_held() {
    let met = card(1, 16.5, 0.06666666666666668);
    assert_eq!((held(&met), unlimited(&met)), (2.0, 16.0));
    assert_lost(met, 16.0, 0.0005555555555555557, 2.0000000000000004, 0.0);
    // An energy that is nearly 0 leaves the zone as it is, and counts; held are 4e-9.
    let nearly = card(1, 16.000000001, 1.0);
    assert!((held(&nearly) - 4e-9).abs() < 1e-14);
    let (loss, with) = lowered(&nearly);
    assert!((loss - 6e-8).abs() < 1e-13);
    assert_eq!((with.taken, with.rest), (loss, 0.0));
    assert_lost(nearly, 16.000000001, loss / 3600.0, loss, 0.0);
    assert_eq!(loss / 3600.0, 1.666666804567285e-11);
}

/// The energy is less than what is held, and the update ends under 16 all the same: without `min` it
/// would be 298.20000000000005, and rest under 0.
#[test]
fn min_is_not_idle() {
    let card = Card { below: 1.3, ..card(1, 56.3, 0.12332506203473946) };
    assert_eq!((lowered(&card).0, held(&card)), (298.2, 298.20000000000005));
    assert_eq!(unlimited(&card), 15.999999999999986);
    assert_lost(card, 16.0, 0.08283333333333333, 298.2, 0.0);
    assert_eq!(298.20000000000005 / 3600.0, 0.08283333333333334);
}

/// The sum of what was taken: energy minus rest would be another number.
#[test]
fn not_energy_minus_rest() {
    let card = card(1, 18.7, 0.86);
    let (loss, with) = lowered(&card);
    assert_eq!(with.taken, held(&card));
    assert_eq!(lost(&Battery::fresh(&card)).energy, 0.002999999999999999);
    assert_eq!(with.taken / 3600.0, 0.002999999999999999);
    assert_eq!((loss - with.rest) / 3600.0, 0.0029999999999999953);
}

/// The loss of a huge zone is infinite and is answered: 2e305 kJ are held. Without the floor it is 23,
/// and so it is where what is held is infinite.
#[test]
fn an_infinite_loss_is_answered() {
    let hot = Card { timestep: 24.0, ..card(1, 76.0, 1000.0) };
    let with = |card: Card, zone: f64| {
        let mut battery = Battery::fresh(&card);
        battery.state.zones = vec![zone];
        battery
    };
    assert_eq!(plain::zone_loss(&hot, 1e305, 86400.0, 1000.0), f64::INFINITY);
    let battery = with(hot, 1e305);
    let answer = lost(&battery);
    assert_eq!((answer.refusal, answer.energy), (0, 2e305 / 3600.0));
    assert_eq!(answer.state.zones, [16.0]);
    let mut bytes = sheet::battery_bytes(4, &battery);
    assert_eq!(entries::call(4, &mut bytes, &[4], &mut [0; 100]), 0);
    for step in STEPS {
        let flagless = with(Card { floor: 0, ..hot }, 1e305);
        assert_eq!(step(4, &flagless, &Call::StandingLoss).0.refusal, 23);
        assert_eq!(step(3, &flagless, &Call::StandingLoss).0.refusal, 23);
    }
    let answer = lost(&with(hot, 1e308));
    assert!(answer.same_bits(&Answer::refused(23, &with(hot, 1e308).state)));
}

/// A plain sum of the eight would be another number.
#[test]
fn eight_layers_are_summed_by_sum2() {
    let card = Card { layers: 8, ..card(1, 76.3, 1.0) };
    let answer = lost(&Battery::fresh(&card));
    assert_eq!(answer.energy, 0.11794444444444445);
    assert_eq!(answer.state.zones, [16.0; 8]);
    let (_, with) = lowered(&card);
    let plain_sum = [with.taken; 8].iter().fold(0.0, |sum, taken| sum + taken);
    assert_eq!(plain_sum / 3600.0, 0.11794444444444444);
}

/// A demand takes a zone under the floor, and a loss leaves it there.
#[test]
fn a_demand_has_no_floor() {
    let fields = Demand {
        service_type: 1,
        commit: 1,
        control_on: 0,
        required: 0.01,
        start: 0.0,
        return_temperature: Some(5.0),
    };
    for step in STEPS {
        let after = [0, 1].map(|floor| {
            let battery = Battery::fresh(&card(floor, 20.0, 0.25));
            step(4, &battery, &Call::Demand(fields))
        });
        assert!(after[0].0.same_bits(&after[1].0));
        let cold = &after[1].1;
        assert!(cold.state.zones[0] < 16.0);
        let answer = lost(cold);
        assert_eq!((answer.refusal, answer.substeps, answer.energy), (0, 1, 0.0));
        assert_eq!(answer.state.zones, cold.state.zones);
    }
}

/// At 16 or under it a zone stays; just above it can lose.
#[test]
fn zones_at_and_under_the_floor_stay() {
    for start in [16.0, 16f64.next_down(), 15.0, 0.0, -0.0, -50.0] {
        let with = plain::calculate_new_zone_temperature_with_lowest;
        let salt = plain::salt(&points_card());
        for energy in [0.0, 1.0, 1e300, f64::INFINITY] {
            let lowered = with(&salt, start, FLOOR, energy);
            assert_eq!(lowered, Lowered { temperature: start, taken: 0.0, rest: energy });
        }
        let answer = lost(&Battery::fresh(&card(1, start, 1000.0)));
        assert_eq!((answer.refusal, answer.energy.to_bits()), (0, 0));
        assert_eq!(answer.state.zones[0].to_bits(), start.to_bits());
    }
    let above = lost(&Battery::fresh(&card(1, 17.0, 1000.0)));
    assert_eq!((above.energy, above.state.zones[0]), (4.0 / 3600.0, 16.0));
}

// ---- Cards

fn flagged(count: u16, floor: u8) -> Card {
    Card { services: many(count), ..card(floor, 76.0, 0.25) }
}

/// 160 + 3 × count, whatever the count; the flag is the last byte.
#[test]
fn lengths_by_the_count() {
    for (count, refusal) in [(0, 0), (1, 0), (2, 0), (32, 0), (33, 61), (40, 61), (255, 61)] {
        for floor in [0, 1] {
            let bytes = sheet::card_bytes(4, &flagged(count, floor));
            let length = 160 + 3 * usize::from(count);
            assert_eq!((bytes.len(), bytes[length - 1]), (length, floor));
            assert_eq!(opened(4, &bytes), refusal);
            assert_eq!(bytes[..length - 1], sheet::card_bytes(3, &flagged(count, 0)));
            // As version 3 lays it out, and a byte longer.
            assert_eq!(opened(4, &bytes[..length - 1]), 1);
            assert_eq!(opened(4, &[&bytes[..], &[0]].concat()), 1);
            assert_eq!(opened(4, &bytes[..length - 3]), 1);
            assert_eq!(entries::open(3, &bytes, &mut [], &mut []), 1);
        }
    }
    let good = sheet::card_bytes(4, &flagged(2, 1));
    for length in 0..good.len() {
        assert_eq!(opened(4, &good[..length]), 1);
    }
}

/// Another flag is 1, before 2, 3, 4 and 61, behind any count.
#[test]
fn other_flags_are_1() {
    for count in [0, 1, 32, 33, 255] {
        for floor in 2..=255 {
            let card = flagged(count, floor);
            assert_eq!(entries::open(4, &sheet::card_bytes(4, &card), &mut [], &mut []), 1);
            assert_eq!(plain::card_refusal(&card), 1);
            #[cfg(published)]
            assert_eq!(judge::card_refusal(&card), 1);
        }
        for floor in [2, 16, 128, 255] {
            assert_eq!(opened(4, &sheet::card_bytes(4, &flagged(count, floor))), 1);
        }
    }
    for (floor, due) in [(1, [2, 3, 4, 61]), (2, [1; 4])] {
        let good = flagged(1, floor);
        let cards = [
            Card { lower: 57.0, max: 20.0, ..good },
            Card { max: 20.0, reference: 20.0, ..good },
            Card { reference: 80.0, ..good },
            flagged(33, floor),
        ];
        for (card, refusal) in cards.iter().zip(due) {
            assert_eq!(opened(4, &sheet::card_bytes(4, card)), refusal);
        }
    }
    // 1, then 10 and 11.
    let bytes = sheet::card_bytes(4, &flagged(0, 1));
    assert_eq!(entries::open(4, &bytes, &mut [0; 207], &mut [0; 163]), 10);
    assert_eq!(entries::open(4, &bytes, &mut [0; 208], &mut [0; 162]), 11);
    assert_eq!(entries::open(4, &bytes, &mut [0; 208], &mut [0; 163]), 0);
}

// ---- Versions 3 and 4

/// With the flag 0 a list gives equal answers in versions 3 and 4: by the steps, the judge's too, and on
/// sheets, whose openings differ in version, length and flag. With the flag 1 only losses differ.
#[test]
fn equal_answers_without_the_floor() {
    let mut random = Random::new(43);
    let mut counts = BTreeMap::new();
    for _ in 0..1500 {
        let old = Card { floor: 0, ..generate::card_of(&mut random, 4) };
        let new = Card { floor: 1, ..old };
        let mut sheets = [3, 4].map(|version| sheet::opening(version, &old));
        let mut battery = Battery::fresh(&old);
        for _ in 0..generate::list_length(&mut random) {
            let call = match random.one_in(5) {
                true => Call::StandingLoss,
                false => generate::next_call(&mut random, 3, &battery),
            };
            let floored = Battery { card: new, ..battery.clone() };
            let (answer, after) = plain::step(3, &battery, &call);
            for step in STEPS {
                assert!(step(3, &battery, &call).0.same_bits(&answer), "{call:?}");
                assert!(step(4, &battery, &call).0.same_bits(&answer), "{call:?}");
                let (other, _) = step(4, &floored, &call);
                let same = other.same_bits(&answer);
                assert!(same || matches!(call, Call::StandingLoss), "{call:?}");
                *counts.entry((call.kind(), answer.refusal, same)).or_insert(0u64) += 1;
            }
            sheets[0].extend(sheet::call_line(3, &call, &answer));
            sheets[1].extend(sheet::call_line(4, &call, &answer));
            battery = after;
        }
        let lines = fields::lines(&sheets[0]).len() as u64;
        for step in STEPS {
            for bytes in &sheets {
                assert_eq!(audit_by(step, bytes), Verdict::Accepted(lines));
            }
        }
    }
    for kind in 1..=7 {
        assert!(counts[&(kind, 0, true)] > 300, "{counts:?}");
    }
    assert!(counts[&(4, 0, false)] > 300, "{counts:?}");
}

// ---- Directions and what is drawn

/// A loss warms no zone, takes none under the floor that was above it, and counts nothing under 0.
#[test]
fn directions_hold_with_the_floor() {
    let mut random = Random::new(47);
    let mut ways = BTreeMap::new();
    for _ in 0..20_000 {
        let card = Card { floor: 1, ..generate::card_of(&mut random, 4) };
        let battery = generate::battery(&mut random, &card);
        let answer = lost(&battery);
        assert!(answer.energy >= 0.0 && [0, 23].contains(&answer.refusal));
        for (before, after) in battery.state.zones.iter().zip(&answer.state.zones) {
            assert!(after <= before && *after >= before.min(FLOOR));
            if answer.refusal != 0 {
                continue;
            }
            let loss = plain::zone_loss(&card, *before, card.timestep * 3600.0, card.losses);
            let salt = plain::salt(&card);
            let held = plain::calculate_layer_energy_stored(&salt, *before, FLOOR);
            let ends = plain::calculate_new_zone_temperature(&salt, *before, loss);
            let way = match () {
                () if *before == FLOOR => "at the floor",
                () if *before < FLOOR => "under it",
                () if ends < FLOOR && loss == f64::INFINITY => "stopped, infinite",
                () if ends < FLOOR && loss < held => "stopped, less than held",
                () if ends < FLOOR => "stopped",
                () if loss > held => "not stopped, more than held",
                () => "not stopped",
            };
            *ways.entry(way).or_insert(0u64) += 1;
        }
    }
    assert!(ways.len() == 7 && ways.values().all(|count| *count > 100), "{ways:?}");
}

/// Half of the cards have the flag, and refused flags are drawn alone and beside other refusals.
#[test]
fn drawn_flags() {
    let mut random = Random::new(53);
    let mut flags = BTreeMap::new();
    for _ in 0..10_000 {
        for version in [1, 2, 3] {
            assert_eq!(generate::card_of(&mut random, version).floor, 0);
            assert_eq!(generate::any_card_of(&mut random, version).floor, 0);
        }
        let card = generate::card_of(&mut random, 4);
        assert_eq!(plain::card_refusal(&card), 0);
        *flags.entry((card.floor, 0)).or_insert(0u64) += 1;
        let any = generate::any_card_of(&mut random, 4);
        let without = plain::card_refusal(&Card { floor: 0, ..any });
        if any.floor > 1 {
            *flags.entry((2, without)).or_insert(0) += 1;
        }
    }
    for (flag, least) in [(0, 4500), (1, 4500)] {
        assert!(flags[&(flag, 0)] > least, "{flags:?}");
    }
    for refusal in [0, 1, 2, 3, 4, 61] {
        assert!(flags[&(2, refusal)] > 15, "{flags:?}");
    }
}
