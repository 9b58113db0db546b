//! Every figure of the readings and document 01's 'Points to hit', on the plain implementation
//! and, with the published file, on the judge, in every version.

use oracle::entries::{Step, STEPS};
use oracle::generate::points_card;
#[cfg(published)]
use oracle::judge::{self, Salt, Zone};
use oracle::model::{Answer, Battery, Call, Card, Demand, Hydronic, VERSIONS};
use oracle::{plain, ranges, sheet, stand_ins};

#[cfg(published)]
const SALT: Salt = Salt { lower: 48.0, upper: 56.0, below: 4.0, during: 32.0, above: 2.0 };

/// The steps of every implementation in every version.
fn steps() -> impl Iterator<Item = impl Fn(&Battery, &Call) -> (Answer, Battery)> {
    let of = |step: Step| {
        VERSIONS.map(|version| move |battery: &Battery, call: &Call| step(version, battery, call))
    };
    STEPS.into_iter().flat_map(of)
}

fn plain_salt() -> plain::Salt {
    plain::salt(&points_card())
}

fn battery(card: Card, zone: f64) -> Battery {
    Battery::fresh(&Card { start: zone, ..card })
}

/// A committed demand for space heating, control off, from the start of the timestep.
fn demand(required: f64, return_temperature: f64) -> Demand {
    Demand {
        service_type: 2,
        commit: 1,
        control_on: 0,
        required,
        start: 0.0,
        return_temperature: Some(return_temperature),
    }
}

/// Hydronic charging through the card's exchanger.
fn hydronic(inlet: f64, hours: f64, limit: f64) -> Hydronic {
    Hydronic {
        inlet,
        hours,
        flow: 6.0,
        target: 1.0,
        limit,
        hex_a: 0.0,
        hex_b: 1000.0,
        velocity: 0.1,
        diameter: 0.01,
    }
}

fn assert_refused(answer: &Answer, refusal: u8, before: &Battery) {
    assert!(answer.same_bits(&Answer::refused(refusal, &before.state)), "{answer:?}");
}

// ---- Points to hit

#[test]
fn points_layer_energy() {
    let card = points_card();
    for (temperature, reference, energy) in [
        (0.0, 0.0, 0.0),
        (40.0, 0.0, 160.0),
        (48.0, 0.0, 192.0),
        (52.0, 0.0, 320.0),
        (56.0, 0.0, 448.0),
        (60.0, 0.0, 456.0),
        (60.0, 52.0, 136.0),
    ] {
        #[cfg(published)]
        assert_eq!(judge::calculate_layer_energy_stored(temperature, reference, &SALT), energy);
        assert_eq!(
            plain::calculate_layer_energy_stored(&plain::salt(&card), temperature, reference),
            energy
        );
    }
}

#[test]
fn points_new_temperature() {
    #[cfg(published)]
    let zone = Zone::of_card(&points_card());
    for (start, energy, end) in [
        (60.0, 8.0, 56.0),
        (60.0, 16.0, 55.75),
        (60.0, 268.0, 47.0),
        (48.0, 4.0, 47.0),
        (48.0, -32.0, 49.0),
        (48.0, 1e-6, 48.0),
        (40.0, -288.0, 56.0),
    ] {
        #[cfg(published)]
        assert_eq!(zone.calculate_new_zone_temperature(start, energy), end);
        assert_eq!(plain::calculate_new_zone_temperature(&plain_salt(), start, energy), end);
    }
}

#[test]
fn points_charge_level_and_energy_required() {
    let card = points_card();
    #[cfg(published)]
    assert_eq!(Zone::of_card(&card).soc_to_temp(0.5), 49.75);
    assert_eq!(plain::soc_to_temp(&card, 0.5), 49.75);
    #[cfg(published)]
    assert_eq!(Zone::of_card(&card).calculate_zone_energy_required(40.0, 60.0), -296.0);
    assert_eq!(plain::calculate_zone_energy_required(&plain_salt(), 40.0, 60.0), -296.0);
}

#[test]
fn points_standing_loss_has_no_floor() {
    for step in steps() {
        let (answer, after) = step(&battery(points_card(), 76.0), &Call::StandingLoss);
        assert_eq!((answer.refusal, answer.energy, answer.substeps), (0, 0.25, 1));
        assert_eq!(after.state.zones, [-103.0]);
    }
}

// ---- Demand

#[test]
fn demand_charges_to_ref() {
    let card = Card { simultaneous: 1, power: 1000.0, reference: 50.0, ..points_card() };
    let call = Call::Demand(Demand { control_on: 1, ..demand(1e-9, 45.0) });
    for step in steps() {
        let (answer, after) = step(&battery(card, 46.0), &call);
        assert_eq!(answer.refusal, 0);
        assert_eq!(after.state.zones, [50.0]);
        assert!(after.state.totals.charged_electric > 0.0);
        assert_eq!(after.state.totals.charged, 0.0);
    }
}

#[test]
fn any_negative_delivery_ends_a_demand() {
    for step in steps() {
        let (answer, _) = step(&battery(points_card(), 60.0), &Call::Demand(demand(1.0, 60.0)));
        assert_eq!(answer.outlet, Some(59.99999999999999));
        assert_eq!(answer.substeps, 1);
    }
}

#[test]
fn the_substep_of_a_negative_delivery_stays() {
    for step in steps() {
        let (answer, after) = step(&battery(points_card(), 40.0), &Call::Demand(demand(1.0, 60.0)));
        assert_eq!((answer.energy, answer.time), (0.0, 1.0));
        assert_eq!(answer.outlet, Some(38.22299651567944));
        assert_eq!(after.state.zones, [42.27787456445993]);
    }
}

#[test]
fn a_delivery_of_zero_leaves_the_step() {
    let call = Call::Demand(demand(1.0, 0.0));
    for step in steps() {
        let enough = battery(Card { budget: 3600, ..points_card() }, 0.0);
        assert_eq!(step(&enough, &call).0.substeps, 3600);
        let short = battery(Card { budget: 3599, ..points_card() }, 0.0);
        assert_refused(&step(&short, &call).0, 22, &short);
    }
}

#[test]
fn the_first_second_is_capped_by_nothing() {
    let required = 1.0000000000000002e-10;
    let late = Demand { start: 1.0, ..demand(required, 10.0) };
    for step in steps() {
        for substep in [20.0, 0.1] {
            let start = battery(Card { substep, ..points_card() }, 60.0);
            for fields in [demand(required, 10.0), late] {
                let (answer, after) = step(&start, &Call::Demand(fields));
                assert_eq!(answer.energy, 0.006327429345722027);
                assert_eq!(answer.outlet, Some(64.44250871080138));
                assert_eq!((answer.time, answer.substeps), (1.0, 1));
                assert_eq!(after.state.zones, [55.538164198606275]);
                assert_eq!(after.state.totals.running_hours, 1.0 / 3600.0);
            }
        }
        let (answer, _) = step(&battery(points_card(), 60.0), &Call::Demand(demand(1e-10, 10.0)));
        assert!(answer.same_bits(&Answer::plain(0.0, 0, battery(points_card(), 60.0).state)));
    }
}

#[test]
fn trials_show_outlet_and_time_and_change_nothing() {
    let start = battery(points_card(), 60.0);
    let committed = demand(0.01, 10.0);
    let trial = Demand { commit: 0, service_type: 0, ..committed };
    for step in steps() {
        let (ran, after) = step(&start, &Call::Demand(committed));
        let (tried, kept) = step(&start, &Call::Demand(trial));
        assert_eq!(tried.refusal, 0);
        assert_eq!((tried.energy, tried.outlet, tried.time), (ran.energy, ran.outlet, ran.time));
        assert_eq!(tried.substeps, ran.substeps);
        assert_eq!(kept.state.zones, start.state.zones);
        assert_eq!(kept.state.totals.numbers(), [0.0; 5]);
        assert_ne!(after.state.zones, start.state.zones);
    }
}

#[test]
fn refusals_20_and_21() {
    let start = battery(points_card(), 60.0);
    let absent = Demand { return_temperature: None, ..demand(1.0, 0.0) };
    for step in steps() {
        for (fields, refusal) in [
            (absent, 20),
            (Demand { commit: 0, ..absent }, 20),
            (Demand { service_type: 0, ..absent }, 20),
            (Demand { service_type: 0, ..demand(1.0, 10.0) }, 21),
            (Demand { service_type: 0, ..demand(1e-10, 10.0) }, 0),
            (Demand { required: 1e-10, ..absent }, 0),
        ] {
            assert_refused(&step(&start, &Call::Demand(fields)).0, refusal, &start);
        }
    }
}

#[test]
fn units_divide_and_multiply_in_a_demand() {
    for step in steps() {
        let one = battery(points_card(), 60.0);
        let two = battery(Card { units: 2, ..points_card() }, 60.0);
        let (of_one, after_one) = step(&one, &Call::Demand(demand(0.01, 10.0)));
        let (of_two, after_two) = step(&two, &Call::Demand(demand(0.02, 10.0)));
        assert_eq!(of_two.energy, 2.0 * of_one.energy);
        assert_eq!(after_two.state.zones, after_one.state.zones);
    }
}

// ---- Hydronic

#[test]
fn a_limit_of_zero_takes_two_substeps() {
    let call = Call::Hydronic(hydronic(70.0, 1.0, 0.0));
    for step in steps() {
        let (answer, _) = step(&battery(points_card(), 40.0), &call);
        assert_eq!((answer.refusal, answer.energy, answer.substeps), (0, 0.0, 2));
        let short = battery(Card { budget: 1, ..points_card() }, 40.0);
        assert_refused(&step(&short, &call).0, 22, &short);
    }
}

#[test]
fn the_limit_comes_back_rounded() {
    for step in steps() {
        let start = battery(points_card(), 40.0);
        let (answer, after) = step(&start, &Call::Hydronic(hydronic(70.0, 1.0, 0.011)));
        assert_eq!(answer.energy, 0.010999999999999998);
        assert_eq!(after.state.totals.charged, 0.010999999999999998);
    }
}

#[test]
fn whole_substeps_are_truncated_after_rounding() {
    let card = Card { below: 1e6, ..points_card() };
    for step in steps() {
        let (answer, _) = step(&battery(card, 0.0), &Call::Hydronic(hydronic(70.0, 2.05, 1e6)));
        assert_eq!(answer.substeps, 368);
    }
}

#[test]
fn a_warm_outlet_counts_no_heat() {
    for step in steps() {
        let start = battery(points_card(), 60.0);
        let (answer, after) = step(&start, &Call::Hydronic(hydronic(40.0, 0.1, 1.0)));
        assert_eq!((answer.energy, answer.substeps), (0.0, 1));
        assert_eq!(after.state.zones, [50.555313588850176]);
    }
}

#[test]
fn the_target_changes_nothing() {
    for step in steps() {
        let start = battery(points_card(), 40.0);
        let full = hydronic(70.0, 0.5, 1.0);
        let (with_full, _) = step(&start, &Call::Hydronic(full));
        let (with_none, _) = step(&start, &Call::Hydronic(Hydronic { target: 0.0, ..full }));
        assert!(with_full.same_bits(&with_none));
    }
}

#[test]
fn refusal_24_in_the_fractional_substep() {
    let singular = -836.8 * 63.0 * 1.001;
    let call = Call::Hydronic(Hydronic { hex_b: singular, ..hydronic(70.0, 1.0, 1.0) });
    for step in steps() {
        for zone in [40.0, 60.0] {
            let start = battery(Card { layers: 63, ..points_card() }, zone);
            assert_refused(&step(&start, &call).0, 24, &start);
            let short = Battery { card: Card { budget: 1, ..start.card }, ..start };
            assert_refused(&step(&short, &call).0, 22, &short);
        }
    }
}

/// The heats of the two layers cancel to a delivery of 0, while the outlet is -4e184.
#[test]
fn refusal_24_in_a_demand() {
    let card = Card { layers: 2, b: 1673.6000000000006, ..points_card() };
    let mut start = battery(card, 60.0);
    start.state.zones = vec![5e200, 40.0];
    for step in steps() {
        assert_refused(&step(&start, &Call::Demand(demand(1.0, 10.0))).0, 24, &start);
        let short = Battery { card: Card { budget: 1, ..card }, ..start.clone() };
        assert_refused(&step(&short, &Call::Demand(demand(1.0, 10.0))).0, 22, &short);
    }
}

// ---- Electric, loss, levels

#[test]
fn electric_charges_the_last_zone_first() {
    let card = Card { layers: 2, ..points_card() };
    for step in steps() {
        let call = Call::Electric { power: 0.01, target: 1.0 };
        let (answer, after) = step(&battery(card, 40.0), &call);
        assert_eq!((answer.energy, answer.substeps), (0.01, 1));
        assert_eq!(after.state.zones, [40.0, 49.25]);
    }
}

#[test]
fn infinite_time_charges_to_the_target() {
    let mut start = battery(Card { layers: 3, ..points_card() }, 40.0);
    start.state.totals.running_hours = -1e308;
    for step in steps() {
        let (answer, after) = step(&start, &Call::Electric { power: 1.0, target: 0.5 });
        assert_eq!(answer.refusal, 0);
        assert_eq!(after.state.zones, [49.75; 3]);
    }
}

#[test]
fn time_left_is_never_below_zero() {
    let mut start = battery(points_card(), 40.0);
    start.state.totals.running_hours = 2.0;
    for step in steps() {
        let (answer, after) = step(&start, &Call::Electric { power: 1.0, target: 1.0 });
        assert_eq!((answer.refusal, answer.energy, answer.substeps), (0, 0.0, 1));
        assert_eq!(after.state.zones, [40.0]);
    }
}

#[test]
fn closing_keeps_the_charged_totals() {
    let mut start = battery(points_card(), 40.0);
    start.state.totals.running_hours = 0.5;
    start.state.totals.charged = 3.0;
    start.state.totals.charged_electric = 2.0;
    for step in steps() {
        let (answer, after) = step(&start, &Call::CloseTimestep);
        assert_eq!((answer.refusal, answer.energy, answer.substeps), (0, 0.0, 0));
        assert_eq!(after.state.totals.numbers(), [0.0, 0.0, 0.0, 3.0, 2.0]);
    }
}

#[test]
fn state_of_charge_at_its_border() {
    let full = battery(points_card(), 80.0);
    let hardly_above = battery(points_card(), 80.00000002);
    let above = battery(points_card(), 81.0);
    let demand_none = Call::ChargeEnergyDemand { flow_maximum: None, target: 0.0 };
    for step in steps() {
        assert_eq!(step(&full, &Call::StateOfCharge).0.energy, 1.0);
        let (answer, _) = step(&hardly_above, &Call::StateOfCharge);
        assert_eq!((answer.refusal, answer.energy), (0, 1.0));
        assert_refused(&step(&above, &Call::StateOfCharge).0, 25, &above);
        assert_refused(&step(&above, &demand_none).0, 25, &above);
    }
}

#[test]
fn charge_level_with_ref_in_the_melting_range() {
    let card = Card { reference: 52.0, ..points_card() };
    #[cfg(published)]
    assert_eq!(Zone::of_card(&card).soc_to_temp(0.5), 50.75);
    assert_eq!(plain::soc_to_temp(&card, 0.5), 50.75);
}

#[test]
fn water_past_the_target_changes_nothing() {
    #[cfg(published)]
    {
        let zone = Zone::of_card(&points_card());
        let now = (-10.0, 0.25, -400.0);
        let after = zone.process_zone_simultaneous_charging(40.0, 56.0, now.0, now.2, now.1);
        assert_eq!(after, now);
    }
    let now = plain::Charging { q_max: -10.0, charged: 0.25, transfer: -400.0 };
    assert_eq!(plain::process_zone_simultaneous_charging(&plain_salt(), 40.0, 56.0, now), now);
}

// ---- Stand-ins

#[test]
#[allow(clippy::approx_constant)] // the digits of the readings
fn logarithms() {
    for ln in [stand_ins::ln, plain::ln] {
        assert_eq!(ln(1.0), Some(0.0));
        assert_eq!(ln(2.0), Some(0.6931471805599453));
        assert_eq!(ln(1000.0), Some(6.907755278982137));
        assert_eq!(ln(10000.0).map(f64::to_bits), Some(0x40226bb1bbb55515));
        for refused in [0.0, -0.0, -1.0, f64::NAN, f64::INFINITY, f64::from_bits(1)] {
            assert_eq!(ln(refused), None);
        }
    }
}

#[test]
fn logarithm_is_within_three_units_of_the_machine_s() {
    let mut random = oracle::random::Random::new(7);
    for _ in 0..100_000 {
        let x = random.magnitude(1.5, 1e9);
        let (ours, machine) = (stand_ins::ln(x).expect("positive and normal"), x.ln());
        assert!(ours.to_bits().abs_diff(machine.to_bits()) <= 3, "{x}");
    }
}

// ---- Cards

#[test]
fn card_refusals_in_order() {
    let card = points_card();
    for (card, refusal) in [
        (card, 0),
        (Card { max: 19.0, reference: 20.0, lower: 57.0, velocity: f64::NAN, ..card }, 1),
        (Card { max: 19.0, reference: 20.0, lower: 57.0, ..card }, 2),
        (Card { max: 20.0, reference: 20.0, ..card }, 3),
        (Card { max: 20f64.next_up(), ..card }, 0),
        (Card { max: 30.0, reference: 31.0, ..card }, 4),
        (Card { max: 30.0 + 5e-11, reference: 30.0, ..card }, 4),
        (Card { max: 30.0 + 2e-10, reference: 30.0, ..card }, 0),
    ] {
        #[cfg(published)]
        assert_eq!(judge::card_refusal(&card), refusal, "{card:?}");
        assert_eq!(plain::card_refusal(&card), refusal, "{card:?}");
    }
}

// ---- Sheet

#[test]
fn the_closing_line() {
    let mut expected = vec![0x00, 0x4f, 0x05];
    expected.extend([0; 30]);
    expected.extend([0x40, 0x4e, 0, 0, 0, 0, 0, 0]);
    expected.extend([0; 40]);
    for step in steps() {
        let (answer, _) = step(&battery(points_card(), 60.0), &Call::CloseTimestep);
        for version in VERSIONS {
            assert_eq!(sheet::call_line(version, &Call::CloseTimestep, &answer), expected);
        }
    }
}

#[test]
fn line_lengths() {
    let flow_maximum = Some(70.0);
    for layers in [1, 8, 64] {
        let card = Card { layers, ..points_card() };
        let start = battery(card, 60.0);
        let state = 8 * usize::from(layers) + 40;
        for (version, length) in [(1, 158), (2, 158), (3, 159)] {
            assert_eq!(sheet::opening(version, &card).len(), 1 + 2 + length);
            assert_eq!(sheet::battery_bytes(version, &start).len(), length + state);
        }
        for (call, fields) in [
            (Call::Demand(demand(1.0, 10.0)), 28),
            (Call::Electric { power: 1.0, target: 1.0 }, 16),
            (Call::Hydronic(hydronic(70.0, 1.0, 1.0)), 72),
            (Call::StandingLoss, 0),
            (Call::CloseTimestep, 0),
            (Call::StateOfCharge, 0),
            (Call::ChargeEnergyDemand { flow_maximum, target: 1.0 }, 17),
        ] {
            for step in steps() {
                for version in VERSIONS {
                    let line = sheet::call_line(version, &call, &step(&start, &call).0);
                    let later = usize::from(version >= 3 && call.kind() == 1);
                    assert_eq!(line.len(), 2 + 71 + 8 * usize::from(layers) + fields + later);
                }
            }
        }
    }
}

#[test]
fn minus_zero_is_in_range_where_zero_is() {
    let card = points_card();
    let zeros = Card { losses: -0.0, power: -0.0, reference: -0.0, ..card };
    assert_eq!(plain::card_refusal(&zeros), 0);
    #[cfg(published)]
    assert_eq!(judge::card_refusal(&zeros), 0);
    let zeros = Call::Electric { power: -0.0, target: -0.0 };
    let least = Call::Electric { power: -f64::from_bits(1), target: 0.0 };
    for version in VERSIONS {
        assert!(!ranges::call_refusal(version, &card, &zeros));
        assert!(ranges::call_refusal(version, &card, &least));
    }
}
