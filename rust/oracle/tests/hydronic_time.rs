//! Request Three of document 02: the time of a hydronic line, from version 2 on. Its figures hold for
//! the plain implementation and, with the published file, for the judge.

use oracle::auditor::{audit_by, Verdict};
use oracle::entries::STEPS;
use oracle::generate::{self, points_card};
use oracle::model::{Answer, Battery, Call, Card, Hydronic};
use oracle::plain::{self, HydronicEnd};
use oracle::random::Random;
use oracle::sheet;
use std::collections::BTreeMap;

/// The last version without the time, and the first with it.
const PAIR: [u8; 2] = [1, 2];

/// The readings' card, with a start and a substep.
fn battery(start: f64, substep: f64) -> Battery {
    Battery::fresh(&Card { start, substep, ..points_card() })
}

/// An hour at 70 °C, as good as without a limit.
const WET: Hydronic = Hydronic {
    inlet: 70.0,
    hours: 1.0,
    flow: 6.0,
    target: 1.0,
    limit: 1e6,
    hex_a: 0.0,
    hex_b: 1000.0,
    velocity: 0.1,
    diameter: 0.01,
};

/// Battery and call, how the run ends, its substeps and its time.
type Figure = (Battery, Hydronic, HydronicEnd, u32, f64);

/// The first substep's heat is nearly equal to a limit a thousand times as large, so that the replay
/// is a thousand times as long.
fn past_the_hours() -> (Battery, Hydronic) {
    let slow = Hydronic { flow: 0.001, hex_b: 0.001, ..WET };
    let call = Hydronic { hours: 0.15 / 3600.0, limit: 1e-10 / 3600.0, ..slow };
    (battery(69.999999, 0.1), call)
}

/// The heats of two layers cancel. The last place of hex b settles on which side of the inlet the
/// outlet ends.
fn nothing_taken_up(hex_b: f64) -> (Battery, Hydronic) {
    let mut battery = Battery::fresh(&Card { layers: 2, start: 76.0, ..points_card() });
    battery.state.zones = vec![1e20, 40.0];
    (battery, Hydronic { hex_b, limit: 0.0, ..WET })
}

const HEX_B: f64 = 1673.6;

fn figures() -> Vec<Figure> {
    use HydronicEnd::{Hours, NoReplay, Outlet, Replay};
    let limited = Hydronic { limit: 0.001, ..WET };
    let given = |seconds: f64| Hydronic { hours: seconds / 3600.0, ..WET };
    let (slow, past) = past_the_hours();
    let (cancelling, nothing) = nothing_taken_up(HEX_B.next_up());
    let (warmer, outlet) = nothing_taken_up(HEX_B);
    vec![
        (battery(40.0, 0.1), given(0.35), Hours, 3, 0.30000000000000004),
        // A sum: the product is 0.6000000000000001.
        (battery(40.0, 0.1), given(0.65), Hours, 6, 0.6),
        (battery(40.0, 20.0), limited, Replay, 2, 0.2634034416826004),
        (battery(40.0, 0.1), limited, Replay, 4, 0.2660380772135669),
        (battery(40.0, 20.0), WET, Outlet, 3, 60.0),
        (battery(60.0, 20.0), Hydronic { inlet: 40.0, ..WET }, Outlet, 1, 20.0),
        (slow, past, Replay, 2, 100.71701860771896),
        (cancelling, nothing, NoReplay, 1, 20.0),
        (warmer, outlet, Outlet, 1, 20.0),
        (battery(40.0, 20.0), Hydronic { hours: 0.0, ..WET }, Hours, 0, 0.0),
        (battery(40.0, 20.0), Hydronic { limit: 0.0, ..WET }, Replay, 2, 0.0),
    ]
}

/// The same answer but for its time.
fn timed(answer: &Answer, time: f64) -> Answer {
    Answer { time, ..answer.clone() }
}

#[test]
fn the_figures() {
    for (battery, fields, end, substeps, time) in figures() {
        assert_eq!(plain::hydronic_end(&battery, &fields), Ok(end));
        let call = Call::Hydronic(fields);
        for step in STEPS {
            let [(untimed, _), (shown, after)] = PAIR.map(|v| step(v, &battery, &call));
            assert!(step(3, &battery, &call).0.same_bits(&shown));
            assert_eq!((shown.refusal, shown.substeps), (0, substeps));
            assert_eq!(shown.time.to_bits(), time.to_bits());
            assert!(untimed.same_bits(&timed(&shown, 0.0)));
            assert_eq!(after.state.totals.numbers()[..3], [0.0; 3]);
        }
    }
}

#[test]
fn what_else_the_readings_say_of_them() {
    for step in STEPS {
        let answer =
            |battery: &Battery, fields: Hydronic| step(2, battery, &Call::Hydronic(fields)).0;
        let (start, warm) = (battery(40.0, 20.0), battery(60.0, 20.0));
        assert_eq!(answer(&start, Hydronic { limit: 0.001, ..WET }).state.zones, [40.9]);
        assert_eq!(answer(&warm, Hydronic { inlet: 40.0, ..WET }).energy, 0.0);
        let (slow, past) = past_the_hours();
        assert!(answer(&slow, past).time > past.hours * 3600.0);
        for hex_b in [HEX_B, HEX_B.next_up()] {
            let (cancelling, nothing) = nothing_taken_up(hex_b);
            assert_eq!(answer(&cancelling, nothing).energy, 0.0);
        }
        // A refusal line shows 0.
        let short = Battery { card: Card { budget: 2, ..start.card }, ..start };
        assert!(answer(&short, WET).same_bits(&Answer::refused(22, &short.state)));
    }
}

/// Each figure's line on a sheet of every version, with the time that its version shows and with
/// the other one.
#[test]
fn the_other_versions_time_is_43() {
    for (battery, fields, _, _, time) in figures() {
        if battery.state.zones.iter().any(|zone| *zone != battery.card.start) {
            continue; // no sheet opens with these zones
        }
        let call = Call::Hydronic(fields);
        for step in STEPS {
            let (shown, _) = step(2, &battery, &call);
            for (version, due, other) in [(1, 0.0, time), (2, time, 0.0), (3, time, 0.0)] {
                let with = |time| {
                    let opening = sheet::opening(version, &battery.card);
                    [opening, sheet::call_line(version, &call, &timed(&shown, time))].concat()
                };
                assert_eq!(audit_by(step, &with(due)), Verdict::Accepted(1));
                if due != other {
                    assert_eq!(audit_by(step, &with(other)), Verdict::refused(43, 1));
                }
            }
        }
    }
}

/// How often hydronic charges of drawn lists end in each way, after the version's time of every
/// call was compared.
fn ends(calls: u64) -> BTreeMap<Result<HydronicEnd, u8>, u64> {
    let mut random = Random::new(17);
    let mut ends = BTreeMap::new();
    for _ in 0..calls {
        let card = generate::card(&mut random);
        let battery = generate::battery(&mut random, &card);
        let call = generate::next_call(&mut random, PAIR[0], &battery);
        let [(untimed, _), (shown, _)] = PAIR.map(|v| plain::step(v, &battery, &call));
        let Call::Hydronic(fields) = call else {
            assert!(untimed.same_bits(&shown), "{call:?}");
            continue;
        };
        assert!(untimed.same_bits(&timed(&shown, 0.0)), "{call:?}");
        let end = plain::hydronic_end(&battery, &fields);
        let sum = |count| (0..count).fold(0.0, |sum, _| sum + card.substep);
        match end {
            _ if shown.refusal != 0 => assert_eq!(shown.time, 0.0),
            Ok(HydronicEnd::Replay) => assert!(shown.time >= sum(shown.substeps - 2), "{call:?}"),
            _ => assert_eq!(shown.time, sum(shown.substeps), "{call:?}"),
        }
        *ends.entry(end).or_insert(0) += 1;
    }
    ends
}

#[test]
fn drawn_charges_end_in_every_way() {
    use HydronicEnd::{Hours, NoReplay, Outlet, Replay};
    let ends = ends(100_000);
    for (end, least) in [(Hours, 2000), (Outlet, 2000), (Replay, 2000), (NoReplay, 20)] {
        let count = ends.get(&Ok(end)).copied().unwrap_or(0);
        assert!(count >= least, "{end:?}: {count}");
    }
}
