//! Sheets that are accepted, and those of the limit of length.

use super::{
    card, demand, hydronic, many_services, one_of_each, run, services, written, written_in, Named,
};
use crate::auditor::MOST_BYTES;
use crate::fields;
use crate::model::{Call, Card, Demand, Hydronic, Services};
use crate::plain::FLOOR;
use crate::sheet;

const KINDS: [&str; 7] = [
    "demand",
    "electric",
    "hydronic",
    "standing_loss",
    "close_timestep",
    "state_of_charge",
    "charge_energy_demand",
];

pub fn all() -> Vec<Named> {
    let mut sheets = vec![
        Named::accepted("opening", written(&card(1), &[]), 0),
        Named::accepted("opening_version_2", written_in(2, &card(1), &[]), 0),
        Named::accepted("opening_version_3", written_in(3, &card(1), &[]), 0),
        Named::accepted("opening_32_services", written_in(3, &listing(many_services(32)), &[]), 0),
        Named::accepted("opening_version_4", written_in(4, &card(1), &[]), 0),
        Named::accepted("opening_floor_32_services", floor_32_services(), 0),
        all_kinds(1, Services::default(), 0, "all_kinds"),
        all_kinds(2, Services::default(), 0, "all_kinds_version_2"),
        all_kinds(3, services(&[(4, 1), (256, 3), (65535, 2)]), 0, "all_kinds_version_3"),
        all_kinds(4, services(&[(4, 1), (256, 3), (65535, 2)]), 1, "all_kinds_version_4"),
        hydronic_times(),
        listed_services(),
        losses(3, 0, "losses_in_version_3"),
        losses(4, 0, "losses_without_floor"),
        losses(4, 1, "losses_with_floor"),
        floor_by_layers(),
        floor_in_other_kinds(),
    ];
    sheets.extend(floors());
    for (name, call) in KINDS.iter().zip(one_of_each()) {
        sheets.push(Named::accepted(&format!("kind_{name}"), written(&card(1), &[call]), 1));
    }
    sheets.extend([layers_64(), layers_64_charging(), zero_signs()]);
    sheets.extend(of_length(64, "longest_64_layers"));
    sheets.extend(of_length(1, "longest_1_layer"));
    sheets.push(too_long());
    sheets
}

/// The card of one layer with a list.
fn listing(services: Services) -> Card {
    Card { services, ..card(1) }
}

fn floor_32_services() -> Vec<u8> {
    written_in(4, &Card { floor: 1, ..listing(many_services(32)) }, &[])
}

/// The points card with a flag, a start and losses.
fn losing(floor: u8, start: f64, losses: f64) -> Card {
    Card { floor, start, losses, ..card(1) }
}

/// Point 76 °C, which loses three times. Without the floor it ends at -103 °C.
fn losses(version: u8, floor: u8, name: &str) -> Named {
    let bytes = written_in(version, &losing(floor, 76.0, 0.25), &[Call::StandingLoss; 3]);
    let after = [(-103.0, 0.25), (FLOOR, 0.11777777777777777)][usize::from(floor)];
    let lines = fields::lines(&bytes);
    for (line, energy) in lines.iter().zip([after.1, 0.0, 0.0]) {
        let shown = [line.state(), line.energy()].map(|at| fields::number_at(&bytes, at));
        assert_eq!(shown, [after.0, energy]);
    }
    Named::accepted(name, bytes, 3)
}

/// Losses that end at the floor in their own ways.
fn floors() -> [Named; 6] {
    let below = Card { below: 1.3, ..losing(1, 56.3, 0.12332506203473946) };
    let cards = [
        ("floor_met", losing(1, 16.5, 0.06666666666666668), FLOOR, 0.0005555555555555557),
        ("floor_nearly", losing(1, 16.000000001, 1.0), 16.000000001, 1.666666804567285e-11),
        ("floor_holding_more", below, FLOOR, 0.08283333333333333),
        ("floor_without_rest", losing(1, 18.7, 0.86), FLOOR, 0.002999999999999999),
        ("floor_at_start", losing(1, FLOOR, 1000.0), FLOOR, 0.0),
        ("floor_above_start", losing(1, -50.0, 1000.0), -50.0, 0.0),
    ];
    cards.map(|(name, card, zone, energy)| {
        let bytes = written_in(4, &card, &[Call::StandingLoss]);
        let line = fields::lines(&bytes)[0];
        let shown = [line.state(), line.energy()].map(|at| fields::number_at(&bytes, at));
        assert_eq!(shown, [zone, energy], "{name}");
        Named::accepted(name, bytes, 1)
    })
}

/// Eight layers, whose sum is Sum2's.
fn floor_by_layers() -> Named {
    let card = Card { layers: 8, ..losing(1, 76.3, 1.0) };
    let bytes = written_in(4, &card, &[Call::StandingLoss]);
    let energy = fields::number_at(&bytes, fields::lines(&bytes)[0].energy());
    assert_eq!(energy, 0.11794444444444445);
    Named::accepted("floor_by_layers", bytes, 1)
}

/// With the flag 1 a demand takes zones under the floor, and a loss leaves them there.
fn floor_in_other_kinds() -> Named {
    let card = Card { layers: 2, ..losing(1, 20.0, 0.25) };
    let mut calls = vec![Call::Demand(demand(0.01)), Call::StandingLoss];
    calls.extend(one_of_each());
    let bytes = written_in(4, &card, &calls);
    let first = |line: usize| fields::number_at(&bytes, fields::lines(&bytes)[line].state());
    assert!(first(0) < FLOOR && first(0) == first(1), "{} {}", first(0), first(1));
    Named::accepted("floor_in_other_kinds", bytes, calls.len() as u64)
}

/// Demands of listed numbers and of others: which hours they count to, what 21 refuses and what a
/// trial may ask.
fn listed_services() -> Named {
    let list = [(4, 1), (5, 2), (255, 3), (256, 1), (257, 2), (515, 3), (32767, 1), (32768, 3)];
    let of = |service_type| Demand { service_type, ..demand(0.001) };
    let trial = |service_type| Demand { commit: 0, ..of(service_type) };
    let calls = [
        (of(4), 0),
        (of(5), 0),
        (of(255), 0),
        (of(256), 0),
        (of(257), 0),
        (of(515), 0),
        (of(32767), 0),
        (of(32768), 0),
        (of(1), 0),
        (of(2), 0),
        (of(3), 0),
        (of(0), 21),
        (of(6), 21),
        (of(254), 21),
        (of(258), 21),
        (of(32769), 21),
        (of(65535), 21),
        (Demand { return_temperature: None, ..of(6) }, 20),
        (Demand { required: 1e-10, ..of(6) }, 0),
        (trial(6), 0),
        (trial(65535), 0),
        (trial(515), 0),
    ];
    let (bytes, results) =
        run(3, &listing(services(&list)), &calls.map(|(fields, _)| Call::Demand(fields)));
    assert_eq!(results, calls.map(|(_, result)| result));
    Named::accepted("services", bytes, calls.len() as u64)
}

/// b at which the outlet's denominator of one of 25 layers vanishes at 6 l/min.
const SINGULAR_B: f64 = -20920.0;

/// Calls that end in 23 and in 24 on 25 layers at 60 °C or about it.
fn unbounded(hex_b: f64) -> Call {
    Call::Hydronic(Hydronic { hex_a: 0.0, hex_b, limit: 0.0, ..hydronic() })
}

/// All seven kinds, and each of 20 to 25.
fn all_kinds(version: u8, services: Services, floor: u8, name: &str) -> Named {
    let salt = Card { below: 400.0, during: 3200.0, above: 200.0, services, floor, ..card(25) };
    let card = Card { budget: 60, max: 59.0, power: 3.0, simultaneous: 1, ..salt };
    let list = [
        (Call::StateOfCharge, 25),
        (Call::ChargeEnergyDemand { flow_maximum: None, target: 0.0 }, 25),
        (unbounded(SINGULAR_B), 23),
        (unbounded(SINGULAR_B * (1.0 + 1e-10)), 24),
        (Call::Demand(Demand { return_temperature: None, ..demand(0.1) }), 20),
        (Call::Demand(Demand { service_type: 0, ..demand(0.1) }), 21),
        (Call::Demand(Demand { service_type: 0, commit: 0, ..demand(0.02) }), 0),
        (Call::Demand(Demand { service_type: 0, return_temperature: None, ..demand(1e-10) }), 0),
        (Call::Demand(demand(0.05)), 0),
        (Call::Demand(Demand { service_type: 3, control_on: 0, start: 0.5, ..demand(0.01) }), 0),
        (Call::Demand(demand(1000.0)), 22),
        (Call::Hydronic(Hydronic { hours: 24.0, limit: 1e6, ..hydronic() }), 22),
        (Call::StandingLoss, 0),
        (Call::Electric { power: 0.05, target: 0.9 }, 0),
        (Call::Hydronic(hydronic()), 0),
        (Call::CloseTimestep, 0),
        (Call::StateOfCharge, 0),
        (Call::ChargeEnergyDemand { flow_maximum: Some(55.0), target: 1.0 }, 0),
        (Call::ChargeEnergyDemand { flow_maximum: None, target: 1.0 }, 0),
    ];
    let (bytes, results) = run(version, &card, &list.map(|(call, _)| call));
    assert_eq!(results, list.map(|(_, result)| result));
    Named::accepted(name, bytes, list.len() as u64)
}

/// Charges of version 2 with every sort of time: none, as there is no room for a substep; none, as a
/// replay ends at once; a fraction of a substep, and with whole ones before it; whole ones that the
/// hours end, and the outlet; and that of a refused one.
fn hydronic_times() -> Named {
    let card = Card { start: 40.0, substep: 0.1, budget: 2000, ..card(1) };
    let wet = Hydronic { hours: 1.0, limit: 1e6, hex_a: 0.0, hex_b: 1000.0, ..hydronic() };
    let limited = |limit| Hydronic { limit, ..wet };
    let given = |seconds: f64| Hydronic { hours: seconds / 3600.0, ..wet };
    let list = [
        (given(0.05), 0.0),
        (limited(0.0), 0.0),
        (limited(0.0001), 0.02634034416826004),
        (limited(0.001), 0.2668490326552513),
        (given(0.35), 0.30000000000000004),
        (given(0.65), 0.6), // the product is 0.6000000000000001
        (Hydronic { inlet: 30.0, ..wet }, 0.1),
        (Hydronic { hours: 24.0, flow: 0.001, ..wet }, 0.0),
    ];
    let bytes = written_in(2, &card, &list.map(|(fields, _)| Call::Hydronic(fields)));
    for (line, (_, time)) in fields::lines(&bytes).iter().zip(list) {
        assert_eq!(fields::number_at(&bytes, line.time()), time);
    }
    Named::accepted("hydronic_times", bytes, list.len() as u64)
}

fn layers_64() -> Named {
    Named::accepted("layers_64", written(&card(64), &one_of_each()), 7)
}

/// Two units that charge while they give heat, called twice in two timesteps.
fn layers_64_charging() -> Named {
    let card = Card { units: 2, simultaneous: 1, power: 20.0, start: 45.0, ..card(64) };
    let calls = [one_of_each(), one_of_each()].concat();
    Named::accepted("layers_64_charging", written(&card, &calls), 14)
}

/// Zeros of answers with the other sign: energy, time and totals of a closing line.
fn zero_signs() -> Named {
    let mut bytes = written(&card(1), &[Call::CloseTimestep]);
    let line = fields::lines(&bytes)[0];
    for at in line.numbers() {
        let x = fields::number_at(&bytes, at);
        fields::put_number(&mut bytes, at, if x == 0.0 { -0.0 } else { x });
    }
    Named::accepted("zero_signs", bytes, 1)
}

// ---- Lengths

/// How many lines of kinds 1, 2, 3 and 7 make up a length that lines without fields don't.
fn fill(rest: usize, extra: [usize; 4]) -> Option<[usize; 4]> {
    let counts = |extra| 1..=rest / extra;
    for demands in counts(extra[0]) {
        for electrics in counts(extra[1]) {
            for hydronics in counts(extra[2]) {
                let used = demands * extra[0] + electrics * extra[1] + hydronics * extra[2];
                let left = rest.saturating_sub(used);
                if left > 0 && left.is_multiple_of(extra[3]) {
                    return Some([demands, electrics, hydronics, left / extra[3]]);
                }
            }
        }
    }
    None
}

/// A list with all kinds whose sheet has the most bytes that the program takes.
fn filling_list(layers: u8) -> Vec<Call> {
    let [demand, electric, hydronic, loss, close, level, charge] = one_of_each();
    let shortest = 2 + 1 + sheet::answer_length(layers);
    let extra = [1, 2, 3, 7].map(|kind| sheet::call_length(1, kind).expect("a known kind") - 1);
    let room = MOST_BYTES - sheet::opening(1, &card(layers)).len();
    let mut lines = room / shortest;
    let counts = loop {
        match fill(room - lines * shortest, extra) {
            Some(counts) => break counts,
            None => lines -= 1,
        }
    };
    let mut calls = Vec::new();
    for (call, count) in [demand, electric, hydronic, charge].into_iter().zip(counts) {
        calls.extend(vec![call; count]);
    }
    while calls.len() < lines {
        calls.push([loss, close, level][calls.len() % 3]);
    }
    calls
}

/// A sheet of exactly the most bytes, and the same with one byte more.
fn of_length(layers: u8, name: &str) -> [Named; 2] {
    let calls = filling_list(layers);
    let bytes = written(&card(layers), &calls);
    assert_eq!(bytes.len(), MOST_BYTES);
    let longer = [&bytes[..], &[0]].concat();
    [
        Named::accepted(name, bytes, calls.len() as u64),
        Named::refused(&format!("{name}_and_a_byte"), longer, 44, 0),
    ]
}

/// Lines that agree, but too many.
fn too_long() -> Named {
    let mut calls = filling_list(64);
    calls.push(Call::CloseTimestep);
    Named::refused("too_long", written(&card(64), &calls), 44, 0)
}
