//! Sheets that are refused, each with one thing wrong unless its name says more.

use super::{card, demand, many_services, one_of_each, services, written, written_in, Named};
use crate::fields::{self, Line};
use crate::model::{Call, Card, Demand, Services};
use crate::sheet;

pub fn all() -> Vec<Named> {
    let mut sheets = refused_40();
    sheets.extend(refused_41());
    sheets.extend(refused_42());
    sheets.extend(refused_43());
    sheets.extend(hydronic_times());
    sheets.extend(refused_services());
    sheets.extend(refused_floors());
    sheets.extend(order());
    sheets.push(Named::refused("zeros_44", vec![0; 65_537], 44, 0));
    sheets
}

/// One line of each kind on two layers; line k is of kind k.
fn whole() -> Vec<u8> {
    whole_in(1)
}

fn whole_in(version: u8) -> Vec<u8> {
    written_in(version, &card(2), &one_of_each())
}

/// The sheet of `whole` with line k changed.
fn changed(k: usize, change: impl FnOnce(&mut Vec<u8>, Line)) -> Vec<u8> {
    changed_in(1, k, change)
}

fn changed_in(version: u8, k: usize, change: impl FnOnce(&mut Vec<u8>, Line)) -> Vec<u8> {
    let mut bytes = whole_in(version);
    let line = fields::lines(&bytes)[k - 1];
    change(&mut bytes, line);
    bytes
}

/// A sheet of a version whose first byte says another one.
fn turned(version: u8, said: u8) -> Vec<u8> {
    [&[said], &whole_in(version)[1..]].concat()
}

fn refused_40() -> Vec<Named> {
    vec![
        Named::refused("empty", Vec::new(), 40, 0),
        Named::refused("version_0", turned(1, 0), 40, 0),
        Named::refused("version_5", turned(4, 5), 40, 0),
        Named::refused("version_255", turned(2, 255), 40, 0),
    ]
}

/// An opening with the card's line in another length.
fn card_line(length: u16) -> Vec<u8> {
    let mut bytes = whole();
    bytes[1..3].copy_from_slice(&length.to_be_bytes());
    bytes
}

fn refused_41() -> Vec<Named> {
    let with_card = |card: Card| {
        let mut bytes = whole();
        bytes.splice(..fields::opening_end(&bytes), sheet::opening(1, &card));
        bytes
    };
    let good = card(2);
    let cards = [
        ("card_layers_0", Card { layers: 0, ..good }),
        ("card_layers_65", Card { layers: 65, ..good }),
        ("card_simultaneous_2", Card { simultaneous: 2, ..good }),
        ("card_budget_0", Card { budget: 0, ..good }),
        ("card_nan", Card { power: f64::NAN, ..good }),
        ("card_above", Card { flow: 1000f64.next_up(), ..good }),
        ("card_lower_above_upper", Card { lower: 56f64.next_up(), ..good }),
        ("card_max_20", Card { max: 20.0, ..good }),
        ("card_max_below_ref", Card { reference: 80f64.next_up(), ..good }),
        ("card_max_near_ref", Card { reference: 80.0 - 9e-11, ..good }),
    ];
    let mut sheets = vec![
        Named::refused("one_byte", vec![1], 41, 0),
        Named::refused("card_length_cut", whole()[..2].to_vec(), 41, 0),
        Named::refused("card_cut", whole()[..160].to_vec(), 41, 0),
        Named::refused("card_157", card_line(157), 41, 0),
        Named::refused("card_159", card_line(159), 41, 0),
    ];
    sheets.extend(cards.map(|(name, card)| Named::refused(name, with_card(card), 41, 0)));
    sheets
}

fn refused_42() -> Vec<Named> {
    let mut sheets = broken_lines();
    sheets.extend(broken_calls());
    sheets
}

/// Lengths, kinds and the outlet's mark.
fn broken_lines() -> Vec<Named> {
    let whole = whole();
    let last = fields::lines(&whole)[6];
    let length = |k, by: u8| {
        changed(k, |bytes, line| bytes[line.at + 1] = bytes[line.at + 1].wrapping_add(by))
    };
    let kind = |k, kind| changed(k, |bytes, line| bytes[line.call()] = kind);
    let outlet =
        |k, at: usize, byte| changed(k, |bytes, line| bytes[line.outlet_mark() + at] = byte);
    vec![
        Named::refused("line_cut", whole[..whole.len() - 1].to_vec(), 42, 7),
        Named::refused("line_length_cut", whole[..last.at + 1].to_vec(), 42, 7),
        Named::refused("line_empty", whole[..last.at + 2].to_vec(), 42, 7),
        Named::refused("byte_behind", [&whole[..], &[0]].concat(), 42, 8),
        Named::refused("line_longer", length(4, 1), 42, 4),
        Named::refused("line_shorter", length(4, 255), 42, 4),
        Named::refused("kind_0", kind(4, 0), 42, 4),
        Named::refused("kind_8", kind(5, 8), 42, 5),
        Named::refused("kind_of_other_length", kind(2, 7), 42, 2),
        Named::refused("outlet_mark_2", outlet(1, 0, 2), 42, 1),
        Named::refused("outlet_absent_bytes", outlet(6, 8, 1), 42, 6),
        Named::refused("outlet_absent_negative_zero", outlet(3, 1, 128), 42, 3),
    ]
}

/// Flags, marks and fields of refusal 10.
fn broken_calls() -> Vec<Named> {
    let byte = |k, at: usize, byte| changed(k, |bytes, line| bytes[line.call() + at] = byte);
    let number =
        |k, at: usize, x| changed(k, |bytes, line| fields::put_number(bytes, line.call() + at, x));
    vec![
        Named::refused("type_4", byte(1, 1, 4), 42, 1),
        Named::refused("commit_2", byte(1, 2, 2), 42, 1),
        Named::refused("control_2", byte(1, 3, 2), 42, 1),
        Named::refused("return_mark_2", byte(1, 20, 2), 42, 1),
        Named::refused("return_absent_bytes", byte(1, 20, 0), 42, 1),
        Named::refused("flow_maximum_mark_255", byte(7, 1, 255), 42, 7),
        Named::refused("flow_maximum_absent_negative_zero", byte(7, 2, 128), 42, 7),
        Named::refused("required_above", number(1, 4, 1e6f64.next_up()), 42, 1),
        Named::refused("start_above_timestep", number(1, 12, 1f64.next_up()), 42, 1),
        Named::refused("power_nan", number(2, 1, f64::NAN), 42, 2),
        Named::refused("target_above_1", number(2, 9, 1f64.next_up()), 42, 2),
        Named::refused("hours_below_0", number(3, 9, -f64::from_bits(1)), 42, 3),
        Named::refused("diameter_below", number(3, 65, 0.00001f64.next_down()), 42, 3),
        Named::refused("flow_infinite", number(3, 17, f64::INFINITY), 42, 3),
    ]
}

fn refused_43() -> Vec<Named> {
    let byte = |k, at: fn(&Line) -> usize, byte| changed(k, |bytes, line| bytes[at(&line)] = byte);
    let next = |k, at: fn(&Line) -> usize| {
        changed(k, |bytes, line| {
            let x = fields::number_at(bytes, at(&line)).next_up();
            fields::put_number(bytes, at(&line), x);
        })
    };
    vec![
        Named::refused("refusal_22", byte(4, Line::answer, 22), 43, 4),
        Named::refused("energy", next(2, Line::energy), 43, 2),
        Named::refused("energy_of_closing", next(5, Line::energy), 43, 5),
        Named::refused("outlet", next(1, Line::outlet), 43, 1),
        Named::refused("outlet_not_due", byte(4, Line::outlet_mark, 1), 43, 4),
        Named::refused("time", next(1, Line::time), 43, 1),
        Named::refused("substeps", byte(4, |line| line.substeps() + 3, 2), 43, 4),
        Named::refused("first_zone", next(3, Line::state), 43, 3),
        Named::refused("last_zone", next(3, |line| line.state() + 8), 43, 3),
        Named::refused("running_hours", next(1, |line| line.end() - 40), 43, 1),
        Named::refused("pump_hours", next(1, |line| line.end() - 32), 43, 1),
        Named::refused("direct_hours", next(1, |line| line.end() - 24), 43, 1),
        Named::refused("charged", next(3, |line| line.end() - 16), 43, 3),
        Named::refused("charged_electric", next(7, |line| line.end() - 8), 43, 7),
        Named::refused("zone_nan", zone_nan(), 43, 7),
        Named::refused("outlet_missing", outlet_missing(), 43, 1),
        Named::refused("refused_without_case", refused_without_case(), 43, 1),
        Named::refused("answered_against_20", answered_against_20(), 43, 1),
        Named::refused("line_missing", line_missing(), 43, 1),
        Named::refused("zones_carried_on", zones_carried_on(), 43, 1),
    ]
}

/// The time of line 3, which is due in version 2 and is 0 in version 1.
fn hydronic_times() -> Vec<Named> {
    let with = |version, change: fn(f64) -> f64| {
        changed_in(version, 3, |bytes, line| {
            let time = change(fields::number_at(bytes, line.time()));
            fields::put_number(bytes, line.time(), time);
        })
    };
    vec![
        Named::refused("version_2", turned(1, 2), 43, 3),
        Named::refused("version_2_turned_to_1", turned(2, 1), 43, 3),
        Named::refused("hydronic_time", with(2, f64::next_up), 43, 3),
        Named::refused("hydronic_time_nan", with(2, |_| f64::NAN), 43, 3),
        Named::refused("hydronic_time_in_version_1", with(1, |_| 20.0), 43, 3),
    ]
}

/// A sheet of version 3 whose card lists these, whether 61 refuses them or not.
fn listing(services: Services) -> Vec<u8> {
    let mut bytes = whole_in(3);
    let card = Card { services, ..card(2) };
    bytes.splice(..fields::opening_end(&bytes), sheet::opening(3, &card));
    bytes
}

/// A sheet of version 3 with one demand of a type and its answer, then with another type in its
/// place. Number 300 is regular, 301 direct.
fn retyped(before: u16, after: u16) -> Vec<u8> {
    let card = Card { services: services(&[(300, 1), (301, 3)]), ..card(2) };
    let call = Call::Demand(Demand { service_type: before, ..demand(0.05) });
    let mut bytes = written_in(3, &card, &[call]);
    let line = fields::lines(&bytes)[0];
    bytes[line.service_type()].copy_from_slice(&after.to_be_bytes());
    bytes
}

/// Lengths and lists of version 3's card, its calls, and services that answer otherwise.
fn refused_services() -> Vec<Named> {
    let refused =
        |name: &str, listed: &[(u16, u8)]| Named::refused(name, listing(services(listed)), 41, 0);
    let count = |count: u8| {
        let mut bytes = listing(services(&[(4, 1), (5, 2)]));
        bytes[3 + sheet::CARD_BYTES] = count;
        bytes
    };
    // 255 bytes, which would be those of 32 services.
    let mut short = listing(many_services(32));
    short[3 + sheet::CARD_BYTES] = 33;
    let no_layers = Card { services: many_services(33), layers: 0, ..card(2) };
    let old = &whole_in(2)[fields::opening_end(&whole_in(2))..];
    let flag = |at: usize| changed_in(3, 1, |bytes, line| bytes[line.call() + at] = 2);
    vec![
        Named::refused("version_3", turned(2, 3), 41, 0),
        Named::refused("version_3_turned_to_2", turned(3, 2), 41, 0),
        Named::refused("services_count_1_for_2", count(1), 41, 0),
        Named::refused("services_count_3_for_2", count(3), 41, 0),
        Named::refused("services_33_in_255_bytes", short, 41, 0),
        Named::refused("services_33", listing(many_services(33)), 41, 0),
        Named::refused("services_33_layers_0", sheet::opening(3, &no_layers), 41, 0),
        Named::refused("services_255", listing(many_services(255)), 41, 0),
        refused("services_twice", &[(4, 1), (4, 1)]),
        refused("services_falling", &[(256, 1), (255, 2)]),
        refused("service_3", &[(3, 3)]),
        refused("service_0", &[(0, 1), (4, 1)]),
        refused("service_class_0", &[(4, 0)]),
        refused("service_class_4", &[(4, 1), (5, 4)]),
        Named::refused(
            "version_2_line_in_version_3",
            [&sheet::opening(3, &card(2)), old].concat(),
            42,
            1,
        ),
        Named::refused("commit_2_in_version_3", flag(3), 42, 1),
        Named::refused("control_2_in_version_3", flag(4), 42, 1),
        Named::refused("return_mark_2_in_version_3", flag(21), 42, 1),
        Named::refused("service_unlisted", retyped(300, 302), 43, 1),
        Named::refused("service_exchanged", retyped(300, 300u16.swap_bytes()), 43, 1),
        Named::refused("service_of_another_class", retyped(300, 301), 43, 1),
        Named::refused("service_refused_though_listed", retyped(302, 300), 43, 1),
    ]
}

/// A sheet of version 4 with a loss from 76 °C whose card is then changed.
fn reflagged(floor: u8, change: impl FnOnce(&mut Card)) -> Vec<u8> {
    let mut card = Card { start: 76.0, floor, ..card(1) };
    let mut bytes = written_in(4, &card, &[Call::StandingLoss]);
    change(&mut card);
    bytes.splice(..fields::opening_end(&bytes), sheet::opening(4, &card));
    bytes
}

/// The flag and the length of version 4's card, and losses that answer otherwise.
fn refused_floors() -> Vec<Named> {
    let flag = |floor| reflagged(1, |card| card.floor = floor);
    let opening = |card: Card| sheet::opening(4, &card);
    let listing = |count, floor| Card { services: many_services(count), floor, ..card(2) };
    let cut = |bytes: Vec<u8>| {
        let (last, length) = (bytes.len() - 1, (bytes.len() - 4) as u16);
        [&bytes[..1], &length.to_be_bytes(), &bytes[3..last]].concat()
    };
    // A flag of 1 in the place of the count, and the count behind it.
    let mut first = opening(Card { floor: 1, ..card(2) });
    first[3 + sheet::CARD_BYTES..].rotate_left(1);
    vec![
        Named::refused("version_4", turned(3, 4), 41, 0),
        Named::refused("version_4_turned_to_3", turned(4, 3), 41, 0),
        Named::refused("version_4_turned_to_2", turned(4, 2), 41, 0),
        Named::refused("version_2_turned_to_4", turned(2, 4), 41, 0),
        Named::refused("flag_2", flag(2), 41, 0),
        Named::refused("flag_16", flag(16), 41, 0),
        Named::refused("flag_255", flag(255), 41, 0),
        Named::refused("flag_2_behind_33_services", opening(listing(33, 2)), 41, 0),
        Named::refused("flag_1_behind_33_services", opening(listing(33, 1)), 41, 0),
        Named::refused("flag_0_behind_255_services", opening(listing(255, 0)), 41, 0),
        Named::refused("flag_missing_behind_32_services", cut(opening(listing(32, 1))), 41, 0),
        Named::refused("flag_before_services", first, 41, 0),
        Named::refused("flag_0_for_1", flag(0), 43, 1),
        Named::refused("flag_1_for_0", reflagged(0, |card| card.floor = 1), 43, 1),
        Named::refused("floor_whole_energy", with_energy(0.25), 43, 1),
        Named::refused("floor_energy", with_energy(0.11777777777777777f64.next_up()), 43, 1),
        Named::refused("floor_zone", with_zone(16f64.next_up()), 43, 1),
    ]
}

/// A loss from 76 °C to the floor that shows another energy.
fn with_energy(energy: f64) -> Vec<u8> {
    let mut bytes = reflagged(1, |_| {});
    let line = fields::lines(&bytes)[0];
    fields::put_number(&mut bytes, line.energy(), energy);
    bytes
}

/// The same with another zone.
fn with_zone(zone: f64) -> Vec<u8> {
    let mut bytes = reflagged(1, |_| {});
    let line = fields::lines(&bytes)[0];
    fields::put_number(&mut bytes, line.state(), zone);
    bytes
}

fn zone_nan() -> Vec<u8> {
    changed(7, |bytes, line| fields::put_number(bytes, line.state(), f64::NAN))
}

/// No outlet on a demand that ran.
fn outlet_missing() -> Vec<u8> {
    changed(1, |bytes, line| bytes[line.outlet_mark()..line.time()].fill(0))
}

/// The refusal line of 20 for a demand with a return temperature.
fn refused_without_case() -> Vec<u8> {
    let absent = Call::Demand(Demand { return_temperature: None, ..demand(0.05) });
    let mut bytes = written(&card(2), &[absent]);
    let line = fields::lines(&bytes)[0];
    bytes[line.return_mark()] = 1;
    fields::put_number(&mut bytes, line.return_mark() + 1, 10.0);
    bytes
}

/// The answer to a demand whose return temperature is then taken away.
fn answered_against_20() -> Vec<u8> {
    changed(1, |bytes, line| bytes[line.return_mark()..line.answer()].fill(0))
}

/// The first line is missing, and the next one shows what it left.
fn line_missing() -> Vec<u8> {
    changed(1, |bytes, line| drop(bytes.drain(line.whole())))
}

/// Later lines follow from zones that the first one got wrong: half a degree too warm.
fn zones_carried_on() -> Vec<u8> {
    let cold = written(&card(1), &[Call::CloseTimestep, Call::StandingLoss]);
    let warm = Card { start: 60.5, ..card(1) };
    let warm = written(&warm, &[Call::CloseTimestep, Call::StandingLoss]);
    let (cold_end, warm_end) = (fields::opening_end(&cold), fields::opening_end(&warm));
    [&cold[..cold_end], &warm[warm_end..]].concat()
}

/// The lowest line wins, 42 before 43.
fn order() -> Vec<Named> {
    let two = |k43: usize, k42: usize| {
        let mut bytes = whole();
        let lines = fields::lines(&bytes);
        bytes[lines[k43 - 1].answer()] = 25;
        bytes[lines[k42 - 1].call()] = 9;
        bytes
    };
    vec![
        Named::refused("order_42_and_43_on_line_3", two(3, 3), 42, 3),
        Named::refused("order_43_on_2_42_on_5", two(2, 5), 43, 2),
        Named::refused("order_42_on_2_43_on_5", two(5, 2), 42, 2),
    ]
}
