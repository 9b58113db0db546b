//! Random cards, batteries and calls, weighted to every edge of document 01's ranges.

use crate::model::{
    has_floor_flag, is_known, lists_services, Battery, Call, Card, Demand, Hydronic, Service,
    Services, State, Totals, VERSIONS,
};
use crate::plain::{self, FLOOR, MOST_SERVICES};
use crate::random::Random;
use crate::ranges::{self, Range};
use std::collections::BTreeSet;

/// A known version.
pub fn version(random: &mut Random) -> u8 {
    random.pick(&VERSIONS)
}

/// Another byte than the known versions, most often next to them.
pub fn unknown_version(random: &mut Random) -> u8 {
    let newest = VERSIONS[VERSIONS.len() - 1];
    loop {
        let any = random.word() as u8;
        let version = random.pick(&[0, newest + 1, newest + 1, 49, 128, 255, any]);
        if !is_known(version) {
            return version;
        }
    }
}

/// One layer of 'Points to hit' with the other fields of the readings' small inputs.
pub fn points_card() -> Card {
    Card {
        layers: 1,
        units: 1,
        simultaneous: 0,
        budget: 1000,
        substep: 20.0,
        timestep: 1.0,
        initial_inlet: 10.0,
        estimated_outlet: 53.0,
        max: 80.0,
        reference: 0.0,
        lower: 48.0,
        upper: 56.0,
        below: 4.0,
        during: 32.0,
        above: 2.0,
        velocity: 0.1,
        diameter: 10.0,
        a: 0.0,
        b: 1000.0,
        flow: 6.0,
        losses: 0.25,
        start: 60.0,
        power: 0.0,
        services: Services::default(),
        floor: 0,
    }
}

/// A card as a maker would write it.
fn ordinary_card(random: &mut Random) -> Card {
    let lower = random.between(20.0, 70.0).round();
    let upper = lower + random.pick(&[0.0, 0.5, 2.0, 8.0]);
    Card {
        layers: layers(random),
        units: random.pick(&[1, 1, 1, 2, 3, 7]),
        simultaneous: random.below(2) as u8,
        budget: budget(random),
        substep: random.pick(&[20.0, 20.0, 60.0, 10.0, 300.0, 12.7, 7.3]),
        timestep: random.pick(&[0.5, 1.0, 1.0, 0.25]),
        initial_inlet: 10.0,
        estimated_outlet: 53.0,
        max: upper + random.between(0.5, 40.0),
        reference: random.between(0.0, lower + 10.0).round(),
        lower,
        upper,
        below: random.magnitude(20.0, 5000.0),
        during: random.magnitude(50.0, 50000.0),
        above: random.magnitude(20.0, 5000.0),
        velocity: random.between(0.01, 1.0),
        diameter: random.between(2.0, 20.0),
        a: random.pick(&[0.0, 0.0, 19.744, 100.0, -20.0]),
        b: random.magnitude(20.0, 2000.0),
        flow: random.between(1.0, 20.0),
        losses: random.between(0.0, 0.5),
        start: random.between(20.0, 90.0).round(),
        power: random.pick(&[0.0, 1.0, 3.0, 20.0]),
        services: Services::default(),
        floor: 0,
    }
}

/// 1 to 64, most often small.
fn layers(random: &mut Random) -> u8 {
    match random.below(20) {
        0..=4 => 1,
        5..=8 => 2,
        9..=16 => 3 + random.below(6) as u8,
        17 => 64,
        18 => 63,
        _ => 9 + random.below(54) as u8,
    }
}

/// 1 to 65535, most often some hundred; small enough at times to run out.
fn budget(random: &mut Random) -> u16 {
    match random.below(200) {
        0..=29 => 1 + random.below(4) as u16,
        30..=79 => 1 + random.below(60) as u16,
        80..=194 => 60 + random.below(400) as u16,
        195..=198 => 1 + random.below(4000) as u16,
        _ => random.pick(&[65535, 65534, 20000]),
    }
}

/// Puts one field, or one relation between fields, on an edge.
fn put_on_edge(random: &mut Random, card: &mut Card) {
    match random.below(17) {
        0 => card.upper = card.lower,
        1 => card.upper = card.lower.next_up(),
        2 => card.reference = random.near(card.lower),
        3 => card.reference = random.near(card.upper),
        4 => card.reference = random.between(card.lower, card.upper),
        5 => card.reference = card.upper + random.between(0.0, 20.0),
        6 => card.max = random.near(card.upper),
        7 => card.max = random.near(card.lower),
        8 => card.max = card.reference + random.pick(&[1e-10, 1.1e-10, 2e-10, 1e-6, 1.0]),
        9 => card.max = random.pick(&[20f64.next_up(), 20.5, 250.0]),
        10 => card.start = near_mark(random, card),
        11 => {
            card.a = 0.0;
            let b = random.near(equalizing_b(card.layers, card.flow));
            card.b = random.near(b);
        }
        _ => {
            let field = random.below(19) as usize;
            *card.numbers_mut()[field] = random.within(ranges::CARD[field]);
        }
    }
}

/// A temperature that the card or document 01 names, or a neighbour of it.
fn near_mark(random: &mut Random, card: &Card) -> f64 {
    let marks = [card.lower, card.upper, card.reference, card.max, card.start, 16.0, 20.0, 0.0];
    let mark = random.pick(&marks);
    random.near(mark)
}

/// An accepted card without services and floor.
pub fn card(random: &mut Random) -> Card {
    loop {
        let mut card = ordinary_card(random);
        for _ in 0..random.pick(&[0, 0, 0, 1, 1, 2, 4]) {
            put_on_edge(random, &mut card);
        }
        if plain::card_refusal(&card) == 0 {
            return card;
        }
    }
}

/// An accepted card of a version. In half of the cases with services its losses come to the floor, and
/// with the flag 1 more often; version 3 has none, which they must show.
pub fn card_of(random: &mut Random, version: u8) -> Card {
    let mut card = card(random);
    if has_floor_flag(version) {
        card.floor = random.below(2) as u8;
    }
    if lists_services(version) {
        card.services = services(random);
        if random.below(4) < 2 + u64::from(card.floor) {
            put_near_floor(random, &mut card);
        }
    }
    card
}

/// A temperature at or about the floor, or one from which a loss comes to it in f64 in its own way.
fn floor_zone(random: &mut Random) -> f64 {
    let above = FLOOR + random.magnitude(1e-12, 100.0);
    let below = FLOOR - random.magnitude(1e-12, 60.0);
    let named = random.pick(&[FLOOR, 16.5, 16.000000001, 18.7, 56.3, 76.0, 76.3]);
    let huge = random.magnitude(1e290, 1e308);
    match random.below(10) {
        0..=2 => random.near(FLOOR),
        3..=5 => random.near(named),
        6 => below,
        7 => huge,
        _ => above,
    }
}

/// Losses that bring zones of one temperature to the floor, nearly so, or past it.
fn losses_to_floor(random: &mut Random, card: &Card, zone: f64) -> f64 {
    let salt = plain::salt(card);
    let held = plain::calculate_layer_energy_stored(&salt, zone, FLOOR);
    let rate = plain::zone_loss(card, zone, card.timestep * 3600.0, 1.0);
    let losses = match random.below(6) {
        0..=2 => random.near(held / rate),
        3 => held / rate * random.between(0.5, 2.0),
        4 => held / rate * random.magnitude(0.01, 100.0),
        _ => random.magnitude(1.0, ranges::POWER.1),
    };
    let losses = random.near(losses);
    match losses.is_nan() {
        true => ranges::POWER.1,
        false => losses.clamp(ranges::POWER.0, ranges::POWER.1),
    }
}

/// Looks for a start and losses that end under the floor though they are less than what is held. That
/// is a matter of last places; it is frequent with capacities of few bits and a small one below.
fn put_less_than_held(random: &mut Random, card: &mut Card) {
    let (seconds, layers) = (card.timestep * 3600.0, f64::from(card.layers));
    (card.lower, card.upper) = (48.0, 56.0);
    (card.during, card.above) = (32.0 * layers, 2.0 * layers);
    for _ in 0..100 {
        card.below = layers * random.between(0.5, 4.0);
        card.start = card.upper + random.between(0.0, 8.0);
        let salt = plain::salt(card);
        let held = plain::calculate_layer_energy_stored(&salt, card.start, FLOOR);
        let losses = held / plain::zone_loss(card, card.start, seconds, 1.0);
        card.losses = random.near(losses).min(ranges::POWER.1);
        let loss = plain::zone_loss(card, card.start, seconds, card.losses);
        let ends = plain::calculate_new_zone_temperature(&salt, card.start, loss);
        if loss < held && ends < FLOOR {
            return;
        }
    }
}

/// A start at or about the floor, or from which losses come to it.
fn put_near_floor(random: &mut Random, card: &mut Card) {
    let (low, high) = ranges::TEMPERATURE;
    match random.below(6) {
        0 | 1 => return put_less_than_held(random, card),
        2..=4 => card.start = floor_zone(random).clamp(low, high),
        _ => {}
    }
    card.losses = losses_to_floor(random, card, card.start);
}

/// Another flag than 0 and 1.
pub fn refused_floor(random: &mut Random) -> u8 {
    let any = 2 + random.below(254) as u8;
    random.pick(&[2, 2, 2, 3, 16, 128, 129, 255, any])
}

/// A card of any kind without services and floor: accepted ones, each range's both sides, each of 1
/// to 4.
pub fn any_card(random: &mut Random) -> Card {
    let mut card = card(random);
    match random.below(8) {
        0 | 1 => {
            let field = random.below(19) as usize;
            let (low, high) = ranges::CARD[field];
            *card.numbers_mut()[field] = outside_or_on(random, (low, high));
        }
        2 => card.layers = random.pick(&[0, 1, 64, 65, 255]),
        3 => card.units = random.pick(&[0, 1, 1000, 1001, 65535]),
        4 => match random.below(2) {
            0 => card.simultaneous = random.pick(&[0, 1, 2, 255]),
            _ => card.budget = random.pick(&[0, 1, 65535]),
        },
        5 => {
            card.lower = random.near(card.upper);
            card.max = random.pick(&[20f64.next_down(), 20.0, 20f64.next_up(), card.max]);
        }
        6 => {
            let gap = random.pick(&[0.0, 1e-10, 1.00001e-10, 0.99999e-10, -1e-10, -1.0, 1e-9]);
            card.max = random.near(card.reference + gap);
        }
        _ => {}
    }
    card
}

/// A card of any kind, from version 3 on with an accepted list or with one that 61 refuses, from
/// version 4 on with any flag.
pub fn any_card_of(random: &mut Random, version: u8) -> Card {
    let card = any_card(random);
    let services = match lists_services(version) {
        true if random.one_in(3) => refused_services(random),
        true => services(random),
        false => Services::default(),
    };
    let floor = match has_floor_flag(version) {
        true if random.one_in(4) => refused_floor(random),
        true => random.below(2) as u8,
        false => 0,
    };
    Card { services, floor, ..card }
}

/// Service numbers whose bytes, ends or order can be got wrong.
const ODD_NUMBERS: [u16; 16] =
    [4, 5, 6, 127, 128, 254, 255, 256, 257, 515, 1024, 32767, 32768, 65281, 65534, 65535];

/// So many different numbers from 4 up, rising: odd ones, neighbours, and any.
fn rising_numbers(random: &mut Random, count: usize) -> Vec<u16> {
    let mut numbers = BTreeSet::new();
    while numbers.len() < count {
        let number = match random.below(4) {
            0 => random.pick(&ODD_NUMBERS),
            1 => numbers.last().map_or(4, |last: &u16| last.saturating_add(1)),
            _ => random.word() as u16,
        };
        if number > 3 {
            numbers.insert(number);
        }
    }
    numbers.into_iter().collect()
}

fn listed(random: &mut Random, count: usize) -> Vec<Service> {
    let numbers = rising_numbers(random, count);
    numbers.into_iter().map(|number| Service { number, class: random.pick(&[1, 2, 3]) }).collect()
}

/// An accepted list of 0 to 32 services, most often of a few.
pub fn services(random: &mut Random) -> Services {
    let any = random.below(MOST_SERVICES as u64 + 1) as usize;
    let few = 3 + random.below(6) as usize;
    let count = random.pick(&[0, 1, 1, 2, 2, few, few, any, MOST_SERVICES - 1, MOST_SERVICES]);
    Services::new(&listed(random, count))
}

/// A list with one thing wrong, for which 61 refuses it.
pub fn refused_services(random: &mut Random) -> Services {
    if random.one_in(4) {
        let count = random.pick(&[33, 33, 34, 40, 64, 128, 255]);
        return Services::new(&listed(random, count));
    }
    let count = random.pick(&[2, 2, 3, 5, 8, MOST_SERVICES]);
    let mut list = listed(random, count);
    let at = random.below(count as u64 - 1) as usize;
    match random.below(5) {
        0 => list[at + 1].number = list[at].number,
        1 => list.swap(at, at + 1),
        2 => list[0].number = random.pick(&[0, 1, 2, 3, 3]),
        3 => list[at].class = random.pick(&[0, 0, 4, 4, 5, 129, 255]),
        _ => list[count - 1].class = random.pick(&[0, 4, 128, 255]),
    }
    Services::new(&list)
}

/// A service type of a version: 0 to 3, and from version 3 on listed numbers, their neighbours and
/// others.
fn service_type(random: &mut Random, version: u8, card: &Card) -> u16 {
    let known = random.pick(&[0, 1, 1, 1, 2, 2, 2, 3, 3, 3]);
    let listed = card.services.listed();
    let one = match listed.len() as u64 {
        0 => known,
        count => listed[random.below(count) as usize].number,
    };
    match random.below(16) {
        _ if !lists_services(version) => known,
        0..=4 => known,
        5..=10 => one,
        11 => one.wrapping_add(1),
        12 => one.wrapping_sub(1),
        13 => one.swap_bytes(),
        14 => random.pick(&ODD_NUMBERS),
        _ => random.word() as u16,
    }
}

/// An end of a range, its neighbours on both sides, or no number at all.
fn outside_or_on(random: &mut Random, (low, high): Range) -> f64 {
    match random.below(9) {
        0 => low,
        1 => high,
        2 => low.next_down(),
        3 => high.next_up(),
        4 => low.next_up(),
        5 => high.next_down(),
        6 => f64::NAN,
        7 => random.odd_number(),
        _ => random.between(low, high),
    }
}

/// A zone temperature of an ordinary battery, on the borders in half of the cases.
pub fn zone(random: &mut Random, card: &Card) -> f64 {
    match random.below(8) {
        0 | 1 => near_mark(random, card),
        2 | 3 => random.between(card.lower, card.upper),
        4..=6 => random.between(card.reference, card.max),
        _ => random.within(ranges::TEMPERATURE),
    }
}

/// A finite number of any size as a zone: zeros, subnormals and huge ones among them.
pub fn any_zone(random: &mut Random, card: &Card) -> f64 {
    if !random.one_in(3) {
        return zone(random, card);
    }
    let x = match random.below(4) {
        0 => random.odd_number(),
        1 => random.any_number(),
        2 => random.pick(&[1.0, -1.0]) * 10f64.powi(random.below(309) as i32),
        _ => random.pick(&[1.0, -1.0]) * random.between(1e150, 1e160),
    };
    if x.is_finite() {
        x
    } else {
        x.signum() * f64::MAX
    }
}

/// Zones of a battery that is full to about 1e-10.
pub fn full_zones(random: &mut Random, card: &Card) -> Vec<f64> {
    let salt = plain::salt(card);
    let stored = plain::calculate_layer_energy_stored(&salt, card.max, card.reference);
    let capacity = if card.max > card.upper { salt.above } else { salt.during };
    let excess = stored * 1e-10 / capacity * random.between(0.0, 2.0);
    vec![card.max + excess; usize::from(card.layers)]
}

/// Huge zones before an ordinary one: with an equalizing exchanger the heats of the layers can cancel
/// to a delivery of 0, most often those of two, while the outlet is too far off for a logarithm.
fn cancelling_zones(random: &mut Random, card: &Card) -> Vec<f64> {
    let last = usize::from(card.layers) - 1;
    let mut zones = vec![random.magnitude(1e170, 1e300); last];
    zones.push(zone(random, card));
    zones
}

fn any_totals(random: &mut Random, card: &Card) -> Totals {
    let mut total = || match random.below(10) {
        0 => card.timestep,
        1 => random.near(card.timestep),
        2 => random.pick(&[f64::MAX, f64::MIN, -1e308, 1e308, -0.0, 1e306]),
        3 => random.between(-10.0, 10.0),
        4..=6 => random.between(0.0, card.timestep),
        _ => 0.0,
    };
    Totals {
        running_hours: total(),
        pump_hours: total(),
        direct_hours: total(),
        charged: total(),
        charged_electric: total(),
    }
}

/// A fresh battery, or one handed in with ordinary or with any finite zones and totals; on a card with
/// the floor often with zones about it.
pub fn battery(random: &mut Random, card: &Card) -> Battery {
    let mut battery = Battery::fresh(card);
    let layers = usize::from(card.layers);
    if card.floor == 1 && random.one_in(4) {
        for zone in &mut battery.state.zones {
            if random.one_in(2) {
                *zone = floor_zone(random);
            }
        }
        return battery;
    }
    match random.below(20) {
        0..=9 => {}
        10..=16 => battery.state.zones = (0..layers).map(|_| zone(random, card)).collect(),
        17 if random.one_in(2) => battery.state.zones = cancelling_zones(random, card),
        18 if card.layers == 2 => battery.state.zones = cancelling_zones(random, card),
        17 => battery.state.zones = full_zones(random, card),
        _ => {
            let zones = (0..layers).map(|_| any_zone(random, card)).collect();
            battery.state = State { zones, totals: any_totals(random, card) };
        }
    }
    battery
}

/// A water temperature in range, most often from `low` to `high`.
fn temperature(random: &mut Random, card: &Card, low: f64, high: f64) -> f64 {
    let t = match random.below(10) {
        0 => near_mark(random, card),
        1 => random.within(ranges::TEMPERATURE),
        _ => random.between(low, high),
    };
    t.clamp(-50.0, 250.0)
}

fn target(random: &mut Random) -> f64 {
    match random.below(6) {
        0 => 0.0,
        1 => 1.0,
        _ => random.within(ranges::FRACTION),
    }
}

fn power(random: &mut Random) -> f64 {
    match random.below(3) {
        0 => random.within(ranges::POWER),
        _ => random.magnitude(0.1, 50.0),
    }
}

/// About what a battery holds, in kWh.
fn ordinary_energy(random: &mut Random) -> f64 {
    random.magnitude(1e-3, 50.0)
}

fn required(random: &mut Random) -> f64 {
    match random.below(16) {
        0 => random.near(1e-10),
        1 => random.pick(&[0.0, -0.0, f64::MIN_POSITIVE, f64::from_bits(1), -1.0]),
        2 => random.within(ranges::REQUIRED),
        3 => random.within((0.0, 1e6)),
        _ => ordinary_energy(random),
    }
}

fn demand(random: &mut Random, version: u8, card: &Card) -> Call {
    let present = !random.one_in(12);
    Call::Demand(Demand {
        service_type: service_type(random, version, card),
        commit: u8::from(!random.one_in(4)),
        control_on: random.below(2) as u8,
        required: required(random),
        start: match random.below(3) {
            0 => random.within((0.0, card.timestep)),
            _ => 0.0,
        },
        return_temperature: present.then(|| temperature(random, card, 5.0, 20.0)),
    })
}

/// b that brings the water of a layer to the zone's temperature.
pub fn equalizing_b(layers: u8, flow: f64) -> f64 {
    2.0 * flow / 60.0 * 4184.0 * f64::from(layers)
}

/// b that makes the outlet's denominator of a layer vanish, or nearly so.
pub fn singular_b(random: &mut Random, layers: u8, flow: f64) -> f64 {
    let b = -equalizing_b(layers, flow);
    let off = random.pick(&[0.0, 1e-15, -1e-15, 1e-6, -1e-6, 0.001, -0.001, 0.1]);
    (b * (1.0 + off)).clamp(-1e6, 1e6)
}

fn hydronic(random: &mut Random, card: &Card) -> Hydronic {
    let flow = match random.below(4) {
        0 => random.within(ranges::FLOW),
        _ => random.between(1.0, 20.0),
    };
    let (hex_a, hex_b) = match random.below(8) {
        0 => (random.within(ranges::EXCHANGER), random.within(ranges::EXCHANGER)),
        1 => (0.0, singular_b(random, card.layers, flow)),
        _ => (random.pick(&[0.0, 19.744, 50.0]), random.magnitude(20.0, 2000.0)),
    };
    Hydronic {
        inlet: temperature(random, card, 60.0, 120.0),
        hours: match random.below(8) {
            0 => random.within(ranges::HOURS),
            1 => random.near(card.substep / 3600.0).clamp(0.0, 24.0),
            _ => random.between(0.0, card.timestep),
        },
        flow,
        target: target(random),
        limit: match random.below(6) {
            0 => 0.0,
            1 => random.within(ranges::LIMIT),
            _ => ordinary_energy(random),
        },
        hex_a,
        hex_b,
        velocity: match random.below(4) {
            0 => random.within(ranges::VELOCITY),
            _ => random.between(0.01, 1.0),
        },
        diameter: match random.below(4) {
            0 => random.within(ranges::DIAMETER_IN_METRES),
            _ => random.between(0.002, 0.02),
        },
    }
}

/// The call with a limit that its own run meets, to the last places.
fn with_met_limit(random: &mut Random, battery: &Battery, hydronic: Hydronic) -> Hydronic {
    let unlimited = Call::Hydronic(Hydronic { limit: 1e6, ..hydronic });
    let energy = plain::step(VERSIONS[0], battery, &unlimited).0.energy;
    let limit = energy + random.pick(&[0.0, 0.0, 1e-14, -1e-14, 2e-14, 4e-14]);
    Hydronic { limit: limit.clamp(0.0, 1e6), ..hydronic }
}

/// The call with an exchanger that brings the water to each zone's temperature, and a limit of 0: a
/// substep that takes up nothing meets it.
fn equalizing(random: &mut Random, card: &Card, hydronic: Hydronic) -> Hydronic {
    let b = random.near(equalizing_b(card.layers, hydronic.flow));
    let hex_b = random.near(b).min(ranges::EXCHANGER.1);
    Hydronic { hex_a: 0.0, hex_b, limit: 0.0, ..hydronic }
}

/// The call with hot water, a weak exchanger and no limit in its way: its hours end it after tens of
/// substeps, whose sum is often no product.
fn lasting(random: &mut Random, card: &Card, hydronic: Hydronic) -> Hydronic {
    let seconds = card.substep * random.between(6.0, 60.0);
    let inlet = random.between(100.0, ranges::TEMPERATURE.1);
    let (hours, hex_b) = ((seconds / 3600.0).min(ranges::HOURS.1), random.between(1.0, 20.0));
    Hydronic { inlet, hours, hex_a: 0.0, hex_b, limit: ranges::LIMIT.1, ..hydronic }
}

fn hydronic_call(random: &mut Random, battery: &Battery) -> Call {
    let fields = hydronic(random, &battery.card);
    let cancelling = battery.state.zones[0] >= 1e16;
    Call::Hydronic(match random.below(10) {
        0 => with_met_limit(random, battery, fields),
        1..=5 if cancelling => equalizing(random, &battery.card, fields),
        1 => lasting(random, &battery.card, fields),
        _ => fields,
    })
}

/// A call in range.
fn call(random: &mut Random, version: u8, battery: &Battery) -> Call {
    let card = &battery.card;
    match random.below(100) {
        0..=39 => demand(random, version, card),
        40..=51 => Call::Electric { power: power(random), target: target(random) },
        52..=71 => hydronic_call(random, battery),
        72..=78 => Call::StandingLoss,
        79..=83 => Call::CloseTimestep,
        84..=91 => Call::StateOfCharge,
        _ => {
            let present = random.one_in(2);
            let flow_maximum = present.then(|| temperature(random, card, 20.0, 90.0));
            Call::ChargeEnergyDemand { flow_maximum, target: target(random) }
        }
    }
}

/// The next call of a list of a version: often closing a timestep whose time is used up; with the
/// floor more often a standing loss, from the start above all.
pub fn next_call(random: &mut Random, version: u8, battery: &Battery) -> Call {
    let used_up = battery.state.totals.running_hours >= battery.card.timestep;
    let at_start = battery.state.zones[0] == battery.card.start;
    if used_up && !random.one_in(3) {
        Call::CloseTimestep
    } else if battery.card.floor == 1 && random.one_in(if at_start { 2 } else { 4 }) {
        Call::StandingLoss
    } else {
        call(random, version, battery)
    }
}

/// How many calls a list has.
pub fn list_length(random: &mut Random) -> u64 {
    1 + random.below(24)
}
