//! Records of the published file's functions, answered by the judge; and of the update with a lowest
//! temperature, answered by the plain implementation.

use crate::generate;
use crate::judge::{self, Pass, Salt, Zone, ZoneFlow};
use crate::model::Card;
use crate::plain::{self, FLOOR};
use crate::random::Random;
use crate::ranges;
use crate::record::Record;

/// Heat capacity of a water flow of 1 kg/s, kW per kelvin.
const WATER_KW_PER_K: f64 = 4.184;

/// The card's salt as zone functions see it: capacities of one layer.
fn salt_of(card: &Card) -> Salt {
    let layers = f64::from(card.layers);
    Salt {
        lower: card.lower,
        upper: card.upper,
        below: card.below / layers,
        during: card.during / layers,
        above: card.above / layers,
    }
}

fn zone_of(card: &Card, salt: &Salt) -> Zone {
    let mut zone = Zone::of_card(card);
    zone.set_salt(salt);
    zone
}

impl Record {
    fn salt(self, salt: &Salt) -> Self {
        self.floats(&[salt.lower, salt.upper, salt.below, salt.during, salt.above])
    }
}

// ---- Card

pub fn card(random: &mut Random) -> Record {
    let card = generate::any_card(random);
    let record = Record::new(31).card(&card);
    match judge::derived(&card) {
        Err(refusal) => record.word(u64::from(refusal)).floats(&[0.0; 6]),
        Ok(derived) => record.word(0).floats(&[
            derived.layer_below,
            derived.layer_during,
            derived.layer_above,
            derived.stored_maximum,
            derived.rated_difference,
            derived.diameter_in_metres,
        ]),
    }
}

// ---- Module 1

pub fn layer_energy(random: &mut Random) -> Record {
    let card = generate::card(random);
    let salt = salt_of(&card);
    let temperature = generate::any_zone(random, &card);
    let reference = match random.below(3) {
        0 => generate::zone(random, &card),
        _ => card.reference,
    };
    let energy = judge::calculate_layer_energy_stored(temperature, reference, &salt);
    Record::new(20).float(temperature).float(reference).salt(&salt).float(energy)
}

/// The level at a border of the melting range.
fn border_level(random: &mut Random, card: &Card) -> f64 {
    let salt = salt_of(card);
    let stored = |t| judge::calculate_layer_energy_stored(t, card.reference, &salt);
    let border = random.pick(&[card.lower, card.upper]);
    random.near(stored(border) / stored(card.max))
}

pub fn soc_to_temp(random: &mut Random) -> Record {
    let card = generate::card(random);
    let soc = match random.below(8) {
        0 => random.near(0.0),
        1 => random.near(1.0),
        2 => random.between(-1.0, 2.0),
        3 => border_level(random, &card),
        _ => random.within(ranges::FRACTION),
    };
    let temperature = Zone::of_card(&card).soc_to_temp(soc);
    Record::new(21).card(&card).float(soc).float(temperature)
}

fn zones(random: &mut Random, card: &Card) -> Vec<f64> {
    let make = random.pick(&[generate::zone, generate::zone, generate::any_zone]);
    (0..card.layers).map(|_| make(random, card)).collect()
}

/// Zones up to the maximum.
fn charged_zones(random: &mut Random, card: &Card) -> Vec<f64> {
    (0..card.layers).map(|_| random.between(card.reference, card.max)).collect()
}

pub fn state_of_charge(random: &mut Random) -> Record {
    let card = generate::card(random);
    let zones = match random.below(4) {
        0 => generate::full_zones(random, &card),
        1 => charged_zones(random, &card),
        _ => zones(random, &card),
    };
    let level = Zone::of_card(&card).calc_state_of_charge(&zones);
    Record::new(22).card(&card).counted(&zones).optional(level)
}

pub fn energy_required(random: &mut Random) -> Record {
    let card = generate::card(random);
    let salt = salt_of(&card);
    let zone = generate::any_zone(random, &card);
    let target = generate::zone(random, &card);
    let required = zone_of(&card, &salt).calculate_zone_energy_required(zone, target);
    Record::new(23).salt(&salt).floats(&[zone, target]).float(required)
}

// ---- Module 2

/// Kilojoules of an ordinary transfer, of either sign.
fn transfer(random: &mut Random) -> f64 {
    random.pick(&[1.0, -1.0]) * random.magnitude(1e-3, 1e6)
}

/// A sum of whole heat ranges from a zone: where the branches of module 2 meet.
fn border_energy(random: &mut Random, salt: &Salt, zone: f64) -> f64 {
    let to_upper = (zone - salt.upper) * salt.above;
    let to_lower = (zone - salt.lower) * salt.below;
    let melting = (salt.upper - salt.lower) * salt.during;
    let energy = random.pick(&[
        to_upper,
        to_upper + melting,
        to_lower,
        to_lower - melting,
        melting,
        -melting,
        (zone - salt.lower) * salt.during,
        (zone - salt.upper) * salt.during,
    ]);
    random.near(energy)
}

/// The card with a border of its melting range at 0 °C, where the last places of a fall show.
fn with_border_at_zero(random: &mut Random, card: Card) -> Card {
    let wide = random.between(1.0, 50.0);
    let (lower, upper) = random.pick(&[(0.0, wide), (-wide, 0.0)]);
    Card { lower, upper, max: 60.0, reference: -50.0, ..card }
}

pub fn new_temperature(random: &mut Random) -> Record {
    let card = match generate::card(random) {
        card if random.one_in(4) => with_border_at_zero(random, card),
        card => card,
    };
    let salt = salt_of(&card);
    let zone = generate::any_zone(random, &card);
    let energy = match random.below(16) {
        0 => f64::NAN,
        1 => random.pick(&[f64::INFINITY, f64::NEG_INFINITY]),
        2 => random.odd_number(),
        3 => random.near(1e-6),
        4 => random.near(-1e-6),
        5 => random.pick(&[1.0, -1.0]) * random.magnitude(1e-12, 1e-3),
        6..=10 => border_energy(random, &salt, zone),
        _ => transfer(random),
    };
    let after = zone_of(&card, &salt).calculate_new_zone_temperature(zone, energy);
    Record::new(24).salt(&salt).floats(&[zone, energy]).float(after)
}

/// The floor, or another temperature.
fn lowest_temperature(random: &mut Random, card: &Card) -> f64 {
    match random.below(8) {
        0 => generate::zone(random, card),
        1 => random.within(ranges::TEMPERATURE),
        _ => FLOOR,
    }
}

/// An energy, most often about what the zone holds over the lowest temperature.
fn energy_to_lowest(random: &mut Random, salt: &plain::Salt, zone: f64, lowest: f64) -> f64 {
    let held = plain::calculate_layer_energy_stored(salt, zone, lowest);
    let energy = match random.below(16) {
        0 => random.pick(&[0.0, 1e-6, f64::MAX, f64::MIN_POSITIVE]),
        1 => random.magnitude(1e-12, 1e-3),
        2 => -random.magnitude(1e-9, 1e6),
        3 => random.odd_number(),
        4 | 5 => transfer(random).abs(),
        6..=8 => held * random.between(0.0, 3.0),
        _ => random.near(held),
    };
    random.near(energy)
}

/// On cards of version 4, which have losses that come to the floor.
pub fn lowest(random: &mut Random) -> Record {
    let card = generate::card_of(random, 4);
    let salt = plain::salt(&card);
    let lowest = lowest_temperature(random, &card);
    let zone = match random.below(8) {
        0 | 1 => random.near(lowest),
        2 => lowest + random.magnitude(1e-12, 1.0),
        3 => generate::any_zone(random, &card),
        4 | 5 => card.start,
        _ => generate::zone(random, &card),
    };
    let energy = match random.one_in(4) {
        true => plain::zone_loss(&card, zone, card.timestep * 3600.0, card.losses),
        false => energy_to_lowest(random, &salt, zone, lowest),
    };
    let energy = energy.clamp(f64::MIN, f64::MAX);
    let after = plain::calculate_new_zone_temperature_with_lowest(&salt, zone, lowest, energy);
    Record::new(32).salt(&salt_of(&card)).floats(&[zone, lowest, energy]).floats(&[
        after.temperature,
        after.taken,
        after.rest,
    ])
}

// ---- Module 3

pub fn simultaneous(random: &mut Random) -> Record {
    let card = generate::card(random);
    let salt = salt_of(&card);
    let zone = zone_of(&card, &salt);
    let temperature = generate::any_zone(random, &card);
    let target = generate::zone(random, &card);
    let required = zone.calculate_zone_energy_required(temperature, target);
    let q_max = match random.below(8) {
        0 => f64::NEG_INFINITY,
        1 => -random.magnitude(1e-310, 1e300),
        2 if required < 0.0 => random.near(required),
        _ => -random.magnitude(1e-3, 1e5),
    };
    let energy = match random.below(10) {
        0 => 0.0,
        1 => -0.0,
        2 => random.near(-q_max),
        3 => random.near(required),
        4 => random.near(required - q_max),
        5 => random.odd_number(),
        _ => transfer(random),
    };
    let charged = random.pick(&[0.0, 0.0, 1.5, 1e-9]);
    let after =
        zone.process_zone_simultaneous_charging(temperature, target, q_max, energy, charged);
    Record::new(25)
        .salt(&salt)
        .floats(&[temperature, target, q_max, energy, charged])
        .floats(&[after.0, after.1, after.2])
}

// ---- Module 4

/// A water temperature, now and then a huge one.
fn water(random: &mut Random) -> f64 {
    match random.below(6) {
        0 => random.within(ranges::TEMPERATURE),
        1 => random.pick(&[1.0, -1.0]) * random.magnitude(1e3, 1e308),
        2 => random.pick(&[0.0, -0.0, 1e-310, f64::MAX, f64::MIN]),
        _ => random.between(-20.0, 120.0),
    }
}

pub fn viscosity(random: &mut Random) -> Record {
    let (inlet, outlet) = (water(random), water(random));
    Record::new(26).floats(&[inlet, outlet]).float(judge::viscosity(inlet, outlet))
}

pub fn reynolds(random: &mut Random) -> Record {
    let viscosity = match random.below(8) {
        0 => random.pick(&[f64::INFINITY, f64::MAX, f64::MIN_POSITIVE, 1e-310, 0.0]),
        _ => judge::viscosity(water(random), water(random)),
    };
    let velocity = random.within(ranges::VELOCITY);
    let diameter = random.within(ranges::DIAMETER_IN_METRES);
    let number = judge::reynolds(viscosity, velocity, diameter);
    Record::new(27).floats(&[viscosity, velocity, diameter]).float(number)
}

/// A Reynolds number at 1 l/min, most often an ordinary one.
fn any_reynolds(random: &mut Random) -> f64 {
    match random.below(10) {
        0 => random.odd_number(),
        1 => random.pick(&[0.0, f64::INFINITY, 1e-310, f64::MIN_POSITIVE, f64::NAN]),
        2 => random.magnitude(1e-300, 1e300),
        _ => random.magnitude(1.0, 1e6),
    }
}

/// a and b: ordinary, anywhere in range, or such that the outlet's denominator nearly vanishes.
fn exchanger(random: &mut Random, layers: u8, flow: f64) -> (f64, f64) {
    match random.below(8) {
        0 => (random.within(ranges::EXCHANGER), random.within(ranges::EXCHANGER)),
        1 => (0.0, generate::singular_b(random, layers, flow)),
        _ => (random.pick(&[0.0, 19.744, 100.0]), random.magnitude(20.0, 2000.0)),
    }
}

fn any_flow(random: &mut Random) -> f64 {
    match random.below(4) {
        0 => random.within(ranges::FLOW),
        _ => random.between(1.0, 20.0),
    }
}

pub fn heat_transfer(random: &mut Random) -> Record {
    let flow = any_flow(random);
    let (a, b) = exchanger(random, 1, flow);
    let reynolds = any_reynolds(random);
    let transfer = judge::heat_transfer(a, b, flow, reynolds);
    Record::new(28).floats(&[a, b, flow, reynolds]).optional(transfer)
}

pub fn outlet(random: &mut Random) -> Record {
    let flow = any_flow(random) / 60.0;
    let transfer = match random.below(8) {
        0 => random.near(-2.0 * flow * WATER_KW_PER_K),
        1 => random.between(-1e3, 1e3),
        2 => random.pick(&[0.0, -0.0, 1e-310]),
        _ => random.magnitude(1e-4, 10.0),
    };
    let card = generate::points_card();
    let zone = generate::any_zone(random, &card);
    let inlet = water(random);
    let outlet = judge::outlet(transfer, zone, inlet, flow);
    Record::new(29).floats(&[transfer, zone, inlet, flow]).float(outlet)
}

pub fn zone_properties(random: &mut Random) -> Record {
    let card = generate::card(random);
    let mode = random.pick(&[0, 1, 1, 2, 2, 2]);
    let zone = generate::any_zone(random, &card);
    let flow = any_flow(random);
    let (hex_a, hex_b) = exchanger(random, card.layers, flow);
    let inlet = if mode == 1 { 16.0 } else { random.between(-20.0, 120.0) };
    let zone_flow = ZoneFlow {
        inlet,
        inlet_zone: if random.one_in(2) { inlet } else { water(random) },
        q_max: match mode {
            1 => random.within((0.0, 8.64e7)),
            _ => -random.magnitude(1e-3, 1e5),
        },
        reynolds: any_reynolds(random),
        time_step: random.within((0.1, 3600.0)),
        flow,
        hex_a,
        hex_b,
    };
    let answer = Zone::of_card(&card).get_zone_properties(mode, zone, &zone_flow);
    let (energy, outlet) = answer.unwrap_or((0.0, 0.0));
    Record::new(30)
        .word(mode)
        .card(&card)
        .float(zone)
        .floats(&[zone_flow.inlet, zone_flow.inlet_zone, zone_flow.q_max, zone_flow.reynolds])
        .floats(&[zone_flow.time_step, zone_flow.flow, zone_flow.hex_a, zone_flow.hex_b])
        .flag(answer.is_some())
        .floats(&[energy, outlet])
}

// ---- Module 5

/// What the published file passes in charging alone, in losses and in a demand or hydronic run.
fn pass(random: &mut Random, card: &Card) -> Pass {
    let charging = Pass {
        mode: 0,
        inlet: 0.0,
        time_step: match random.below(10) {
            0 => random.pick(&[0.0, f64::INFINITY]),
            _ => random.within((0.0, 86400.0)),
        },
        reynolds: 0.0,
        flow: card.flow,
        power: random.within(ranges::POWER),
        target: random.within(ranges::FRACTION),
        hex_a: card.a,
        hex_b: card.b,
    };
    match random.below(5) {
        0 => charging,
        1 => {
            let seconds = random.within((36.0, 86400.0));
            let power = -random.within(ranges::POWER);
            Pass {
                mode: 1,
                inlet: 16.0,
                time_step: seconds,
                reynolds: seconds,
                flow: 0.0,
                power,
                target: 0.0,
                ..charging
            }
        }
        _ => {
            let flow = any_flow(random);
            let (hex_a, hex_b) = exchanger(random, card.layers, flow);
            Pass {
                mode: 2,
                inlet: random.within(ranges::TEMPERATURE),
                time_step: random.within((0.1, 3600.0)),
                reynolds: any_reynolds(random),
                flow,
                power: if random.one_in(2) { charging.power } else { 0.0 },
                target: random.pick(&[0.0, charging.target]),
                hex_a,
                hex_b,
            }
        }
    }
}

pub fn substep(random: &mut Random) -> Record {
    let card = generate::card(random);
    let mut zones = zones(random, &card);
    let pass = pass(random, &card);
    let record = Record::new(40)
        .card(&card)
        .counted(&zones)
        .word(pass.mode)
        .floats(&[pass.inlet, pass.time_step, pass.reynolds, pass.flow, pass.power, pass.target])
        .floats(&[pass.hex_a, pass.hex_b]);
    match Zone::of_card(&card).process_heat_battery_zones(&mut zones, &pass) {
        Ok((outlet, energies, charged, logarithms)) => record
            .word(0)
            .floats(&[outlet, judge::sum2(&energies), charged])
            .floats(&zones)
            .floats(&energies)
            .word(logarithms),
        Err(refusal) => record.word(u64::from(refusal)).floats(&vec![0.0; 4 + 2 * zones.len()]),
    }
}

// ---- Module 6

/// A target level: any, or the battery's own to about the tolerance.
fn target_level(random: &mut Random, level: f64) -> f64 {
    match random.below(4) {
        0 => {
            let gap = random.pick(&[0.0, 1e-16, 1e-10, 1.01e-10, 1e-9]);
            let target = level + random.pick(&[1.0, -1.0]) * gap;
            random.near(target).clamp(0.0, 1.0)
        }
        _ => random.within(ranges::FRACTION),
    }
}

/// None, any temperature, or one from the battery's to the target's, its ends among them.
fn flow_maximum(random: &mut Random, card: &Card, from: f64, to: f64) -> Option<f64> {
    match random.below(8) {
        0 | 1 => None,
        2 => Some(random.near(from)),
        3 => Some(random.near(to)),
        4 | 5 => Some(random.between(from, to)),
        _ => Some(generate::any_zone(random, card)),
    }
}

pub fn charge_energy_demand(random: &mut Random) -> Record {
    let card = generate::card(random);
    let zones = match random.below(8) {
        0 => generate::full_zones(random, &card),
        1..=4 => charged_zones(random, &card),
        _ => zones(random, &card),
    };
    let battery = Zone::of_card(&card);
    // For the choice of inputs a refused battery is full.
    let level = battery.calc_state_of_charge(&zones).unwrap_or(1.0);
    let target = target_level(random, level);
    let (from, to) = (battery.soc_to_temp(level), battery.soc_to_temp(target));
    let flow_maximum = flow_maximum(random, &card, from, to);
    let energy = battery.calculate_charge_energy_demand(&zones, flow_maximum, target);
    Record::new(41)
        .card(&card)
        .counted(&zones)
        .optional(flow_maximum)
        .float(target)
        .optional(energy)
}
