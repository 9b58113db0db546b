//! The steps of documents 01 and 02, written from these alone: nothing here uses the published
//! file or the judge. Modules as document 01 numbers them.

use crate::model::{
    has_floor_flag, shows_hydronic_time, Answer, Battery, Call, Card, Demand, Derived, Hydronic,
    Service, Services, State,
};
use crate::ranges;

// ---- Stand-ins

const RELATIVE: f64 = 1.0 / 4503599627370496.0;
#[allow(clippy::approx_constant)] // the digits of document 01
const LN_2: f64 = 0.6931471805599453;
#[allow(clippy::approx_constant)] // the digits of document 01
const ROOT_2: f64 = 1.4142135623730951;
const AMBIENT: f64 = 16.0;
/// Where a standing loss stops, with the flag 1.
pub const FLOOR: f64 = 16.0;

pub fn nearly_equal(p: f64, q: f64, epsilon: f64, max_relative: f64) -> bool {
    let gap = (p - q).abs();
    p == q
        || (p.is_finite()
            && q.is_finite()
            && (gap <= epsilon || gap <= p.abs().max(q.abs()) * max_relative))
}

fn near(p: f64, q: f64, epsilon: f64) -> bool {
    nearly_equal(p, q, epsilon, RELATIVE)
}

pub fn max_zero(p: f64) -> f64 {
    match p > 0.0 {
        true => p,
        false => 0.0,
    }
}

pub fn min(p: f64, q: f64) -> f64 {
    match p <= q {
        true => p,
        false => q,
    }
}

pub fn sum2(items: &[f64]) -> f64 {
    let (mut s, mut c) = (0.0, 0.0);
    for &p in items {
        let t = s + p;
        let z = t - s;
        c += (s - (t - z)) + (p - z);
        s = t;
    }
    s + c
}

/// None where the argument is not positive, normal and finite.
pub fn ln(x: f64) -> Option<f64> {
    if !(f64::MIN_POSITIVE..=f64::MAX).contains(&x) {
        return None;
    }
    let exponent = (x.to_bits() >> 52) as i64 - 1023;
    let fraction = x.to_bits() % (1 << 52);
    let one_to_two = f64::from_bits((1023 << 52) + fraction);
    let (m, k) =
        if one_to_two > ROOT_2 { (one_to_two * 0.5, exponent + 1) } else { (one_to_two, exponent) };
    let s = (m - 1.0) / (m + 1.0);
    let w = s * s;
    let odd = [19.0, 17.0, 15.0, 13.0, 11.0, 9.0, 7.0, 5.0, 3.0, 1.0];
    let p = odd.iter().fold(1.0 / 21.0, |p, d| p * w + 1.0 / d);
    Some((2.0 * s) * p + k as f64 * LN_2)
}

/// Towards zero, from the bits; negative and NaN give 0, what is too large gives the largest.
pub fn truncate(x: f64) -> u64 {
    let bits = x.to_bits();
    let exponent = ((bits >> 52) & 2047) as i64 - 1023;
    let fraction = bits % (1 << 52);
    let whole = fraction + (1 << 52);
    if x.is_nan() || bits >> 63 == 1 || exponent < 0 {
        0
    } else if exponent > 63 {
        u64::MAX
    } else if exponent >= 52 {
        whole << (exponent - 52)
    } else {
        whole >> (52 - exponent)
    }
}

// ---- Card

/// Refusal 1 to 4 or 61, or 0.
pub fn card_refusal(card: &Card) -> u8 {
    if !ranges::card_in_range(card) {
        1
    } else if card.lower > card.upper {
        2
    } else if card.max <= 20.0 {
        3
    } else if card.max < card.reference || near(card.max, card.reference, 1e-10) {
        4
    } else if services_refusal(&card.services) {
        61
    } else {
        0
    }
}

/// The most services that a card may list.
pub const MOST_SERVICES: usize = 32;

/// Refusal 61: the count, then entry by entry.
pub fn services_refusal(services: &Services) -> bool {
    let mut last = 3;
    let listed = services.listed();
    if listed.len() > MOST_SERVICES {
        return true;
    }
    for &Service { number, class } in listed {
        if number <= last || !(1..=3).contains(&class) {
            return true;
        }
        last = number;
    }
    false
}

/// What a service type stands for: 1 regular, 2 space, 3 direct; 0 combi, or a number that isn't
/// listed.
pub fn class(card: &Card, service_type: u16) -> u8 {
    if service_type <= 3 {
        return service_type as u8;
    }
    let found = card.services.listed().iter().find(|service| service.number == service_type);
    found.map_or(0, |service| service.class)
}

/// Melting range and layer capacities.
#[derive(Clone, Copy)]
pub struct Salt {
    pub lower: f64,
    pub upper: f64,
    pub below: f64,
    pub during: f64,
    pub above: f64,
}

pub fn salt(card: &Card) -> Salt {
    let layers = f64::from(card.layers);
    Salt {
        lower: card.lower,
        upper: card.upper,
        below: card.below / layers,
        during: card.during / layers,
        above: card.above / layers,
    }
}

pub fn derived(card: &Card) -> Derived {
    let salt = salt(card);
    Derived {
        layer_below: salt.below,
        layer_during: salt.during,
        layer_above: salt.above,
        stored_maximum: stored_at(card, card.max),
        rated_difference: card.max - 20.0,
        diameter_in_metres: card.diameter / 1000.0,
    }
}

// ---- Module 1

pub fn calculate_layer_energy_stored(salt: &Salt, temperature: f64, reference: f64) -> f64 {
    let Salt { lower, upper, below, during, above } = *salt;
    if temperature <= reference {
        0.0
    } else if temperature <= lower {
        (temperature - reference) * below
    } else if reference >= upper {
        (temperature - reference) * above
    } else if reference >= lower && temperature <= upper {
        (temperature - reference) * during
    } else if reference >= lower {
        (upper - reference) * during + (temperature - upper) * above
    } else if temperature <= upper {
        (lower - reference) * below + (temperature - lower) * during
    } else {
        (lower - reference) * below + (upper - lower) * during + (temperature - upper) * above
    }
}

/// Stored energy of all layers at one temperature.
fn stored_at(card: &Card, temperature: f64) -> f64 {
    let layer = calculate_layer_energy_stored(&salt(card), temperature, card.reference);
    layer * f64::from(card.layers)
}

pub fn soc_to_temp(card: &Card, level: f64) -> f64 {
    if level <= 0.0 {
        return card.reference;
    }
    if level >= 1.0 {
        return card.max;
    }
    let salt = salt(card);
    let stored = |temperature| calculate_layer_energy_stored(&salt, temperature, card.reference);
    let energy = level * stored(card.max);
    let (at_lower, at_upper) = (stored(salt.lower), stored(salt.upper));
    if energy <= at_lower {
        card.reference + energy / salt.below
    } else if energy <= at_upper {
        salt.lower + (energy - at_lower) / salt.during
    } else {
        salt.upper + (energy - at_upper) / salt.above
    }
}

/// Err(25) above 1.0 + 1e-10.
pub fn calc_state_of_charge(card: &Card, zones: &[f64]) -> Result<f64, u8> {
    let salt = salt(card);
    let mut stored = 0.0;
    for &zone in zones {
        stored += calculate_layer_energy_stored(&salt, zone, card.reference);
    }
    let level = stored / stored_at(card, card.max);
    if level > 1.0 + 1e-10 {
        Err(25)
    } else {
        Ok(min(level, 1.0))
    }
}

/// Negative where the zone has to take energy to reach the target.
pub fn calculate_zone_energy_required(salt: &Salt, zone: f64, target: f64) -> f64 {
    let Salt { lower, upper, below, during, above } = *salt;
    if zone >= upper {
        above * (zone - target)
    } else if zone >= lower && target > upper {
        above * (upper - target) + during * (zone - upper)
    } else if zone >= lower {
        during * (zone - target)
    } else if target > upper {
        above * (upper - target) + during * (lower - upper) + below * (zone - lower)
    } else if target > lower {
        during * (lower - target) + below * (zone - lower)
    } else {
        below * (zone - target)
    }
}

// ---- Module 2

/// The zone after giving a positive energy or taking a negative one, in kilojoules.
pub fn calculate_new_zone_temperature(salt: &Salt, zone: f64, energy: f64) -> f64 {
    if energy.is_nan() || near(energy, 0.0, 1e-6) {
        zone
    } else if energy > 0.0 {
        zone - giving(salt, zone, energy)
    } else {
        zone - taking(salt, zone, energy)
    }
}

/// What a zone becomes that may not fall under a lowest temperature, and its energy in two parts.
#[derive(Clone, Copy, Debug, PartialEq)]
pub struct Lowered {
    pub temperature: f64,
    pub taken: f64,
    /// What it couldn't give.
    pub rest: f64,
}

/// The same update with a lowest temperature. A zone at or under it stays and gives nothing.
pub fn calculate_new_zone_temperature_with_lowest(
    salt: &Salt,
    zone: f64,
    lowest: f64,
    energy: f64,
) -> Lowered {
    if zone <= lowest {
        return Lowered { temperature: zone, taken: 0.0, rest: energy };
    }
    let temperature = calculate_new_zone_temperature(salt, zone, energy);
    if temperature < lowest {
        let taken = min(energy, calculate_layer_energy_stored(salt, zone, lowest));
        Lowered { temperature: lowest, taken, rest: energy - taken }
    } else {
        Lowered { temperature, taken: energy, rest: 0.0 }
    }
}

/// Temperature fall of a zone that gives energy.
fn giving(salt: &Salt, zone: f64, energy: f64) -> f64 {
    let Salt { lower, upper, below, during, above } = *salt;
    let (above_fall, rest, top) = if zone >= upper {
        let range = (zone - upper) * above;
        if energy <= range {
            return energy / above;
        }
        (zone - upper, energy - range, upper)
    } else if zone >= lower {
        (0.0, energy, zone)
    } else {
        return energy / below;
    };
    let range = (top - lower) * during;
    if rest <= range {
        above_fall + rest / during
    } else {
        above_fall + (top - lower) + (rest - range) / below
    }
}

/// Temperature fall, negative, of a zone that takes energy. The three falls are added with
/// the one above the melting range first, though it comes last.
fn taking(salt: &Salt, zone: f64, energy: f64) -> f64 {
    let Salt { lower, upper, below, during, above } = *salt;
    let (below_fall, rest, bottom) = if zone <= lower {
        let range = (zone - lower) * below;
        if energy >= range {
            return energy / below;
        }
        (zone - lower, energy - range, lower)
    } else if zone <= upper {
        (0.0, energy, zone)
    } else {
        return energy / above;
    };
    let range = (bottom - upper) * during;
    if rest >= range {
        rest / during + below_fall
    } else {
        (rest - range) / above + (bottom - upper) + below_fall
    }
}

// ---- Module 3

/// Charger energy left, charged so far, energy that the zone gives.
#[derive(Clone, Copy, Debug, PartialEq)]
pub struct Charging {
    /// Kilojoules left to the charger, as a negative number.
    pub q_max: f64,
    /// Kilowatt-hours.
    pub charged: f64,
    /// Kilojoules, positive where the zone gives.
    pub transfer: f64,
}

pub fn process_zone_simultaneous_charging(
    salt: &Salt,
    zone: f64,
    target: f64,
    now: Charging,
) -> Charging {
    let Charging { q_max, charged, transfer } = now;
    let all_used =
        Charging { q_max: 0.0, charged: charged + -q_max / 3600.0, transfer: transfer + q_max };
    let full = zone >= target;
    if full && transfer >= 0.0 {
        if -q_max > transfer {
            Charging {
                q_max: q_max + transfer,
                charged: charged + transfer / 3600.0,
                transfer: 0.0,
            }
        } else {
            all_used
        }
    } else if full {
        now
    } else if transfer >= 0.0 {
        if -q_max >= transfer {
            charge_after_withdrawal(salt, zone, target, now)
        } else {
            all_used
        }
    } else {
        charge_beside_warm_water(salt, zone, target, now)
    }
}

/// The charger makes good what the water takes and heats the zone with what is left.
fn charge_after_withdrawal(salt: &Salt, zone: f64, target: f64, now: Charging) -> Charging {
    let required = calculate_zone_energy_required(salt, zone, target);
    let left = now.q_max + now.transfer;
    let charged = now.charged + now.transfer / 3600.0;
    if left > required {
        Charging { q_max: 0.0, charged: charged + -left / 3600.0, transfer: 0.0 + left }
    } else {
        Charging {
            q_max: left - required,
            charged: charged + -required / 3600.0,
            transfer: 0.0 + required,
        }
    }
}

/// The water heats the zone too. Where the water alone passes the target nothing is changed.
fn charge_beside_warm_water(salt: &Salt, zone: f64, target: f64, now: Charging) -> Charging {
    let Charging { q_max, charged, transfer } = now;
    let required = calculate_zone_energy_required(salt, zone, target);
    if q_max + transfer > required {
        Charging { q_max: 0.0, charged: charged + -q_max / 3600.0, transfer: q_max + transfer }
    } else if transfer >= required {
        let lacking = required - transfer;
        Charging {
            q_max: q_max - lacking,
            charged: charged + -lacking / 3600.0,
            transfer: required,
        }
    } else {
        now
    }
}

// ---- Module 4

/// Specific heat of water in kWh per kg and kelvin.
const WATER: f64 = 4184.0 / 3600000.0;

pub fn viscosity(inlet: f64, outlet: f64) -> f64 {
    let mean = (inlet + outlet) / 2.0;
    0.000000000145238 * (mean * mean) - 0.0000000248238 * mean + 0.000001432
}

pub fn reynolds(viscosity: f64, velocity: f64, diameter: f64) -> f64 {
    (velocity * diameter) / viscosity
}

/// Kilowatts per kelvin of the whole exchanger; None where the logarithm is refused.
pub fn heat_transfer(a: f64, b: f64, flow: f64, reynolds: f64) -> Option<f64> {
    ln(reynolds * flow).map(|ln| (a * ln + b) / 1000.0)
}

pub fn outlet(transfer: f64, zone: f64, inlet: f64, mass_flow: f64) -> f64 {
    let twice = 2.0 * mass_flow * WATER * 3600.0;
    (2.0 * transfer * zone - transfer * inlet + twice * inlet) / (twice + transfer)
}

/// An exchanger: tube velocity, diameter in metres, a, b, and the flow through it.
#[derive(Clone, Copy)]
pub struct Exchanger {
    pub velocity: f64,
    pub diameter: f64,
    pub a: f64,
    pub b: f64,
    pub flow: f64,
}

impl Exchanger {
    fn reynolds(&self, inlet: f64, outlet: f64) -> f64 {
        reynolds(viscosity(inlet, outlet), self.velocity, self.diameter)
    }
}

// ---- Module 5

/// What a substep does: module 5's three modes.
#[derive(Clone, Copy)]
pub enum Mode {
    /// Power in kW, and the level to charge to.
    ChargingAlone { power: f64, target: f64 },
    /// Rated losses in kW, and the lowest temperature of a zone where there is a floor.
    Losses { rated: f64, lowest: Option<f64> },
    /// Water through the exchanger, with the power of simultaneous charging.
    Normal { exchanger: Exchanger, reynolds: f64, inlet: f64, power: f64 },
}

pub struct Substep {
    pub outlet: f64,
    /// Kilojoules that each zone gave to the water or lost; none in charging alone.
    pub energies: Vec<f64>,
    /// Their Sum2.
    pub delivered: f64,
    /// Kilowatt-hours charged electrically.
    pub charged: f64,
}

/// A call's substeps: the card with its budget, and how many were done.
pub struct Substeps<'a> {
    pub card: &'a Card,
    pub done: u32,
}

impl Substeps<'_> {
    /// `process_heat_battery_zones`, or refusal 22, 24 or 23.
    pub fn run(&mut self, zones: &mut [f64], seconds: f64, mode: Mode) -> Result<Substep, u8> {
        if self.done == u32::from(self.card.budget) {
            return Err(22);
        }
        self.done += 1;
        let substep = match mode {
            Mode::ChargingAlone { power, target } => {
                charging_alone(self.card, zones, seconds, power, target)
            }
            Mode::Losses { rated, lowest } => losses(self.card, zones, seconds, rated, lowest),
            Mode::Normal { exchanger, reynolds, inlet, power } => {
                let transfer =
                    heat_transfer(exchanger.a, exchanger.b, exchanger.flow, reynolds).ok_or(24)?;
                let layer_transfer = transfer / f64::from(self.card.layers);
                let q_max = charger_energy(power, seconds);
                let water =
                    Water { layer_transfer, mass_flow: exchanger.flow / 60.0 * 1.0, inlet, q_max };
                normal(self.card, zones, seconds, water)
            }
        };
        let sound = zones.iter().all(|zone| zone.is_finite())
            && substep.outlet.is_finite()
            && substep.delivered.is_finite()
            && substep.charged.is_finite();
        if sound {
            Ok(substep)
        } else {
            Err(23)
        }
    }
}

/// Energy of a charger in a substep, kilojoules, as a negative number.
fn charger_energy(power: f64, seconds: f64) -> f64 {
    -power * seconds / 3600.0 * 3600.0
}

/// From the last zone to the first.
fn charging_alone(
    card: &Card,
    zones: &mut [f64],
    seconds: f64,
    power: f64,
    target: f64,
) -> Substep {
    let salt = salt(card);
    let target = soc_to_temp(card, target);
    let mut now = Charging { q_max: charger_energy(power, seconds), charged: 0.0, transfer: 0.0 };
    for zone in zones.iter_mut().rev() {
        now.transfer = 0.0;
        if now.q_max < 0.0 {
            now = process_zone_simultaneous_charging(&salt, *zone, target, now);
        }
        *zone = calculate_new_zone_temperature(&salt, *zone, now.transfer);
    }
    Substep { outlet: 0.0, energies: Vec::new(), delivered: 0.0, charged: now.charged }
}

/// A zone's share of the rated losses, by its temperature above the surroundings, in kilojoules.
pub fn zone_loss(card: &Card, zone: f64, seconds: f64, rated: f64) -> f64 {
    let all = rated * seconds / 3600.0 * 3600.0;
    max_zero(all / f64::from(card.layers) * (zone - AMBIENT) / (card.max - 20.0))
}

/// Every zone loses its share, or with a lowest temperature what it can of it.
fn losses(
    card: &Card,
    zones: &mut [f64],
    seconds: f64,
    rated: f64,
    lowest: Option<f64>,
) -> Substep {
    let salt = salt(card);
    let mut energies = Vec::with_capacity(zones.len());
    for zone in zones.iter_mut() {
        let energy = zone_loss(card, *zone, seconds, rated);
        match lowest {
            None => {
                *zone = calculate_new_zone_temperature(&salt, *zone, energy);
                energies.push(energy);
            }
            Some(lowest) => {
                let after =
                    calculate_new_zone_temperature_with_lowest(&salt, *zone, lowest, energy);
                *zone = after.temperature;
                energies.push(after.taken);
            }
        }
    }
    let delivered = sum2(&energies);
    Substep { outlet: 0.0, energies, delivered, charged: 0.0 }
}

/// What the water of a substep is to its zones.
struct Water {
    /// Kilowatts per kelvin of one layer.
    layer_transfer: f64,
    mass_flow: f64,
    inlet: f64,
    q_max: f64,
}

/// Water from the first zone to the last, charged to level 0, that is to ref.
fn normal(card: &Card, zones: &mut [f64], seconds: f64, water: Water) -> Substep {
    let salt = salt(card);
    let mut now = Charging { q_max: water.q_max, charged: 0.0, transfer: 0.0 };
    let mut temperature = water.inlet;
    let mut energies = Vec::with_capacity(zones.len());
    for zone in zones.iter_mut() {
        let after = outlet(water.layer_transfer, *zone, temperature, water.mass_flow);
        now.transfer = WATER * 3600.0 * water.mass_flow * (after - temperature) * seconds;
        energies.push(now.transfer);
        if now.q_max < 0.0 {
            now = process_zone_simultaneous_charging(&salt, *zone, card.reference, now);
        }
        *zone = calculate_new_zone_temperature(&salt, *zone, now.transfer);
        temperature = after;
    }
    let delivered = sum2(&energies);
    Substep { outlet: temperature, energies, delivered, charged: now.charged }
}

// ---- Module 6

/// Hours left of the timestep for a service that starts at `start`.
fn time_available(card: &Card, running: f64, start: f64) -> f64 {
    (card.timestep - running) * (1.0 - start / card.timestep)
}

fn charge_battery_electric(
    steps: &mut Substeps,
    state: &mut State,
    power: f64,
    target: f64,
) -> Result<f64, u8> {
    let hours = max_zero(time_available(steps.card, state.totals.running_hours, 0.0));
    let mode = Mode::ChargingAlone { power, target };
    let charged = steps.run(&mut state.zones, hours * 3600.0, mode)?.charged;
    state.totals.charged += charged;
    state.totals.charged_electric += charged;
    Ok(charged)
}

fn battery_heat_loss(version: u8, steps: &mut Substeps, state: &mut State) -> Result<f64, u8> {
    let seconds = steps.card.timestep * 3600.0;
    let has_floor = has_floor_flag(version) && steps.card.floor == 1;
    let mode = Mode::Losses { rated: steps.card.losses, lowest: has_floor.then_some(FLOOR) };
    Ok(steps.run(&mut state.zones, seconds, mode)?.delivered / 3600.0)
}

/// What ends a hydronic charge.
#[derive(Clone, Copy, Debug, PartialEq, Eq, PartialOrd, Ord)]
pub enum HydronicEnd {
    /// The whole substeps that the hours have room for are done.
    Hours,
    /// An outlet not clearly below the inlet.
    Outlet,
    /// The limit, met in a fraction of the last substep.
    Replay,
    /// The limit, and the last substep took up nothing.
    NoReplay,
}

/// What a hydronic charge hands out.
struct HydronicRun {
    /// Kilojoules.
    absorbed: f64,
    /// Of each substep; a replayed one's stand in the place of those of the one that it replays.
    seconds: Vec<f64>,
    end: HydronicEnd,
}

fn charge_battery_hydronic(
    steps: &mut Substeps,
    zones: &mut Vec<f64>,
    call: &Hydronic,
) -> Result<HydronicRun, u8> {
    let Hydronic { velocity, diameter, hex_a: a, hex_b: b, flow, inlet, .. } = *call;
    let (card, exchanger) = (steps.card, Exchanger { velocity, diameter, a, b, flow });
    let normal = |reynolds| Mode::Normal { exchanger, reynolds, inlet, power: 0.0 };
    let limit = call.limit * 3600.0;
    let mut reynolds = exchanger.reynolds(card.initial_inlet, card.estimated_outlet);
    let mut run = HydronicRun { absorbed: 0.0, seconds: Vec::new(), end: HydronicEnd::Hours };
    for _ in 0..truncate(call.hours * 3600.0 / card.substep) {
        let before = zones.clone();
        let whole = steps.run(zones, card.substep, normal(reynolds))?;
        run.seconds.push(card.substep);
        reynolds = exchanger.reynolds(inlet, whole.outlet);
        if whole.outlet >= inlet || near(whole.outlet, inlet, 1e-10) {
            run.end = HydronicEnd::Outlet;
            break;
        }
        let taken = -whole.delivered;
        run.absorbed += taken;
        if run.absorbed > limit || near(run.absorbed, limit, 1e-10) {
            run.end = HydronicEnd::NoReplay;
            if taken > 0.0 {
                let fraction = (limit - (run.absorbed - taken)) / taken;
                run.seconds.pop();
                run.seconds.push(card.substep * fraction);
                *zones = before;
                steps.run(zones, card.substep * fraction, normal(reynolds))?;
                run.absorbed = limit;
                run.end = HydronicEnd::Replay;
            }
            break;
        }
    }
    Ok(run)
}

fn hydronic(
    version: u8,
    steps: &mut Substeps,
    state: &mut State,
    call: &Hydronic,
) -> Result<Answer, u8> {
    let run = charge_battery_hydronic(steps, &mut state.zones, call)?;
    let energy = run.absorbed / 3600.0;
    state.totals.charged += energy;
    let mut answer = Answer::plain(energy, steps.done, state.clone());
    if shows_hydronic_time(version) {
        answer.time = run.seconds.iter().fold(0.0, |sum, seconds| sum + seconds);
    }
    Ok(answer)
}

/// How a hydronic charge of a good battery ends, or the refusal of its substeps.
pub fn hydronic_end(battery: &Battery, call: &Hydronic) -> Result<HydronicEnd, u8> {
    let mut steps = Substeps { card: &battery.card, done: 0 };
    let mut zones = battery.state.zones.clone();
    charge_battery_hydronic(&mut steps, &mut zones, call).map(|run| run.end)
}

pub fn calculate_charge_energy_demand(
    card: &Card,
    zones: &[f64],
    flow_maximum: Option<f64>,
    target: f64,
) -> Result<f64, u8> {
    let level = calc_state_of_charge(card, zones)?;
    if level > target || near(level, target, 1e-10) {
        return Ok(0.0);
    }
    let maximum = stored_at(card, card.max);
    let current = maximum * level;
    let by_level = maximum * target - current;
    let deficit = match flow_maximum {
        Some(flow) => min(by_level, max_zero(stored_at(card, flow) - current)),
        None => by_level,
    };
    Ok(deficit / 3600.0)
}

// ---- Module 7

/// What a demand that ran hands out.
struct DemandRun {
    /// Kilowatt-hours of one unit.
    energy: f64,
    outlet: f64,
    seconds: f64,
}

fn demand_energy(
    steps: &mut Substeps,
    state: &mut State,
    demand: &Demand,
    inlet: f64,
) -> Result<DemandRun, u8> {
    let card = steps.card;
    let exchanger = Exchanger {
        velocity: card.velocity,
        diameter: card.diameter / 1000.0,
        a: card.a,
        b: card.b,
        flow: card.flow,
    };
    let charging = card.simultaneous == 1 && demand.control_on == 1;
    let power = if charging { card.power } else { 0.0 };
    let required = demand.required / f64::from(card.units);
    let seconds_left = time_available(card, state.totals.running_hours, demand.start) * 3600.0;
    let mut reynolds = exchanger.reynolds(card.initial_inlet, card.estimated_outlet);
    let mut run = DemandRun { energy: 0.0, outlet: 0.0, seconds: 0.0 };
    let mut step = 1.0;
    while step > 0.0 {
        let mode = Mode::Normal { exchanger, reynolds, inlet, power };
        let substep = steps.run(&mut state.zones, step, mode)?;
        state.totals.charged_electric += substep.charged;
        run.outlet = substep.outlet;
        run.seconds += step;
        reynolds = exchanger.reynolds(inlet, substep.outlet);
        if substep.delivered < 0.0 {
            break;
        }
        let energy = substep.delivered / 3600.0;
        run.energy += energy;
        if run.energy > required || nearly_equal(required, run.energy, 1e-10, 1e-9) {
            break;
        }
        step = next_step(card, &run, required, energy / step, step, seconds_left);
    }
    Ok(run)
}

/// The time that the rest needs at the present power, within substep and time left.
fn next_step(card: &Card, run: &DemandRun, required: f64, power: f64, step: f64, left: f64) -> f64 {
    let mut next = step;
    if power > 0.0 {
        next = (required - run.energy) / power;
    }
    if next > card.substep {
        next = card.substep;
    }
    if run.seconds + next > left {
        next = left - run.seconds;
    }
    next
}

/// Running hours of a committed demand.
fn book(state: &mut State, class: u8, hours: f64) {
    state.totals.running_hours += hours;
    match class {
        1 | 2 => state.totals.pump_hours += hours,
        _ => state.totals.direct_hours += hours,
    }
}

fn demand(steps: &mut Substeps, state: &mut State, demand: &Demand) -> Result<Answer, u8> {
    if demand.required <= 1e-10 {
        return Ok(Answer::plain(0.0, 0, state.clone()));
    }
    let inlet = demand.return_temperature.ok_or(20)?;
    let class = class(steps.card, demand.service_type);
    if demand.commit == 1 && class == 0 {
        return Err(21);
    }
    let before = state.clone();
    let run = demand_energy(steps, state, demand, inlet)?;
    if demand.commit == 1 {
        book(state, class, run.seconds / 3600.0);
    } else {
        *state = before;
    }
    Ok(Answer {
        refusal: 0,
        energy: run.energy * f64::from(steps.card.units),
        outlet: Some(run.outlet),
        time: run.seconds,
        substeps: steps.done,
        state: state.clone(),
    })
}

// ---- Module 8: calls

fn answer(version: u8, battery: &Battery, call: &Call) -> Result<Answer, u8> {
    let mut state = battery.state.clone();
    let card = &battery.card;
    let mut steps = Substeps { card, done: 0 };
    let energy = match call {
        Call::Demand(fields) => return demand(&mut steps, &mut state, fields),
        Call::Electric { power, target } => {
            charge_battery_electric(&mut steps, &mut state, *power, *target)?
        }
        Call::Hydronic(fields) => return hydronic(version, &mut steps, &mut state, fields),
        Call::StandingLoss => battery_heat_loss(version, &mut steps, &mut state)?,
        Call::CloseTimestep => {
            state.totals.running_hours = 0.0;
            state.totals.pump_hours = 0.0;
            state.totals.direct_hours = 0.0;
            0.0
        }
        Call::StateOfCharge => calc_state_of_charge(card, &state.zones)?,
        Call::ChargeEnergyDemand { flow_maximum, target } => {
            calculate_charge_energy_demand(card, &state.zones, *flow_maximum, *target)?
        }
    };
    Ok(Answer::plain(energy, steps.done, state))
}

/// One call on a battery in a known version: the answer, and the battery that it leaves.
pub fn step(version: u8, battery: &Battery, call: &Call) -> (Answer, Battery) {
    let before = &battery.state;
    let answer = if card_refusal(&battery.card) != 0
        || ranges::battery_refusal(battery)
        || ranges::call_refusal(version, &battery.card, call)
    {
        Answer::refused(10, before)
    } else {
        match answer(version, battery, call) {
            Ok(answer) => answer.or_23(before),
            Err(refusal) => Answer::refused(refusal, before),
        }
    };
    let after = Battery { card: battery.card, state: answer.state.clone() };
    (answer, after)
}
