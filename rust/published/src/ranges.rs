//! Document 01's ranges of card and call fields, both ends included, document 02's of the floor flag,
//! and refusal 10.

use crate::model::{lists_services, Battery, Call, Card, Demand, Hydronic};

pub type Range = (f64, f64);

pub const TEMPERATURE: Range = (-50.0, 250.0);
pub const CAPACITY: Range = (0.001, 1e6);
pub const VELOCITY: Range = (0.0001, 100.0);
pub const EXCHANGER: Range = (-1e6, 1e6);
pub const FLOW: Range = (0.001, 1000.0);
pub const POWER: Range = (0.0, 1000.0);
pub const FRACTION: Range = (0.0, 1.0);
pub const REQUIRED: Range = (-1e6, 1e6);
pub const HOURS: Range = (0.0, 24.0);
pub const LIMIT: Range = (0.0, 1e6);
pub const DIAMETER_IN_METRES: Range = (0.00001, 1.0);

/// Ranges of the card's 19 f64, in document 01's order.
pub const CARD: [Range; 19] = [
    (0.1, 3600.0),
    (0.01, 24.0),
    TEMPERATURE,
    TEMPERATURE,
    TEMPERATURE,
    TEMPERATURE,
    TEMPERATURE,
    TEMPERATURE,
    CAPACITY,
    CAPACITY,
    CAPACITY,
    VELOCITY,
    (0.01, 1000.0),
    EXCHANGER,
    EXCHANGER,
    FLOW,
    POWER,
    TEMPERATURE,
    POWER,
];

pub fn within(x: f64, (low, high): Range) -> bool {
    low <= x && x <= high
}

pub fn card_in_range(card: &Card) -> bool {
    (1..=64).contains(&card.layers)
        && (1..=1000).contains(&card.units)
        && card.simultaneous <= 1
        && card.budget >= 1
        && card.floor <= 1
        && card.numbers().iter().zip(CARD).all(|(x, range)| within(*x, range))
}

fn demand_in_range(version: u8, card: &Card, demand: &Demand) -> bool {
    (demand.service_type <= 3 || lists_services(version))
        && demand.commit <= 1
        && demand.control_on <= 1
        && within(demand.required, REQUIRED)
        && within(demand.start, (0.0, card.timestep))
        && demand.return_temperature.is_none_or(|t| within(t, TEMPERATURE))
}

fn hydronic_in_range(hydronic: &Hydronic) -> bool {
    within(hydronic.inlet, TEMPERATURE)
        && within(hydronic.hours, HOURS)
        && within(hydronic.flow, FLOW)
        && within(hydronic.target, FRACTION)
        && within(hydronic.limit, LIMIT)
        && within(hydronic.hex_a, EXCHANGER)
        && within(hydronic.hex_b, EXCHANGER)
        && within(hydronic.velocity, VELOCITY)
        && within(hydronic.diameter, DIAMETER_IN_METRES)
}

/// Refusal 10 of a call: whether a field is out of range or not finite.
pub fn call_refusal(version: u8, card: &Card, call: &Call) -> bool {
    !match call {
        Call::Demand(demand) => demand_in_range(version, card, demand),
        Call::Electric { power, target } => within(*power, POWER) && within(*target, FRACTION),
        Call::Hydronic(hydronic) => hydronic_in_range(hydronic),
        Call::StandingLoss | Call::CloseTimestep | Call::StateOfCharge => true,
        Call::ChargeEnergyDemand { flow_maximum, target } => {
            flow_maximum.is_none_or(|t| within(t, TEMPERATURE)) && within(*target, FRACTION)
        }
    }
}

/// Refusal 10 of a battery handed in with an accepted card: its zones and totals.
pub fn battery_refusal(battery: &Battery) -> bool {
    let state = &battery.state;
    state.zones.len() != usize::from(battery.card.layers)
        || !state.zones.iter().all(|zone| zone.is_finite())
        || !state.totals.numbers().iter().all(|total| total.is_finite())
}
