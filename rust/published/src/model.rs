//! Card, battery, call and answer of document 01, and the sheet's versions, services and floor flag
//! of document 02.

use std::fmt;

/// The known versions, oldest first.
pub const VERSIONS: [u8; 4] = [1, 2, 3, 4];

pub fn is_known(version: u8) -> bool {
    VERSIONS.contains(&version)
}

/// Whether an answered hydronic line shows its time; else it shows 0.
pub fn shows_hydronic_time(version: u8) -> bool {
    version >= 2
}

/// Whether a card lists services, and a service type has two bytes.
pub fn lists_services(version: u8) -> bool {
    version >= 3
}

/// Whether a card ends with the flag that sets a floor for standing losses.
pub fn has_floor_flag(version: u8) -> bool {
    version >= 4
}

/// A listed service: its number, and 1 regular, 2 space or 3 direct.
#[derive(Clone, Copy, Debug, Default, PartialEq, Eq)]
pub struct Service {
    pub number: u16,
    pub class: u8,
}

/// A list of services, accepted or not: as many as its count byte can say.
#[derive(Clone, Copy)]
pub struct Services {
    count: u8,
    places: [Service; u8::MAX as usize],
}

impl Services {
    /// At most 255.
    pub fn new(listed: &[Service]) -> Self {
        let count = u8::try_from(listed.len()).expect("a count byte");
        let mut places = [Service::default(); u8::MAX as usize];
        places[..listed.len()].copy_from_slice(listed);
        Services { count, places }
    }

    pub fn listed(&self) -> &[Service] {
        &self.places[..usize::from(self.count)]
    }
}

/// None.
impl Default for Services {
    fn default() -> Self {
        Services::new(&[])
    }
}

impl fmt::Debug for Services {
    fn fmt(&self, f: &mut fmt::Formatter<'_>) -> fmt::Result {
        let pairs = self.listed().iter().map(|service| (service.number, service.class));
        f.debug_list().entries(pairs).finish()
    }
}

#[derive(Clone, Copy, Debug, Default)]
pub struct Card {
    pub layers: u8,
    pub units: u16,
    pub simultaneous: u8,
    pub budget: u16,
    pub substep: f64,
    pub timestep: f64,
    pub initial_inlet: f64,
    pub estimated_outlet: f64,
    pub max: f64,
    pub reference: f64,
    pub lower: f64,
    pub upper: f64,
    pub below: f64,
    pub during: f64,
    pub above: f64,
    pub velocity: f64,
    pub diameter: f64,
    pub a: f64,
    pub b: f64,
    pub flow: f64,
    pub losses: f64,
    pub start: f64,
    pub power: f64,
    /// None before version 3.
    pub services: Services,
    /// 0 or 1; 0 before version 4.
    pub floor: u8,
}

impl Card {
    /// The 19 f64 in document 01's order.
    pub fn numbers(&self) -> [f64; 19] {
        [
            self.substep,
            self.timestep,
            self.initial_inlet,
            self.estimated_outlet,
            self.max,
            self.reference,
            self.lower,
            self.upper,
            self.below,
            self.during,
            self.above,
            self.velocity,
            self.diameter,
            self.a,
            self.b,
            self.flow,
            self.losses,
            self.start,
            self.power,
        ]
    }

    /// The 19 f64 in document 01's order, to be changed in place.
    pub fn numbers_mut(&mut self) -> [&mut f64; 19] {
        [
            &mut self.substep,
            &mut self.timestep,
            &mut self.initial_inlet,
            &mut self.estimated_outlet,
            &mut self.max,
            &mut self.reference,
            &mut self.lower,
            &mut self.upper,
            &mut self.below,
            &mut self.during,
            &mut self.above,
            &mut self.velocity,
            &mut self.diameter,
            &mut self.a,
            &mut self.b,
            &mut self.flow,
            &mut self.losses,
            &mut self.start,
            &mut self.power,
        ]
    }
}

/// What a card's numbers lead to, as `HeatBatteryPcm::new` derives it.
#[derive(Clone, Copy, Debug, PartialEq)]
pub struct Derived {
    pub layer_below: f64,
    pub layer_during: f64,
    pub layer_above: f64,
    pub stored_maximum: f64,
    pub rated_difference: f64,
    pub diameter_in_metres: f64,
}

/// The five totals, in the order of a call line.
#[derive(Clone, Copy, Debug, Default)]
pub struct Totals {
    pub running_hours: f64,
    pub pump_hours: f64,
    pub direct_hours: f64,
    pub charged: f64,
    pub charged_electric: f64,
}

impl Totals {
    pub fn numbers(&self) -> [f64; 5] {
        [
            self.running_hours,
            self.pump_hours,
            self.direct_hours,
            self.charged,
            self.charged_electric,
        ]
    }
}

#[derive(Clone, Debug, Default)]
pub struct State {
    pub zones: Vec<f64>,
    pub totals: Totals,
}

#[derive(Clone, Debug)]
pub struct Battery {
    pub card: Card,
    pub state: State,
}

impl Battery {
    /// Whether a call has the floor: a standing loss, with the flag 1.
    pub fn has_floor(&self, version: u8, call: &Call) -> bool {
        has_floor_flag(version) && self.card.floor == 1 && matches!(call, Call::StandingLoss)
    }

    pub fn fresh(card: &Card) -> Self {
        let zones = vec![card.start; usize::from(card.layers)];
        Battery { card: *card, state: State { zones, totals: Totals::default() } }
    }
}

#[derive(Clone, Copy, Debug)]
pub enum Call {
    Demand(Demand),
    Electric { power: f64, target: f64 },
    Hydronic(Hydronic),
    StandingLoss,
    CloseTimestep,
    StateOfCharge,
    ChargeEnergyDemand { flow_maximum: Option<f64>, target: f64 },
}

#[derive(Clone, Copy, Debug)]
pub struct Demand {
    /// 0 to 3; from version 3 on any number.
    pub service_type: u16,
    pub commit: u8,
    pub control_on: u8,
    pub required: f64,
    pub start: f64,
    pub return_temperature: Option<f64>,
}

#[derive(Clone, Copy, Debug)]
pub struct Hydronic {
    pub inlet: f64,
    pub hours: f64,
    pub flow: f64,
    pub target: f64,
    pub limit: f64,
    pub hex_a: f64,
    pub hex_b: f64,
    pub velocity: f64,
    pub diameter: f64,
}

impl Call {
    /// The kind, 1 to 7.
    pub fn kind(&self) -> u8 {
        match self {
            Call::Demand(_) => 1,
            Call::Electric { .. } => 2,
            Call::Hydronic(_) => 3,
            Call::StandingLoss => 4,
            Call::CloseTimestep => 5,
            Call::StateOfCharge => 6,
            Call::ChargeEnergyDemand { .. } => 7,
        }
    }
}

#[derive(Clone, Debug)]
pub struct Answer {
    pub refusal: u8,
    pub energy: f64,
    pub outlet: Option<f64>,
    pub time: f64,
    pub substeps: u32,
    pub state: State,
}

impl Answer {
    /// A refusal line: zones and totals as before.
    pub fn refused(refusal: u8, before: &State) -> Self {
        Answer { refusal, energy: 0.0, outlet: None, time: 0.0, substeps: 0, state: before.clone() }
    }

    /// An answer that ran no demand.
    pub fn plain(energy: f64, substeps: u32, state: State) -> Self {
        Answer { refusal: 0, energy, outlet: None, time: 0.0, substeps, state }
    }

    /// Whether every reported number and total is finite.
    pub fn is_finite(&self) -> bool {
        self.energy.is_finite()
            && self.outlet.is_none_or(f64::is_finite)
            && self.time.is_finite()
            && self.state.zones.iter().all(|zone| zone.is_finite())
            && self.state.totals.numbers().iter().all(|total| total.is_finite())
    }

    /// The answer, or refusal 23 where a number of it is not finite.
    pub fn or_23(self, before: &State) -> Self {
        if self.is_finite() {
            self
        } else {
            Answer::refused(23, before)
        }
    }

    /// The same answer to the last bit.
    pub fn same_bits(&self, other: &Answer) -> bool {
        let bits = |answer: &Answer| {
            let mut bits = vec![answer.energy.to_bits(), answer.time.to_bits()];
            bits.extend(answer.outlet.map(f64::to_bits));
            bits.extend(answer.state.zones.iter().map(|zone| zone.to_bits()));
            bits.extend(answer.state.totals.numbers().map(f64::to_bits));
            bits
        };
        self.refusal == other.refusal
            && self.substeps == other.substeps
            && self.outlet.is_some() == other.outlet.is_some()
            && bits(self) == bits(other)
    }
}
