//! The figures of document 02's request Three that tell readings apart.
#![allow(dead_code)]

use heat_battery::{Call, Card};

/// One layer of document 01's points to hit.
pub const POINTS: Card = Card {
    layers: 1,
    units: 1,
    simultaneous: false,
    budget: 1000,
    substep: 20.0,
    timestep: 1.0,
    initial_inlet: 10.0,
    estimated_outlet: 53.0,
    max: 80.0,
    reference: 0.0,
    lower: 48.0,
    upper: 56.0,
    below: 4.0,
    during: 32.0,
    above: 2.0,
    velocity: 0.1,
    diameter: 10.0,
    a: 0.0,
    b: 1000.0,
    flow: 6.0,
    losses: 0.25,
    start: 76.0,
    power: 0.0,
    services: Vec::new(),
    floor: false,
};

/// What a hydronic charge is given besides the figures that all here share.
#[derive(Clone, Copy)]
pub struct Wet {
    pub inlet: f64,
    pub hours: f64,
    pub flow: f64,
    pub limit: f64,
    pub hex_b: f64,
}

pub const WET: Wet = Wet { inlet: 70.0, hours: 1.0, flow: 6.0, limit: 1e6, hex_b: 1000.0 };
const HOUR: f64 = 3600.0;

impl Wet {
    pub fn call(&self) -> Call {
        let Wet { inlet, hours, flow, limit, hex_b } = *self;
        let (target, hex_a, velocity, diameter) = (1.0, 0.0, 0.1, 0.01);
        Call::Hydronic { inlet, hours, flow, target, limit, hex_a, hex_b, velocity, diameter }
    }
}

/// A charge of a fresh battery, and the substeps and the time that version 2 and later show.
pub struct Figure {
    pub start: f64,
    pub substep: f64,
    pub wet: Wet,
    pub substeps: u32,
    pub time: f64,
}

impl Figure {
    pub fn card(&self) -> Card {
        Card { start: self.start, substep: self.substep, ..POINTS }
    }
}

pub fn figures() -> [Figure; 9] {
    let limited = Wet { limit: 0.001, ..WET };
    let given = |seconds: f64| Wet { hours: seconds / HOUR, ..WET };
    let of = |start, substep, wet, substeps, time| Figure { start, substep, wet, substeps, time };
    // Past the hours given: the limit's nearly equal has an epsilon of 1e-10 kJ.
    let past = Wet { flow: 0.001, hex_b: 0.001, limit: 1e-10 / HOUR, ..given(0.15) };
    [
        of(40.0, 0.1, given(0.35), 3, 0.30000000000000004),
        // A sum: the product is 0.6000000000000001.
        of(40.0, 0.1, given(0.65), 6, 0.6),
        of(40.0, 20.0, limited, 2, 0.2634034416826004),
        of(40.0, 0.1, limited, 4, 0.2660380772135669),
        of(40.0, 20.0, WET, 3, 60.0),
        of(60.0, 20.0, Wet { inlet: 40.0, ..WET }, 1, 20.0),
        of(69.999999, 0.1, past, 2, 100.71701860771896),
        of(40.0, 20.0, given(0.0), 0, 0.0),
        of(40.0, 20.0, given(19.9), 0, 0.0),
    ]
}
