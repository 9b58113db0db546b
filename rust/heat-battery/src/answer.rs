//! Answers, zones and totals, as a call line shows them.

use crate::bytes::{Buffer, Cursor};
use crate::call::Call;
use crate::field::optional;
use crate::refusal::Refusal;
use std::fmt;
use std::ops::Deref;

pub use heat_battery_sys::MOST_LAYERS;

/// Bytes of refusal, energy, outlet's mark, outlet, time and substeps.
pub(crate) const HEAD_BYTES: usize = 30;
/// Bytes of the five totals.
const TOTALS_BYTES: usize = 40;

/// Bytes of zones and totals.
pub(crate) const fn state_bytes(layers: u8) -> usize {
    8 * layers as usize + TOTALS_BYTES
}

/// Zone temperatures in °C, a slice of as many as the card has layers.
#[derive(Clone, Copy)]
pub struct Zones {
    places: [f64; MOST_LAYERS],
    count: usize,
}

impl Zones {
    pub(crate) const EMPTY: Zones = Zones { places: [0.0; MOST_LAYERS], count: 0 };

    /// None for more than 64.
    pub fn new(zones: &[f64]) -> Option<Zones> {
        let mut places = [0.0; MOST_LAYERS];
        places.get_mut(..zones.len())?.copy_from_slice(zones);
        Some(Zones { places, count: zones.len() })
    }
}

impl Deref for Zones {
    type Target = [f64];

    fn deref(&self) -> &[f64] {
        self.places.get(..self.count).unwrap_or_default()
    }
}

impl fmt::Debug for Zones {
    fn fmt(&self, f: &mut fmt::Formatter<'_>) -> fmt::Result {
        (**self).fmt(f)
    }
}

impl PartialEq for Zones {
    fn eq(&self, other: &Zones) -> bool {
        **self == **other
    }
}

/// The five totals, in the order of a call line.
#[derive(Clone, Copy, Debug, Default, PartialEq)]
pub struct Totals {
    /// Total running time since the timestep began, h.
    pub running_hours: f64,
    /// Running time with the pump, h.
    pub pump_hours: f64,
    /// Running time of direct hot water, h.
    pub direct_hours: f64,
    /// Energy of all charge lines, kWh.
    pub charged: f64,
    /// Energy charged by electricity, during demands too, kWh.
    pub charged_electric: f64,
}

impl Totals {
    /// Names and units in the order of a call line.
    pub const NAMES: [(&'static str, &'static str); 5] = [
        ("running_hours", "h"),
        ("pump_hours", "h"),
        ("direct_hours", "h"),
        ("charged", "kWh"),
        ("charged_electric", "kWh"),
    ];

    /// The five in the order of a call line.
    pub fn numbers(&self) -> [f64; 5] {
        [
            self.running_hours,
            self.pump_hours,
            self.direct_hours,
            self.charged,
            self.charged_electric,
        ]
    }

    /// The five given in the order of a call line.
    pub fn from_numbers(numbers: [f64; 5]) -> Totals {
        let [running_hours, pump_hours, direct_hours, charged, charged_electric] = numbers;
        Totals { running_hours, pump_hours, direct_hours, charged, charged_electric }
    }
}

/// What a call line shows after its call.
#[derive(Clone, Copy, Debug, PartialEq)]
pub struct Answer {
    /// None on an answered line; else energy, time and substeps are 0, and zones and totals
    /// are as before.
    pub refusal: Option<Refusal>,
    /// Heat that moved, kWh; 0 where only a question was asked, so that energies can be summed.
    pub energy: f64,
    /// What the demand of a trial would get, kWh; on no other line.
    pub trial_energy: Option<f64>,
    /// The answer to a state of charge, 0 to 1; on no other line.
    pub state_of_charge: Option<f64>,
    /// The answer to a charge energy demand, kWh; on no other line.
    pub charge_energy_demand: Option<f64>,
    /// Outlet temperature in °C of a demand that ran.
    pub outlet: Option<f64>,
    /// Time run, s: a demand's and, from version 2 on, that of a hydronic charge's pump; else 0.
    pub time: f64,
    /// Substeps that were taken.
    pub substeps: u32,
    /// Zone temperatures afterwards.
    pub zones: Zones,
    /// Totals afterwards.
    pub totals: Totals,
}

impl Answer {
    /// The answer, or the refusal that stands in its place.
    pub fn result(self) -> Result<Answer, Refusal> {
        match self.refusal {
            Some(refusal) => Err(refusal),
            None => Ok(self),
        }
    }

    /// The number that stands where the line of a call has its energy: the energy, or the answer
    /// to the question.
    pub fn figure(&self) -> f64 {
        let answered = self.trial_energy.or(self.state_of_charge).or(self.charge_energy_demand);
        answered.unwrap_or(self.energy)
    }

    /// Bytes that follow kind and call fields.
    pub(crate) fn bytes(layers: u8) -> usize {
        HEAD_BYTES + state_bytes(layers)
    }

    /// Reads the answer to a call; the error in words.
    pub(crate) fn read(call: &Call, layers: u8, bytes: &mut Cursor) -> Result<Answer, String> {
        let short = || "cut short".to_string();
        let refusal = Refusal::from_number(bytes.byte().ok_or_else(short)?);
        let figure = bytes.number().ok_or_else(short)?;
        let Figures { energy, trial_energy, state_of_charge, charge_energy_demand } =
            Figures::of(call, refusal, figure);
        Ok(Answer {
            refusal,
            energy,
            trial_energy,
            state_of_charge,
            charge_energy_demand,
            outlet: optional(bytes).map_err(|words| format!("outlet: {words}"))?,
            time: bytes.number().ok_or_else(short)?,
            substeps: bytes.count().ok_or_else(short)?,
            zones: read_zones(layers, bytes).ok_or_else(short)?,
            totals: read_totals(bytes).ok_or_else(short)?,
        })
    }
}

/// What the figure of a call's line means.
#[derive(Default)]
pub(crate) struct Figures {
    pub energy: f64,
    pub trial_energy: Option<f64>,
    pub state_of_charge: Option<f64>,
    pub charge_energy_demand: Option<f64>,
}

impl Figures {
    /// A refused question has no answer; its figure, 0 on a good line, stays where it stands.
    #[inline]
    pub fn of(call: &Call, refusal: Option<Refusal>, figure: f64) -> Figures {
        let answer = Some(figure);
        match (call, refusal) {
            (Call::Demand { commit: false, .. }, None) => {
                Figures { trial_energy: answer, ..Figures::default() }
            }
            (Call::StateOfCharge, None) => {
                Figures { state_of_charge: answer, ..Figures::default() }
            }
            (Call::ChargeEnergyDemand { .. }, None) => {
                Figures { charge_energy_demand: answer, ..Figures::default() }
            }
            _ => Figures { energy: figure, ..Figures::default() },
        }
    }
}

/// A call line: the call and what was answered.
#[derive(Clone, Copy, Debug, PartialEq)]
pub struct Line {
    /// 1 for the first call line.
    pub index: u64,
    /// The call's kind and fields.
    pub call: Call,
    /// The answer, or a refusal in its place.
    pub answer: Answer,
}

pub(crate) fn read_zones(layers: u8, bytes: &mut Cursor) -> Option<Zones> {
    let mut zones = Zones { count: usize::from(layers), ..Zones::EMPTY };
    for place in zones.places.get_mut(..usize::from(layers))? {
        *place = bytes.number()?;
    }
    Some(zones)
}

pub(crate) fn read_totals(bytes: &mut Cursor) -> Option<Totals> {
    let mut numbers = [0.0; 5];
    for place in &mut numbers {
        *place = bytes.number()?;
    }
    Some(Totals::from_numbers(numbers))
}

pub(crate) fn write_state<const N: usize>(bytes: &mut Buffer<N>, zones: &[f64], totals: &Totals) {
    for number in zones.iter().chain(&totals.numbers()) {
        bytes.put_number(*number);
    }
}
