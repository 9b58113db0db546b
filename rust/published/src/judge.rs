//! The judge: document 01's calls, answered by the published file around this module.
//! It counts substeps and their seconds, gives the refusals that the published file does not have,
//! and hands out single functions for the vector files.

#![warn(warnings)]

use super::{HeatBatteryPcm, HeatBatteryPcmOperationMode};
use crate::core::controls::time_control::ChargeControl;
use crate::core::energy_supply::energy_supply::{EnergySupply, EnergySupplyConnection};
use crate::core::external_conditions::ExternalConditions;
use crate::core::heating_systems::common::HeatingServiceType;
use crate::core::simulation_time::{SimulationTimeIterator, Timestep};
use crate::input::{HeatBattery, HeatSourceWetDetails, PcmBatteryChargingConfiguration};
use crate::model::{
    shows_hydronic_time, Answer, Battery, Call, Card, Demand, Derived, Hydronic, Services, State,
    Totals,
};
use crate::ranges;
use crate::stand_ins::{take_logarithm_refused, take_logarithms};
use accurate::{sum::Sum2, traits::*};
use anyhow::Error;
use parking_lot::RwLock;
use std::cell::Cell;
use std::sync::atomic::Ordering::SeqCst;
use std::sync::Arc;

const NOW: Timestep = Timestep { index: 0 };

/// What the substeps of one call have done so far.
#[derive(Clone, Copy)]
struct Run {
    budget: u32,
    substeps: u32,
    /// Seconds, added up in order.
    time: f64,
    /// The same without the last substep.
    time_before_last: f64,
    outlet: Option<f64>,
}

impl Run {
    const fn with_budget(budget: u32) -> Self {
        Run { budget, substeps: 0, time: 0.0, time_before_last: 0.0, outlet: None }
    }
}

thread_local! {
    static RUN: Cell<Run> = const { Cell::new(Run::with_budget(0)) };
}

impl HeatBatteryPcm {
    /// A substep of the published file, with refusals 22, 24 and 23 around it.
    #[allow(clippy::too_many_arguments)]
    pub(super) fn process_heat_battery_zones(
        &self,
        inlet_temp_c: f64,
        zone_temp_c_dist: &mut [f64],
        time_step_s: f64,
        reynold_number_at_1_l_per_min: f64,
        flow_rate_l_per_min: f64,
        pwr_in: Option<f64>,
        mode: Option<HeatBatteryPcmOperationMode>,
        target_charge_fraction: f64,
        hex_a: Option<f64>,
        hex_b: Option<f64>,
    ) -> anyhow::Result<(f64, Vec<f64>, f64)> {
        let mut run = RUN.get();
        if run.substeps == run.budget {
            return Err(Error::refused(22));
        }
        let (outlet, delivered, charged) = self.process_heat_battery_zones_published(
            inlet_temp_c,
            zone_temp_c_dist,
            time_step_s,
            reynold_number_at_1_l_per_min,
            flow_rate_l_per_min,
            pwr_in,
            mode,
            target_charge_fraction,
            hex_a,
            hex_b,
        )?;
        if take_logarithm_refused() {
            return Err(Error::refused(24));
        }
        let finite = zone_temp_c_dist.iter().all(|zone| zone.is_finite())
            && outlet.is_finite()
            && sum2(&delivered).is_finite()
            && charged.is_finite();
        if !finite {
            return Err(Error::refused(23));
        }
        run.substeps += 1;
        run.time_before_last = run.time;
        run.time += time_step_s;
        run.outlet = Some(outlet);
        RUN.set(run);
        Ok((outlet, delivered, charged))
    }
}

/// The published loop is about to replay its last substep in these seconds: that one's don't count.
pub(super) fn in_place_of_the_last(time_step_s: f64) -> f64 {
    let run = RUN.get();
    RUN.set(Run { time: run.time_before_last, ..run });
    time_step_s
}

pub fn sum2(items: &[f64]) -> f64 {
    items.iter().copied().sum_with_accumulator::<Sum2<_>>()
}

/// `HeatBatteryPcm::new` for a card, with the control on or off.
#[allow(clippy::arc_with_non_send_sync)]
fn published(card: &Card, control_on: bool) -> anyhow::Result<HeatBatteryPcm> {
    let details = HeatSourceWetDetails::HeatBattery {
        battery: HeatBattery::Pcm {
            charging_config: PcmBatteryChargingConfiguration::ChargeControl {
                rated_charge_power: card.power,
            },
            max_rated_losses: card.losses,
            electricity_circ_pump: 0.0,
            electricity_standby: 0.0,
            number_of_units: usize::from(card.units),
            simultaneous_charging_and_discharging: card.simultaneous == 1,
            max_temperature: card.max,
            heat_storage_kj_per_k_above_phase_transition: card.above,
            heat_storage_kj_per_k_below_phase_transition: card.below,
            heat_storage_kj_per_k_during_phase_transition: card.during,
            phase_transition_temperature_upper: card.upper,
            phase_transition_temperature_lower: card.lower,
            velocity_in_hex_tube_at_1_l_per_min_m_per_s: card.velocity,
            inlet_diameter_mm: card.diameter,
            a: card.a,
            b: card.b,
            flow_rate_l_per_min: card.flow,
            temp_init: card.start,
        },
    };
    HeatBatteryPcm::new(
        &details,
        Arc::new(RwLock::new(EnergySupply)),
        EnergySupplyConnection,
        &SimulationTimeIterator { step: card.timestep },
        Arc::new(ExternalConditions),
        Some(card.reference),
        Arc::new(|| 0.0),
        Some(Arc::new(ChargeControl { on: control_on })),
        None,
        Some(usize::from(card.layers)),
        Some(card.substep),
        Some(card.initial_inlet),
        Some(card.estimated_outlet),
        None,
        None,
    )
}

/// What `HeatBatteryPcm::new` derives from an accepted card, or refusal 1 to 4.
/// The published file tests 3 and 4 itself; its text tells them apart.
pub fn derived(card: &Card) -> Result<Derived, u8> {
    if !ranges::card_in_range(card) {
        return Err(1);
    }
    if card.lower > card.upper {
        return Err(2);
    }
    match published(card, false) {
        Err(error) if error.text.contains("rated-loss reference") => Err(3),
        Err(_) => Err(4),
        Ok(battery) => Ok(Derived {
            layer_below: battery.heat_storage_kj_per_k_below,
            layer_during: battery.heat_storage_kj_per_k_during,
            layer_above: battery.heat_storage_kj_per_k_above,
            stored_maximum: battery.energy_stored_max,
            rated_difference: battery.temp_diff_rated_losses,
            diameter_in_metres: battery.capillary_diameter_m,
        }),
    }
}

/// Refusal 1 to 4 or 61 of a card, or 0.
pub fn card_refusal(card: &Card) -> u8 {
    match derived(card) {
        Err(refusal) => refusal,
        Ok(_) if is_services(&card.services) => 0,
        Ok(_) => 61,
    }
}

/// At most 32, each number above the last and the first above 3, each class 1, 2 or 3.
fn is_services(services: &Services) -> bool {
    let listed = services.listed();
    listed.len() <= 32
        && listed.first().is_none_or(|first| first.number > 3)
        && listed.windows(2).all(|pair| pair[0].number < pair[1].number)
        && listed.iter().all(|service| matches!(service.class, 1..=3))
}

/// The published file's service of a type, for the accepted list of a card; None for type 0 and for
/// a number that isn't listed. A list rises, so it is searched by halves.
fn service(card: &Card, service_type: u16) -> Option<HeatingServiceType> {
    let listed = card.services.listed();
    let class = match service_type {
        0..=3 => service_type,
        _ => listed
            .binary_search_by_key(&service_type, |service| service.number)
            .map_or(0, |place| listed[place].class.into()),
    };
    match class {
        1 => Some(HeatingServiceType::DomesticHotWaterRegular),
        2 => Some(HeatingServiceType::Space),
        3 => Some(HeatingServiceType::DomesticHotWaterDirect),
        _ => None,
    }
}

fn load(battery: &Battery, control_on: bool) -> anyhow::Result<HeatBatteryPcm> {
    let published = published(&battery.card, control_on)?;
    let State { zones, totals } = &battery.state;
    published.zone_temp_c_dist_initial.write().clone_from(zones);
    published.total_time_running_current_timestep.store(totals.running_hours, SeqCst);
    published.pump_running_time_current_timestep.store(totals.pump_hours, SeqCst);
    published.time_running_direct_current_timestep.store(totals.direct_hours, SeqCst);
    published.energy_charged_total.store(totals.charged, SeqCst);
    published.energy_charged_electric.store(totals.charged_electric, SeqCst);
    Ok(published)
}

fn state_of(published: &HeatBatteryPcm) -> State {
    State {
        zones: published.zone_temp_c_dist_initial.read().clone(),
        totals: Totals {
            running_hours: published.total_time_running_current_timestep.load(SeqCst),
            pump_hours: published.pump_running_time_current_timestep.load(SeqCst),
            direct_hours: published.time_running_direct_current_timestep.load(SeqCst),
            charged: published.energy_charged_total.load(SeqCst),
            charged_electric: published.energy_charged_electric.load(SeqCst),
        },
    }
}

/// Document 01's 1e-10: a demand above it runs.
fn runs(demand: &Demand) -> bool {
    demand.required > 1e-10
}

/// Refusals 20 and 21, given before the first substep.
fn demand_refusal(card: &Card, demand: &Demand) -> u8 {
    if !runs(demand) {
        0
    } else if demand.return_temperature.is_none() {
        20
    } else if demand.commit == 1 && service(card, demand.service_type).is_none() {
        21
    } else {
        0
    }
}

fn demand_energy(
    published: &HeatBatteryPcm,
    card: &Card,
    demand: &Demand,
) -> anyhow::Result<f64> {
    let service_type = service(card, demand.service_type)
        .unwrap_or(HeatingServiceType::DomesticHotWaterCombi);
    published.demand_energy(
        "service",
        service_type,
        demand.required,
        demand.return_temperature,
        None,
        true,
        Some(demand.start),
        Some(demand.commit == 1),
        NOW,
    )
}

/// Outlet and time stand in the published file's own record of a committed demand that ran.
/// The judge's own must be the same; a trial leaves no record.
fn check_record(published: &HeatBatteryPcm, demand: &Demand, run: &Run) {
    if demand.commit == 1 && runs(demand) {
        let records = published.service_results.read();
        let record = records.last().expect("a committed demand leaves a record");
        assert_eq!(record.temp_output.map(f64::to_bits), run.outlet.map(f64::to_bits));
        assert_eq!(record.time_running.to_bits(), run.time.to_bits());
    }
}

fn charge_battery_hydronic(published: &HeatBatteryPcm, call: &Hydronic) -> anyhow::Result<f64> {
    let charged = published.charge_battery_hydronic(
        call.inlet,
        call.hours,
        call.flow,
        call.target,
        call.limit,
        call.hex_a,
        call.hex_b,
        call.velocity,
        call.diameter,
    )?;
    Ok(charged.0)
}

fn close_timestep(published: &HeatBatteryPcm) {
    published.total_time_running_current_timestep.store(0.0, SeqCst);
    published.pump_running_time_current_timestep.store(0.0, SeqCst);
    published.time_running_direct_current_timestep.store(0.0, SeqCst);
}

/// The energy of a call. An error with no number is the published file's state of charge, 25.
fn energy(published: &HeatBatteryPcm, card: &Card, call: &Call) -> anyhow::Result<f64> {
    match call {
        Call::Demand(demand) => demand_energy(published, card, demand),
        Call::Electric { power, target } => {
            published.charge_battery_electric(*power, *target).map(|charged| charged.0)
        }
        Call::Hydronic(hydronic) => charge_battery_hydronic(published, hydronic),
        Call::StandingLoss => published.battery_heat_loss().map(|lost| lost.0),
        Call::CloseTimestep => {
            close_timestep(published);
            Ok(0.0)
        }
        Call::StateOfCharge => {
            let zones = published.zone_temp_c_dist_initial.read().clone();
            published.calc_state_of_charge(zones)
        }
        Call::ChargeEnergyDemand { flow_maximum, target } => {
            published.calculate_charge_energy_demand(*flow_maximum, *target)
        }
    }
}

/// The answer to a call in range on an accepted card.
fn answer(version: u8, battery: &Battery, call: &Call) -> anyhow::Result<Answer> {
    let control_on = matches!(call, Call::Demand(demand) if demand.control_on == 1);
    let published = load(battery, control_on)?;
    RUN.set(Run::with_budget(u32::from(battery.card.budget)));
    let energy = energy(&published, &battery.card, call)?;
    let run = RUN.get();
    let mut answer = Answer::plain(energy, run.substeps, state_of(&published));
    match call {
        Call::Demand(demand) => {
            check_record(&published, demand, &run);
            answer.outlet = run.outlet;
            answer.time = run.time;
        }
        Call::Hydronic(_) if shows_hydronic_time(version) => answer.time = run.time,
        _ => {}
    }
    Ok(answer)
}

/// One call on a battery in a known version: the answer, and the battery that it leaves. Not for a
/// standing loss with the floor, which the published file doesn't have.
pub fn step(version: u8, battery: &Battery, call: &Call) -> (Answer, Battery) {
    assert!(!battery.has_floor(version, call), "the published file has no floor");
    let before = &battery.state;
    let answer = if card_refusal(&battery.card) != 0
        || ranges::battery_refusal(battery)
        || ranges::call_refusal(version, &battery.card, call)
    {
        Answer::refused(10, before)
    } else {
        let refusal = match call {
            Call::Demand(demand) => demand_refusal(&battery.card, demand),
            _ => 0,
        };
        if refusal != 0 {
            Answer::refused(refusal, before)
        } else {
            match answer(version, battery, call) {
                Ok(answer) => answer.or_23(before),
                Err(error) if error.refusal == 0 => Answer::refused(25, before),
                Err(error) => Answer::refused(error.refusal, before),
            }
        }
    };
    let after = Battery { card: battery.card, state: answer.state.clone() };
    (answer, after)
}

/// The numbers of a salt that zone functions read.
#[derive(Clone, Copy, Debug)]
pub struct Salt {
    pub lower: f64,
    pub upper: f64,
    pub below: f64,
    pub during: f64,
    pub above: f64,
}

/// A published battery for single functions. Its salt is set as it stands.
pub struct Zone(HeatBatteryPcm);

impl Zone {
    /// On an accepted card.
    pub fn of_card(card: &Card) -> Self {
        match published(card, false) {
            Ok(battery) => Zone(battery),
            Err(error) => panic!("the card is refused: {}", error.text),
        }
    }

    pub fn set_salt(&mut self, salt: &Salt) {
        self.0.phase_transition_temperature_lower = salt.lower;
        self.0.phase_transition_temperature_upper = salt.upper;
        self.0.heat_storage_kj_per_k_below = salt.below;
        self.0.heat_storage_kj_per_k_during = salt.during;
        self.0.heat_storage_kj_per_k_above = salt.above;
    }

    pub fn soc_to_temp(&self, soc: f64) -> f64 {
        self.0.soc_to_temp(soc)
    }

    /// None where the published file refuses (25).
    pub fn calc_state_of_charge(&self, zones: &[f64]) -> Option<f64> {
        self.0.calc_state_of_charge(zones.to_vec()).ok()
    }

    pub fn calculate_zone_energy_required(&self, zone: f64, target: f64) -> f64 {
        self.0.calculate_zone_energy_required(zone, target)
    }

    pub fn calculate_new_zone_temperature(&self, zone: f64, energy: f64) -> f64 {
        self.0.calculate_new_zone_temperature(zone, energy)
    }

    /// q_max, charged and energy_transf, in the published order.
    pub fn process_zone_simultaneous_charging(
        &self,
        zone: f64,
        target: f64,
        q_max: f64,
        energy_transf: f64,
        charged: f64,
    ) -> (f64, f64, f64) {
        self.0.process_zone_simultaneous_charging(zone, target, q_max, energy_transf, charged)
    }

    /// Energy and outlet of one zone, or None where the logarithm is refused.
    pub fn get_zone_properties(&self, mode: u64, zone: f64, flow: &ZoneFlow) -> Option<(f64, f64)> {
        let zones = vec![zone; self.0.n_layers];
        let (energy, _, _, outlet) = self.0.get_zone_properties(
            0,
            &mode_of(mode),
            &zones,
            flow.inlet,
            flow.inlet_zone,
            flow.q_max,
            flow.reynolds,
            flow.time_step,
            flow.flow,
            Some(flow.hex_a),
            Some(flow.hex_b),
        );
        (!take_logarithm_refused()).then_some((energy, outlet))
    }

    /// One substep on `zones`: outlet, each zone's energy and charged, as the published file
    /// hands them out, and the logarithms that it took, one for each zone with water; or refusal
    /// 23 or 24.
    pub fn process_heat_battery_zones(
        &self,
        zones: &mut [f64],
        pass: &Pass,
    ) -> Result<(f64, Vec<f64>, f64, u64), u8> {
        RUN.set(Run::with_budget(1));
        take_logarithms();
        let done = self.0.process_heat_battery_zones(
            pass.inlet,
            zones,
            pass.time_step,
            pass.reynolds,
            pass.flow,
            Some(pass.power),
            Some(mode_of(pass.mode)),
            pass.target,
            Some(pass.hex_a),
            Some(pass.hex_b),
        );
        let (outlet, energies, charged) = done.map_err(|error| error.refusal)?;
        Ok((outlet, energies, charged, take_logarithms()))
    }

    /// With `zones` in the battery. None where the published file refuses (25).
    pub fn calculate_charge_energy_demand(
        &self,
        zones: &[f64],
        flow_maximum: Option<f64>,
        target: f64,
    ) -> Option<f64> {
        *self.0.zone_temp_c_dist_initial.write() = zones.to_vec();
        self.0.calculate_charge_energy_demand(flow_maximum, target).ok()
    }
}

/// What water and charger bring to one zone.
#[derive(Clone, Copy, Debug)]
pub struct ZoneFlow {
    pub inlet: f64,
    pub inlet_zone: f64,
    pub q_max: f64,
    pub reynolds: f64,
    pub time_step: f64,
    pub flow: f64,
    pub hex_a: f64,
    pub hex_b: f64,
}

/// What a substep is called with.
#[derive(Clone, Copy, Debug)]
pub struct Pass {
    pub mode: u64,
    pub inlet: f64,
    pub time_step: f64,
    pub reynolds: f64,
    pub flow: f64,
    pub power: f64,
    pub target: f64,
    pub hex_a: f64,
    pub hex_b: f64,
}

/// 0 charging alone, 1 losses, 2 normal.
fn mode_of(mode: u64) -> HeatBatteryPcmOperationMode {
    match mode {
        0 => HeatBatteryPcmOperationMode::OnlyCharging,
        1 => HeatBatteryPcmOperationMode::Losses,
        _ => HeatBatteryPcmOperationMode::Normal,
    }
}

pub fn calculate_layer_energy_stored(temperature: f64, reference: f64, salt: &Salt) -> f64 {
    HeatBatteryPcm::calculate_layer_energy_stored(
        temperature,
        reference,
        salt.lower,
        salt.upper,
        salt.below,
        salt.during,
        salt.above,
    )
}

pub fn viscosity(inlet: f64, outlet: f64) -> f64 {
    HeatBatteryPcm::calculate_water_kinematic_viscosity_m2_per_s(inlet, outlet)
}

pub fn reynolds(viscosity: f64, velocity: f64, diameter: f64) -> f64 {
    HeatBatteryPcm::calculate_reynold_number_at_1_l_per_min(viscosity, velocity, diameter)
}

/// None where the logarithm is refused.
pub fn heat_transfer(a: f64, b: f64, flow: f64, reynolds: f64) -> Option<f64> {
    let transfer = HeatBatteryPcm::calculate_heat_transfer_kw_per_k(a, b, flow, reynolds);
    (!take_logarithm_refused()).then_some(transfer)
}

pub fn outlet(heat_transfer: f64, zone: f64, inlet: f64, flow_kg_per_s: f64) -> f64 {
    HeatBatteryPcm::calculate_outlet_temp_c(heat_transfer, zone, inlet, flow_kg_per_s)
}
