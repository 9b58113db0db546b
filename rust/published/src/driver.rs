//! A published battery and lists of calls, each call a kind and its numbers in document 01's order.

use super::HeatBatteryPcm;
use crate::core::controls::time_control::ChargeControl;
use crate::core::energy_supply::energy_supply::{EnergySupply, EnergySupplyConnection};
use crate::core::external_conditions::ExternalConditions;
use crate::core::heating_systems::common::HeatingServiceType;
use crate::core::simulation_time::{SimulationTimeIterator, Timestep};
use crate::input::{HeatBattery, HeatSourceWetDetails, PcmBatteryChargingConfiguration};
use parking_lot::RwLock;
use std::sync::atomic::Ordering::SeqCst;
use std::sync::Arc;

const NOW: Timestep = Timestep { index: 0 };

pub struct Published {
    battery: HeatBatteryPcm,
    zones: Vec<f64>,
    totals: [f64; 5],
}

impl Published {
    /// From a card's 23 numbers, five totals and the zones. The charger's control is on.
    #[allow(clippy::arc_with_non_send_sync)]
    pub fn new(start: &[f64]) -> Self {
        let layers = start[0] as usize;
        let details = HeatSourceWetDetails::HeatBattery {
            battery: HeatBattery::Pcm {
                charging_config: PcmBatteryChargingConfiguration::ChargeControl {
                    rated_charge_power: start[22],
                },
                max_rated_losses: start[20],
                electricity_circ_pump: 0.0,
                electricity_standby: 0.0,
                number_of_units: start[1] as usize,
                simultaneous_charging_and_discharging: start[2] == 1.0,
                max_temperature: start[8],
                heat_storage_kj_per_k_above_phase_transition: start[14],
                heat_storage_kj_per_k_below_phase_transition: start[12],
                heat_storage_kj_per_k_during_phase_transition: start[13],
                phase_transition_temperature_upper: start[11],
                phase_transition_temperature_lower: start[10],
                velocity_in_hex_tube_at_1_l_per_min_m_per_s: start[15],
                inlet_diameter_mm: start[16],
                a: start[17],
                b: start[18],
                flow_rate_l_per_min: start[19],
                temp_init: start[21],
            },
        };
        let battery = HeatBatteryPcm::new(
            &details,
            Arc::new(RwLock::new(EnergySupply)),
            EnergySupplyConnection,
            &SimulationTimeIterator { step: start[5] },
            Arc::new(ExternalConditions),
            Some(start[9]),
            Arc::new(|| 0.0),
            Some(Arc::new(ChargeControl { on: true })),
            None,
            Some(layers),
            Some(start[4]),
            Some(start[6]),
            Some(start[7]),
            None,
            None,
        );
        let Ok(battery) = battery else { panic!("the card is refused") };
        let totals = [start[23], start[24], start[25], start[26], start[27]];
        Published { battery, zones: start[28..28 + layers].to_vec(), totals }
    }

    fn restart(&self) {
        let b = &self.battery;
        b.zone_temp_c_dist_initial.write().clone_from(&self.zones);
        b.total_time_running_current_timestep.store(self.totals[0], SeqCst);
        b.pump_running_time_current_timestep.store(self.totals[1], SeqCst);
        b.time_running_direct_current_timestep.store(self.totals[2], SeqCst);
        b.energy_charged_total.store(self.totals[3], SeqCst);
        b.energy_charged_electric.store(self.totals[4], SeqCst);
        b.service_results.write().clear();
    }

    /// NaN where the published file gives an error.
    fn call(&self, call: &[f64; 10]) -> f64 {
        let b = &self.battery;
        let [kind, p, q, r, s, t, u, v, w, x] = *call;
        match kind as u8 {
            1 => {
                let service = match p as u8 {
                    1 => HeatingServiceType::DomesticHotWaterRegular,
                    2 => HeatingServiceType::Space,
                    _ => HeatingServiceType::DomesticHotWaterDirect,
                };
                let feed = (u > 0.0).then_some(v);
                b.demand_energy("service", service, s, feed, None, true, Some(t), Some(q > 0.0), NOW)
                    .unwrap_or(f64::NAN)
            }
            2 => b.charge_battery_electric(p, q).map_or(f64::NAN, |charged| charged.0),
            3 => b
                .charge_battery_hydronic(p, q, r, s, t, u, v, w, x)
                .map_or(f64::NAN, |charged| charged.0),
            4 => b.battery_heat_loss().map_or(f64::NAN, |lost| lost.0),
            5 => {
                b.total_time_running_current_timestep.store(0.0, SeqCst);
                b.pump_running_time_current_timestep.store(0.0, SeqCst);
                b.time_running_direct_current_timestep.store(0.0, SeqCst);
                0.0
            }
            6 => {
                let zones = b.zone_temp_c_dist_initial.read().clone();
                b.calc_state_of_charge(zones).unwrap_or(f64::NAN)
            }
            _ => b
                .calculate_charge_energy_demand((p > 0.0).then_some(q), r)
                .unwrap_or(f64::NAN),
        }
    }

    /// The list from the start on: the sum of energies and the first zone.
    pub fn list(&self, calls: &[[f64; 10]]) -> f64 {
        self.restart();
        let mut sum = 0.0;
        for call in calls {
            sum += self.call(call);
        }
        sum + self.battery.zone_temp_c_dist_initial.read()[0]
    }
}
