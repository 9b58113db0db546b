//! Names of the home model that the published file uses. What the zone engine reads has
//! its values; the rest is there to compile and does nothing.

pub mod compare_floats {
    pub fn min_of_2<T: PartialOrd>(p: T, q: T) -> T {
        if q < p {
            q
        } else {
            p
        }
    }
}

pub mod core {
    pub mod common {
        use crate::core::simulation_time::Timestep;

        #[derive(Debug)]
        pub struct WaterSupply;

        pub trait WaterSupplyBehaviour {
            fn get_temp_cold_water(
                &self,
                volume: f64,
                simtime: Timestep,
            ) -> anyhow::Result<Vec<(f64, f64)>>;
            fn draw_off_water(
                &self,
                volume: f64,
                simtime: Timestep,
            ) -> anyhow::Result<Vec<(f64, f64)>>;
        }

        impl WaterSupplyBehaviour for WaterSupply {
            fn get_temp_cold_water(
                &self,
                volume: f64,
                _: Timestep,
            ) -> anyhow::Result<Vec<(f64, f64)>> {
                Ok(vec![(0.0, volume)])
            }

            fn draw_off_water(&self, volume: f64, _: Timestep) -> anyhow::Result<Vec<(f64, f64)>> {
                Ok(vec![(0.0, volume)])
            }
        }
    }

    pub mod controls {
        pub mod time_control {
            use crate::core::simulation_time::Timestep;

            /// On where the call's control flag is 1.
            #[derive(Debug)]
            pub struct ChargeControl {
                pub on: bool,
            }

            impl ChargeControl {
                pub fn is_on(&self, _: Timestep) -> bool {
                    self.on
                }

                pub fn target_charge(&self, _: Timestep, _: Option<f64>) -> f64 {
                    0.0
                }
            }

            #[derive(Clone, Debug)]
            pub struct CompositeRangeTimeControl;

            impl CompositeRangeTimeControl {
                pub fn setpnt(&self, _: Timestep) -> (Option<f64>, Option<f64>) {
                    (None, None)
                }

                pub fn is_on(&self, _: Timestep) -> bool {
                    false
                }
            }

            #[derive(Debug)]
            pub struct RangeTimeControl;

            impl RangeTimeControl {
                pub fn setpnt(&self, _: Timestep) -> (Option<f64>, Option<f64>) {
                    (None, None)
                }
            }

            #[derive(Clone, Debug)]
            pub struct SetpointOrCombinationControl;

            impl SetpointOrCombinationControl {
                pub fn setpnt(&self, _: Timestep) -> Option<f64> {
                    None
                }

                pub fn in_required_period(&self, _: Timestep) -> Option<bool> {
                    None
                }

                pub fn is_on(&self, _: Timestep) -> bool {
                    false
                }
            }
        }
    }

    pub mod energy_supply {
        #[allow(clippy::module_inception)]
        pub mod energy_supply {
            use parking_lot::RwLock;
            use std::sync::Arc;

            #[derive(Debug)]
            pub struct EnergySupply;

            impl EnergySupply {
                pub fn connection(
                    _: Arc<RwLock<Self>>,
                    _: &str,
                ) -> anyhow::Result<EnergySupplyConnection> {
                    Ok(EnergySupplyConnection)
                }
            }

            #[derive(Debug)]
            pub struct EnergySupplyConnection;

            impl EnergySupplyConnection {
                pub fn demand_energy(&self, _: f64, _: usize) -> anyhow::Result<()> {
                    Ok(())
                }
            }
        }
    }

    pub mod external_conditions {
        use crate::core::simulation_time::Timestep;

        #[derive(Debug)]
        pub struct ExternalConditions;

        impl ExternalConditions {
            pub fn air_temp(&self, _: Timestep) -> f64 {
                0.0
            }
        }
    }

    pub mod heating_systems {
        pub mod boiler {
            #[derive(Clone, Debug)]
            pub struct BoilerServiceWaterRegular;
        }

        pub mod common {
            use crate::core::simulation_time::Timestep;
            use arcstr::ArcStr;
            use std::fmt;

            /// Document 01's types 0 to 3, in order.
            #[derive(Clone, Copy, Debug)]
            pub enum HeatingServiceType {
                DomesticHotWaterCombi,
                DomesticHotWaterRegular,
                Space,
                DomesticHotWaterDirect,
            }

            impl fmt::Display for HeatingServiceType {
                fn fmt(&self, f: &mut fmt::Formatter<'_>) -> fmt::Result {
                    write!(f, "{self:?}")
                }
            }

            impl From<HeatingServiceType> for ArcStr {
                fn from(service_type: HeatingServiceType) -> Self {
                    service_type.to_string().into()
                }
            }

            #[derive(Debug)]
            pub struct HeatSourceWet;

            impl HeatSourceWet {
                pub fn energy_output_max(
                    &self,
                    _: f64,
                    _: f64,
                    _: Option<bool>,
                    _: Timestep,
                ) -> anyhow::Result<f64> {
                    Ok(0.0)
                }

                pub fn demand_energy(
                    &self,
                    _: f64,
                    _: Option<f64>,
                    _: Option<f64>,
                    _: Option<bool>,
                    _: Timestep,
                ) -> anyhow::Result<f64> {
                    Ok(0.0)
                }
            }
        }

        pub mod heat_battery_drycore {
            #[derive(Clone, Debug)]
            pub struct HeatBatteryDryCoreServiceWaterRegular;
        }

        pub mod heat_network {
            #[derive(Clone, Debug)]
            pub struct HeatNetworkServiceWaterStorage;
        }

        pub mod heat_pump {
            #[derive(Clone, Debug)]
            pub struct HeatPumpServiceWater;
        }

        pub mod primary_pipework_losses_mixin {
            use crate::core::pipework::Pipework;
            use crate::core::simulation_time::Timestep;
            use crate::corpus::TempInternalAirFn;
            use std::sync::Arc;

            #[derive(Debug)]
            pub struct PrimaryPipeworkLossesMixin;

            impl PrimaryPipeworkLossesMixin {
                pub fn new(
                    _: Vec<Pipework>,
                    _: Arc<dyn Fn(Timestep) -> f64>,
                    _: TempInternalAirFn,
                    _: Timestep,
                ) -> Self {
                    PrimaryPipeworkLossesMixin
                }

                pub fn calculate_primary_pipework_losses(
                    &self,
                    _: f64,
                    _: Option<f64>,
                    _: Option<bool>,
                    _: Timestep,
                ) -> anyhow::Result<(f64, f64)> {
                    Ok((0.0, 0.0))
                }
            }
        }

        pub mod storage_tank {
            /// A stand-in of document 01.
            pub const DEFAULT_AMBIENT_TEMPERATURE: f64 = 16.0;
            pub const THERMAL_CONSTANTS_F_STO_M: f64 = 0.75;
        }
    }

    pub mod material_properties {
        use crate::core::units::JOULES_PER_KILOWATT_HOUR;

        pub struct MaterialProperties {
            density: f64,
            specific_heat_capacity: f64,
        }

        impl MaterialProperties {
            pub fn density(&self) -> f64 {
                self.density
            }

            pub fn specific_heat_capacity_kwh(&self) -> f64 {
                self.specific_heat_capacity / JOULES_PER_KILOWATT_HOUR as f64
            }
        }

        pub static WATER: MaterialProperties =
            MaterialProperties { density: 1.0, specific_heat_capacity: 4184.0 };
    }

    pub mod pipework {
        #[derive(Debug)]
        pub struct Pipework;
    }

    pub mod simulation_time {
        #[derive(Clone, Copy, Debug)]
        pub struct Timestep {
            pub index: usize,
        }

        /// A run with no further iterations; only its step is read.
        #[derive(Clone, Debug)]
        pub struct SimulationTimeIterator {
            pub step: f64,
        }

        impl SimulationTimeIterator {
            pub fn current_index(&self) -> usize {
                0
            }

            pub fn current_iteration(&self) -> Timestep {
                Timestep { index: 0 }
            }

            pub fn step_in_hours(&self) -> f64 {
                self.step
            }
        }

        impl Iterator for SimulationTimeIterator {
            type Item = Timestep;

            fn next(&mut self) -> Option<Timestep> {
                None
            }
        }
    }

    pub mod units {
        pub const JOULES_PER_KILOWATT_HOUR: u32 = 3_600_000;
        pub const KILOJOULES_PER_KILOWATT_HOUR: u32 = 3_600;
        pub const WATTS_PER_KILOWATT: u32 = 1_000;
        pub const SECONDS_PER_MINUTE: u32 = 60;
        pub const SECONDS_PER_HOUR: u32 = 3_600;
        pub const MILLIMETRES_IN_METRE: u32 = 1_000;
    }

    pub mod water_heat_demand {
        pub mod misc {
            pub struct WaterEventResult {
                pub volume_hot: f64,
            }

            pub fn calculate_volume_weighted_average_temperature(
                _: Vec<(f64, f64)>,
                _: Option<f64>,
                _: Option<f64>,
            ) -> anyhow::Result<f64> {
                Ok(0.0)
            }

            pub fn water_demand_to_kwh(_: f64, _: f64, _: f64) -> f64 {
                0.0
            }
        }
    }
}

pub mod corpus {
    use arcstr::ArcStr;
    use indexmap::IndexMap;
    use std::ops::AddAssign;
    use std::sync::Arc;

    type Labelled<T> = IndexMap<(ArcStr, Option<ArcStr>), T>;
    pub type ResultsPerTimestep = IndexMap<ArcStr, Labelled<Vec<ResultParamValue>>>;
    pub type ResultsAnnual = IndexMap<ArcStr, Labelled<ResultParamValue>>;
    pub type TempInternalAirFn = Arc<dyn Fn() -> f64>;

    #[derive(Clone, Debug)]
    pub enum ResultParamValue {
        String(ArcStr),
        Number(f64),
        Boolean(bool),
        Empty,
    }

    impl ResultParamValue {
        pub fn as_f64(&self) -> f64 {
            match self {
                ResultParamValue::Number(number) => *number,
                _ => 0.0,
            }
        }
    }

    impl From<f64> for ResultParamValue {
        fn from(number: f64) -> Self {
            ResultParamValue::Number(number)
        }
    }

    impl From<&f64> for ResultParamValue {
        fn from(number: &f64) -> Self {
            ResultParamValue::Number(*number)
        }
    }

    impl From<bool> for ResultParamValue {
        fn from(flag: bool) -> Self {
            ResultParamValue::Boolean(flag)
        }
    }

    impl From<Option<f64>> for ResultParamValue {
        fn from(number: Option<f64>) -> Self {
            number.map_or(ResultParamValue::Empty, ResultParamValue::Number)
        }
    }

    impl AddAssign for ResultParamValue {
        fn add_assign(&mut self, other: Self) {
            *self = ResultParamValue::Number(self.as_f64() + other.as_f64());
        }
    }
}

pub mod input {
    #[derive(Debug, PartialEq)]
    pub enum ScheduleUnit {
        Soc,
        Temperature,
    }

    pub enum PcmBatteryChargingConfiguration {
        ChargeControl { rated_charge_power: f64 },
        RangeControl {},
    }

    pub enum HeatSourceWetDetails {
        HeatBattery { battery: HeatBattery },
    }

    pub enum HeatBattery {
        Pcm {
            charging_config: PcmBatteryChargingConfiguration,
            max_rated_losses: f64,
            electricity_circ_pump: f64,
            electricity_standby: f64,
            number_of_units: usize,
            simultaneous_charging_and_discharging: bool,
            max_temperature: f64,
            heat_storage_kj_per_k_above_phase_transition: f64,
            heat_storage_kj_per_k_below_phase_transition: f64,
            heat_storage_kj_per_k_during_phase_transition: f64,
            phase_transition_temperature_upper: f64,
            phase_transition_temperature_lower: f64,
            velocity_in_hex_tube_at_1_l_per_min_m_per_s: f64,
            inlet_diameter_mm: f64,
            a: f64,
            b: f64,
            flow_rate_l_per_min: f64,
            temp_init: f64,
        },
    }
}
