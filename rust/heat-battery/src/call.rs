//! The seven kinds of call.

use crate::bytes::{Buffer, Cursor};
use crate::card::Card;
use crate::field::{Fault, Field, Shape, Value};
use crate::ranges::{DAY, EXCHANGER, FLOW, LEVEL, POWER, SERVICE, TEMPERATURE, VELOCITY};
use crate::refusal::Refusal;
use crate::service::ServiceType;
use crate::version::Version;

/// One call on a battery. [`Kind::fields`] has each field's unit and range.
///
/// ```
/// use heat_battery::{Call, ServiceType};
///
/// let bath = Call::Demand {
///     service: ServiceType::Direct,
///     commit: true,
///     control_on: false,
///     required: 3.5,
///     start: 0.0,
///     return_temperature: Some(10.0),
/// };
/// let text = "demand service=direct commit=yes control_on=no required=3.5 start=0 return_temperature=10";
/// assert_eq!(text.parse(), Ok(bath));
/// ```
#[derive(Clone, Copy, Debug, PartialEq)]
pub enum Call {
    /// 1: heat for a service.
    Demand {
        /// Which service.
        service: ServiceType,
        /// Whether the battery gives the heat; a trial only asks what it would give.
        commit: bool,
        /// Whether the charger's control is on.
        control_on: bool,
        /// Energy that is wanted, kWh.
        required: f64,
        /// When in the timestep, h.
        start: f64,
        /// Temperature of the water that comes back, °C.
        return_temperature: Option<f64>,
    },
    /// 2: charge by the heater for the rest of the timestep.
    Electric {
        /// kW.
        power: f64,
        /// Level to charge to, 0 to 1.
        target: f64,
    },
    /// 3: charge by warm water.
    Hydronic {
        /// Temperature of the water that comes in, °C.
        inlet: f64,
        /// How long, h.
        hours: f64,
        /// l/min.
        flow: f64,
        /// Held to its range; no more.
        target: f64,
        /// Most energy to take, kWh.
        limit: f64,
        /// Exchanger figure a.
        hex_a: f64,
        /// Exchanger figure b.
        hex_b: f64,
        /// Velocity in the tube at 1 l/min, m/s.
        velocity: f64,
        /// Diameter of the tube, m.
        diameter: f64,
    },
    /// 4: the losses of a timestep.
    StandingLoss,
    /// 5: sets the three running times to 0.
    CloseTimestep,
    /// 6: asks for the state of charge.
    StateOfCharge,
    /// 7: asks how much energy a charge would take.
    ChargeEnergyDemand {
        /// Warmest water that the source gives, °C.
        flow_maximum: Option<f64>,
        /// Level to charge to, 0 to 1.
        target: f64,
    },
}

/// The kind of a call.
#[derive(Clone, Copy, Debug, PartialEq, Eq, Hash)]
pub enum Kind {
    /// 1
    Demand = 1,
    /// 2
    Electric,
    /// 3
    Hydronic,
    /// 4
    StandingLoss,
    /// 5
    CloseTimestep,
    /// 6
    StateOfCharge,
    /// 7
    ChargeEnergyDemand,
}

const TARGET: Field = Field::number("target", "", LEVEL, "level to charge to");

const DEMAND: [Field; 6] = [
    Field::new("service", "", Shape::Service, SERVICE, "which service"),
    Field::flag("commit", "no: a trial"),
    Field::flag("control_on", "the charger's control"),
    Field::number("required", "kWh", (-1e6, 1e6), "energy wanted"),
    Field::number("start", "h", DAY, "when in the timestep"),
    Field::optional("return_temperature", "°C", TEMPERATURE, "water that comes back"),
];

const ELECTRIC: [Field; 2] = [Field::number("power", "kW", POWER, "of the heater"), TARGET];

const HYDRONIC: [Field; 9] = [
    Field::number("inlet", "°C", TEMPERATURE, "water that comes in"),
    Field::number("hours", "h", DAY, "how long"),
    Field::number("flow", "l/min", FLOW, "of the water"),
    TARGET,
    Field::number("limit", "kWh", (0.0, 1e6), "most energy to take"),
    Field::number("hex_a", "", EXCHANGER, "exchanger, before the logarithm"),
    Field::number("hex_b", "", EXCHANGER, "exchanger, added"),
    Field::number("velocity", "m/s", VELOCITY, "in the tube at 1 l/min"),
    Field::number("diameter", "m", (0.00001, 1.0), "of the tube"),
];

const CHARGE_ENERGY_DEMAND: [Field; 2] =
    [Field::optional("flow_maximum", "°C", TEMPERATURE, "warmest water of the source"), TARGET];

impl Kind {
    /// All seven in document 01's order.
    pub const ALL: [Kind; 7] = [
        Kind::Demand,
        Kind::Electric,
        Kind::Hydronic,
        Kind::StandingLoss,
        Kind::CloseTimestep,
        Kind::StateOfCharge,
        Kind::ChargeEnergyDemand,
    ];

    /// Document 01's number.
    pub fn number(&self) -> u8 {
        *self as u8
    }

    /// The kind of a number.
    pub fn from_number(number: u8) -> Option<Kind> {
        Kind::ALL.into_iter().find(|kind| kind.number() == number)
    }

    /// The name in text and JSON.
    pub fn name(&self) -> &'static str {
        match self {
            Kind::Demand => "demand",
            Kind::Electric => "electric",
            Kind::Hydronic => "hydronic",
            Kind::StandingLoss => "standing_loss",
            Kind::CloseTimestep => "close_timestep",
            Kind::StateOfCharge => "state_of_charge",
            Kind::ChargeEnergyDemand => "charge_energy_demand",
        }
    }

    /// The call fields in the order of the sheet.
    pub fn fields(&self) -> &'static [Field] {
        match self {
            Kind::Demand => &DEMAND,
            Kind::Electric => &ELECTRIC,
            Kind::Hydronic => &HYDRONIC,
            Kind::StandingLoss | Kind::CloseTimestep | Kind::StateOfCharge => &[],
            Kind::ChargeEnergyDemand => &CHARGE_ENERGY_DEMAND,
        }
    }

    /// Bytes of the kind and its call fields on a sheet of a version.
    pub fn bytes(&self, version: Version) -> usize {
        1 + self.fields().iter().map(|field| field.bytes(version)).sum::<usize>()
    }
}

/// The most bytes of a kind and its call fields.
pub(crate) const MOST_BYTES: usize = 73;

impl Call {
    /// The kind.
    pub fn kind(&self) -> Kind {
        match self {
            Call::Demand { .. } => Kind::Demand,
            Call::Electric { .. } => Kind::Electric,
            Call::Hydronic { .. } => Kind::Hydronic,
            Call::StandingLoss => Kind::StandingLoss,
            Call::CloseTimestep => Kind::CloseTimestep,
            Call::StateOfCharge => Kind::StateOfCharge,
            Call::ChargeEnergyDemand { .. } => Kind::ChargeEnergyDemand,
        }
    }

    /// Whether it only asks, and moves no heat: a trial, a state of charge, a charge energy demand.
    pub fn is_question(&self) -> bool {
        self.is_trial() || matches!(self, Call::StateOfCharge | Call::ChargeEnergyDemand { .. })
    }

    /// Whether it is a demand that commits to nothing.
    pub fn is_trial(&self) -> bool {
        matches!(self, Call::Demand { commit: false, .. })
    }

    /// Hands out the values in the order of the sheet.
    #[inline]
    fn each(&self, mut take: impl FnMut(Value)) {
        let mut numbers = |numbers: &[f64]| numbers.iter().for_each(|x| take(Value::Number(*x)));
        match *self {
            Call::Demand { service, commit, control_on, required, start, return_temperature } => {
                take(Value::Service(service));
                take(Value::Flag(commit));
                take(Value::Flag(control_on));
                take(Value::Number(required));
                take(Value::Number(start));
                take(Value::Optional(return_temperature));
            }
            Call::Electric { power, target } => numbers(&[power, target]),
            Call::Hydronic {
                inlet,
                hours,
                flow,
                target,
                limit,
                hex_a,
                hex_b,
                velocity,
                diameter,
            } => numbers(&[inlet, hours, flow, target, limit, hex_a, hex_b, velocity, diameter]),
            Call::StandingLoss | Call::CloseTimestep | Call::StateOfCharge => {}
            Call::ChargeEnergyDemand { flow_maximum, target } => {
                take(Value::Optional(flow_maximum));
                take(Value::Number(target));
            }
        }
    }

    /// The fields with their values, in the order of the sheet.
    pub fn fields(&self) -> Vec<(&'static Field, Value)> {
        let mut values = Vec::new();
        self.each(|value| values.push(value));
        self.kind().fields().iter().zip(values).collect()
    }

    /// The call of a kind with values in the order of [`Kind::fields`]; None where their
    /// number or a shape is another.
    pub fn from_values(kind: Kind, values: &[Value]) -> Option<Call> {
        use Value::{Flag, Number, Optional, Service};
        match (kind, values) {
            (
                Kind::Demand,
                &[Service(service), Flag(commit), Flag(control_on), Number(required), Number(start), Optional(return_temperature)],
            ) => Some(Call::Demand {
                service,
                commit,
                control_on,
                required,
                start,
                return_temperature,
            }),
            (Kind::Electric, &[Number(power), Number(target)]) => {
                Some(Call::Electric { power, target })
            }
            (
                Kind::Hydronic,
                &[Number(inlet), Number(hours), Number(flow), Number(target), Number(limit), Number(hex_a), Number(hex_b), Number(velocity), Number(diameter)],
            ) => Some(Call::Hydronic {
                inlet,
                hours,
                flow,
                target,
                limit,
                hex_a,
                hex_b,
                velocity,
                diameter,
            }),
            (Kind::StandingLoss, []) => Some(Call::StandingLoss),
            (Kind::CloseTimestep, []) => Some(Call::CloseTimestep),
            (Kind::StateOfCharge, []) => Some(Call::StateOfCharge),
            (Kind::ChargeEnergyDemand, &[Optional(flow_maximum), Number(target)]) => {
                Some(Call::ChargeEnergyDemand { flow_maximum, target })
            }
            _ => None,
        }
    }

    /// Every reason for which refusal 10 applies to the call in a version with this card; none
    /// where it doesn't.
    pub fn faults(&self, version: Version, card: &Card) -> Vec<Fault> {
        let fault = |(field, value): &(&'static Field, Value)| {
            let words = match value {
                Value::Service(service) => unknown_before_three(version, *service),
                _ => on_card(field, card).fault(value),
            };
            Some(Fault::new(field.name, Refusal::BadCall, words?))
        };
        self.fields().iter().filter_map(fault).collect()
    }

    /// Whether a sheet of a version can have the call: services above 3 stand on no sheet before
    /// version 3.
    #[inline]
    pub fn stands_in(&self, version: Version) -> bool {
        match self {
            Call::Demand { service, .. } => version.has_services() || !service.is_numbered(),
            _ => true,
        }
    }

    /// Hands on the kind and the call fields as on a sheet of a version, where they were gathered:
    /// a copy of them would cost more than they do. The other where they can't stand there.
    #[inline]
    pub(crate) fn with_bytes<T>(
        &self,
        version: Version,
        take: impl FnOnce(&[u8]) -> T,
        otherwise: impl FnOnce() -> T,
    ) -> T {
        if !self.stands_in(version) {
            return otherwise();
        }
        let mut bytes = Buffer::<MOST_BYTES>::new();
        bytes.put([self.kind().number()]);
        self.each(|value| value.write(version, &mut bytes));
        take(&bytes)
    }

    /// The kind and the call fields as on a sheet of a version. Refusal 10 for a service above 3
    /// before version 3.
    ///
    /// ```
    /// use heat_battery::{Call, Refusal, Version};
    ///
    /// let text = "demand service=12 commit=yes control_on=no required=1 start=0 return_temperature=10";
    /// let call: Call = text.parse().unwrap();
    /// let bytes = call.to_bytes(Version::Three)?;
    /// assert_eq!((bytes.len(), &bytes[..3]), (30, &[1, 0, 12][..]));
    /// assert_eq!(call.to_bytes(Version::Two), Err(Refusal::BadCall));
    /// # Ok::<(), Refusal>(())
    /// ```
    pub fn to_bytes(&self, version: Version) -> Result<Vec<u8>, Refusal> {
        self.with_bytes(version, |bytes| Ok(bytes.to_vec()), || Err(Refusal::BadCall))
    }

    /// A call of any numbers, as sheets of a version have it. Refusal 10 for an unknown kind,
    /// another length, a type or flag or mark out of range and nonzero bytes under an absent mark;
    /// [`Call::faults`] has the rest.
    pub fn from_bytes(version: Version, bytes: &[u8]) -> Result<Call, Refusal> {
        let mut cursor = Cursor(bytes);
        let call = Call::read(version, &mut cursor).map_err(|_| Refusal::BadCall)?;
        match cursor.0.is_empty() {
            true => Ok(call),
            false => Err(Refusal::BadCall),
        }
    }

    /// Reads a call from the front of bytes; the error in words.
    pub(crate) fn read(version: Version, bytes: &mut Cursor) -> Result<Call, String> {
        let number = bytes.byte().ok_or("no kind")?;
        let kind = Kind::from_number(number).ok_or(format!("kind {number}, not 1 to 7"))?;
        let length = kind.bytes(version) - 1;
        let fields = bytes.slice(length).ok_or(format!("cut short in a {}", kind.name()))?;
        let mut cursor = Cursor(fields);
        let values: Result<Vec<Value>, String> =
            kind.fields().iter().map(|field| field.read(version, &mut cursor)).collect();
        Call::from_values(kind, &values?).ok_or_else(|| "no call".into())
    }
}

/// The field as a card bounds it: a start lies within the timestep.
fn on_card(field: &Field, card: &Card) -> Field {
    match field.name {
        "start" => Field { high: card.timestep, ..*field },
        _ => *field,
    }
}

/// Why a service can't stand on a sheet of a version, in words; None where it can.
fn unknown_before_three(version: Version, service: ServiceType) -> Option<String> {
    let is_unknown = service.is_numbered() && !version.has_services();
    let words = "numbers above 3 are known from version 3 on, and this is version";
    is_unknown.then(|| format!("service is {service}: {words} {version}"))
}
