//! The card: a battery as its maker describes it.

use crate::battery::Battery;
use crate::bytes::{Buffer, Cursor};
use crate::call::Call;
use crate::field::{Fault, Field, Shape, Value};
use crate::ranges::{CAPACITY, EXCHANGER, FLOW, POWER, TEMPERATURE, VELOCITY};
use crate::refusal::Refusal;
use crate::service::{Service, ServiceClass, ServiceType};
use crate::version::Version;

/// A battery as its maker describes it. [`Card::FIELDS`] has each field's unit and range; behind
/// them a card lists services, which sheets have from version 3 on, and says whether standing losses
/// have a floor, which sheets have from version 4 on.
///
/// ```
/// use heat_battery::{Card, Refusal};
///
/// let mut card = Card::example();
/// assert_eq!(card.check(), Ok(()));
/// card.lower = 60.0;
/// assert_eq!(card.check(), Err(Refusal::LowerAboveUpper));
/// assert_eq!(card.faults()[0].to_string(), "lower is 60.0, above upper, which is 59.0");
/// ```
///
/// A card that lists services, and a demand for one of them:
///
/// ```
/// use heat_battery::{Battery, Call, Card, Refusal, Service, ServiceClass, ServiceType};
///
/// let services = vec![
///     Service::new(12, ServiceClass::Space),
///     Service::new(700, ServiceClass::Direct),
/// ];
/// let mut battery = Battery::open(&Card { services, ..Card::example() })?;
/// let demand = |number| Call::Demand {
///     service: ServiceType::Numbered(number),
///     commit: true,
///     control_on: false,
///     required: 0.5,
///     start: 0.0,
///     return_temperature: Some(10.0),
/// };
/// assert!(battery.call(&demand(700))?.totals.direct_hours > 0.0);
/// assert_eq!(battery.call(&demand(13)), Err(Refusal::NoService)); // it isn't listed
/// # Ok::<(), Refusal>(())
/// ```
///
/// A card with a floor, and a loss that stops there:
///
/// ```
/// use heat_battery::{Battery, Call, Card, Refusal};
///
/// let card = Card { losses: 1000.0, floor: true, ..Card::example() };
/// let mut battery = Battery::open(&card)?;
/// battery.call(&Call::StandingLoss)?;
/// assert_eq!(*battery.zones(), [Card::FLOOR_TEMPERATURE; 8]);
/// assert_eq!(battery.call(&Call::StandingLoss)?.energy, 0.0); // nothing is left to lose
/// # Ok::<(), Refusal>(())
/// ```
#[derive(Clone, Debug, PartialEq)]
pub struct Card {
    /// Layers of one unit, each with a zone temperature: 1 to 64.
    pub layers: u8,
    /// Equal units side by side: 1 to 1000.
    pub units: u16,
    /// Whether the charger works during a demand.
    pub simultaneous: bool,
    /// Substeps that one call may take: 1 to 65535.
    pub budget: u16,
    /// Longest substep of a demand or hydronic charge, s.
    pub substep: f64,
    /// Timestep, h.
    pub timestep: f64,
    /// Initial inlet, °C.
    pub initial_inlet: f64,
    /// Estimated outlet, °C.
    pub estimated_outlet: f64,
    /// Temperature of a full battery, °C.
    pub max: f64,
    /// Temperature of an empty battery, document 01's ref, °C.
    pub reference: f64,
    /// Lower end of the melting range, °C.
    pub lower: f64,
    /// Upper end of the melting range, °C.
    pub upper: f64,
    /// Heat capacity of all layers below the melting range, kJ/K.
    pub below: f64,
    /// Heat capacity of all layers in the melting range, kJ/K.
    pub during: f64,
    /// Heat capacity of all layers above the melting range, kJ/K.
    pub above: f64,
    /// Velocity in the exchanger's tube at 1 l/min, m/s.
    pub velocity: f64,
    /// Diameter of the exchanger's tube, mm.
    pub diameter: f64,
    /// Exchanger figure a, before the logarithm.
    pub a: f64,
    /// Exchanger figure b, added.
    pub b: f64,
    /// Flow of a demand, l/min.
    pub flow: f64,
    /// Rated losses, kW.
    pub losses: f64,
    /// Temperature of every zone of a fresh battery, °C.
    pub start: f64,
    /// Power of the charger during a demand, kW; 0 for none.
    pub power: f64,
    /// Services with numbers above 3, at most 32, the numbers rising. A card that lists any opens
    /// no battery of version 1 or 2.
    pub services: Vec<Service>,
    /// Whether a standing loss stops at [`Card::FLOOR_TEMPERATURE`]. A card with a floor opens no
    /// battery before version 4.
    pub floor: bool,
}

/// Document 01's epsilon of refusal 4.
const NEARLY: f64 = 1e-10;
const NUMBERS: usize = 19;
/// Bytes of a service: its number and its class.
const SERVICE_BYTES: usize = 3;
/// The most services that the count byte can say; above 32 they are refused.
const MOST_COUNTED: usize = u8::MAX as usize;

impl Card {
    /// Bytes of a card's fields: of the whole card in versions 1 and 2.
    pub const BYTES: usize = 158;

    /// The most bytes of an accepted card: its fields, a count, 32 services and the floor's flag.
    pub(crate) const MOST_BYTES: usize = length_with(Version::NEWEST, Service::MOST);

    /// Where a standing loss stops if the card has a floor, °C.
    pub const FLOOR_TEMPERATURE: f64 = 16.0;

    /// The floor, a card's last byte from version 4 on. In text it may be left out: then there is none.
    pub const FLOOR: Field =
        Field::flag("floor", "standing losses stop at 16 °C, from version 4 on");

    /// The fields in the order of the sheet's line 0.
    pub const FIELDS: [Field; 23] = [
        Field::new("layers", "", Shape::Byte, (1.0, 64.0), "layers of one unit"),
        Field::new("units", "", Shape::Short, (1.0, 1000.0), "equal units side by side"),
        Field::flag("simultaneous", "the charger works during a demand"),
        Field::new("budget", "", Shape::Short, (1.0, 65535.0), "substeps of one call"),
        Field::number("substep", "s", (0.1, 3600.0), "longest substep"),
        Field::number("timestep", "h", (0.01, 24.0), "one timestep"),
        Field::number("initial_inlet", "°C", TEMPERATURE, "water in, first guess"),
        Field::number("estimated_outlet", "°C", TEMPERATURE, "water out, first guess"),
        Field::number("max", "°C", TEMPERATURE, "full battery"),
        Field::number("reference", "°C", TEMPERATURE, "empty battery"),
        Field::number("lower", "°C", TEMPERATURE, "melting begins"),
        Field::number("upper", "°C", TEMPERATURE, "melting ends"),
        Field::number("below", "kJ/K", CAPACITY, "capacity below the melting range, all layers"),
        Field::number("during", "kJ/K", CAPACITY, "capacity in the melting range, all layers"),
        Field::number("above", "kJ/K", CAPACITY, "capacity above the melting range, all layers"),
        Field::number("velocity", "m/s", VELOCITY, "in the tube at 1 l/min"),
        Field::number("diameter", "mm", (0.01, 1000.0), "of the tube"),
        Field::number("a", "", EXCHANGER, "exchanger, before the logarithm"),
        Field::number("b", "", EXCHANGER, "exchanger, added"),
        Field::number("flow", "l/min", FLOW, "of a demand"),
        Field::number("losses", "kW", POWER, "rated losses"),
        Field::number("start", "°C", TEMPERATURE, "every zone of a fresh battery"),
        Field::number("power", "kW", POWER, "charger during a demand, 0 for none"),
    ];

    /// A battery of eight layers that holds about 10 kWh, a sodium acetate trihydrate.
    pub fn example() -> Card {
        Card {
            layers: 8,
            units: 1,
            simultaneous: false,
            budget: 1000,
            substep: 20.0,
            timestep: 0.5,
            initial_inlet: 10.0,
            estimated_outlet: 53.0,
            max: 80.0,
            reference: 40.0,
            lower: 57.0,
            upper: 59.0,
            below: 305.2,
            during: 12317.0,
            above: 381.5,
            velocity: 0.035,
            diameter: 6.5,
            a: 174.34,
            b: -931.57,
            flow: 10.0,
            losses: 0.1,
            start: 58.0,
            power: 0.0,
            services: Vec::new(),
            floor: false,
        }
    }

    /// Refusal 1 to 4 or 61 where the engine opens no battery of the newest version with this
    /// card. Without services and a floor the older versions open the same cards.
    pub fn check(&self) -> Result<(), Refusal> {
        Battery::open(self).map(|_| ())
    }

    /// Every reason for which the card is refused, in words; none where it is accepted. The
    /// first has the refusal that [`Card::check`] gives.
    pub fn faults(&self) -> Vec<Fault> {
        let fault = |(field, value): (&Field, Value)| {
            let words = field.fault(&value)?;
            Some(Fault::new(field.name, Refusal::CardOutOfRange, words))
        };
        let mut faults: Vec<Fault> =
            Card::FIELDS.iter().zip(self.values()).filter_map(fault).collect();
        faults.extend(self.faults_between());
        faults.extend(self.faults_of_services());
        faults
    }

    /// Refusals 2 to 4: relations between fields.
    fn faults_between(&self) -> Vec<Fault> {
        let Card { lower, upper, max, reference, .. } = *self;
        let mut faults = Vec::new();
        let mut fault = |field, refusal, words| faults.push(Fault::new(field, refusal, words));
        if lower > upper {
            let words = format!("lower is {lower:?}, above upper, which is {upper:?}");
            fault("lower", Refusal::LowerAboveUpper, words);
        }
        if max <= 20.0 {
            fault("max", Refusal::MaxTooLow, format!("max is {max:?}, not above 20 °C"));
        }
        if max < reference || (max - reference).abs() <= NEARLY {
            let words =
                format!("max is {max:?}, not clearly above reference, which is {reference:?}");
            fault("max", Refusal::NothingToStore, words);
        }
        faults
    }

    /// Refusal 61: too many services, a number under 4, numbers that don't rise.
    fn faults_of_services(&self) -> impl Iterator<Item = Fault> {
        let faults = Service::faults(&self.services, self.services.len()).into_iter();
        faults.map(|(service, words)| Fault {
            service,
            ..Fault::new("services", Refusal::BadServices, words)
        })
    }

    /// The class of a service on this card: its own for regular, space and direct, the listed one
    /// for a number above 3. None for combi and for a number that isn't listed, which only trials
    /// may ask for.
    ///
    /// ```
    /// use heat_battery::{Card, Service, ServiceClass, ServiceType};
    ///
    /// let services = vec![Service::new(12, ServiceClass::Space)];
    /// let card = Card { services, ..Card::example() };
    /// assert_eq!(card.class(ServiceType::Numbered(12)), Some(ServiceClass::Space));
    /// assert_eq!(card.class(ServiceType::Numbered(13)), None);
    /// assert_eq!(card.class(ServiceType::Direct), Some(ServiceClass::Direct));
    /// assert_eq!(card.class(ServiceType::Combi), None);
    /// ```
    pub fn class(&self, service: ServiceType) -> Option<ServiceClass> {
        let number = service.number();
        match u8::try_from(number).ok().and_then(ServiceClass::from_number) {
            Some(class) => Some(class),
            None => self.services.iter().find(|one| one.number == number).map(|one| one.class),
        }
    }

    /// The number of a demand's service, where it is above 3 and not listed on this card.
    pub fn unlisted(&self, call: &Call) -> Option<u16> {
        match call {
            Call::Demand { service, .. } if service.is_numbered() => {
                self.class(*service).is_none().then(|| service.number())
            }
            _ => None,
        }
    }

    /// The 19 f64 in the order of [`Card::FIELDS`].
    pub(crate) fn numbers(&self) -> [f64; NUMBERS] {
        [
            self.substep,
            self.timestep,
            self.initial_inlet,
            self.estimated_outlet,
            self.max,
            self.reference,
            self.lower,
            self.upper,
            self.below,
            self.during,
            self.above,
            self.velocity,
            self.diameter,
            self.a,
            self.b,
            self.flow,
            self.losses,
            self.start,
            self.power,
        ]
    }

    fn set_numbers(&mut self, numbers: [f64; NUMBERS]) {
        [
            self.substep,
            self.timestep,
            self.initial_inlet,
            self.estimated_outlet,
            self.max,
            self.reference,
            self.lower,
            self.upper,
            self.below,
            self.during,
            self.above,
            self.velocity,
            self.diameter,
            self.a,
            self.b,
            self.flow,
            self.losses,
            self.start,
            self.power,
        ] = numbers;
    }

    /// The values in the order of [`Card::FIELDS`].
    pub fn values(&self) -> [Value; 23] {
        let mut values = [Value::Number(0.0); 23];
        let (counts, numbers) = values.split_at_mut(4);
        counts.copy_from_slice(&[
            Value::Byte(self.layers),
            Value::Short(self.units),
            Value::Flag(self.simultaneous),
            Value::Short(self.budget),
        ]);
        for (place, number) in numbers.iter_mut().zip(self.numbers()) {
            *place = Value::Number(number);
        }
        values
    }

    /// The card of values in the order of [`Card::FIELDS`], without services and without a floor; None
    /// where a shape is another.
    pub fn from_values(values: &[Value]) -> Option<Card> {
        let (counts, rest) = values.split_at_checked(4)?;
        let [Value::Byte(layers), Value::Short(units), Value::Flag(simultaneous), Value::Short(budget)] =
            *counts
        else {
            return None;
        };
        let numbers: Option<Vec<f64>> = rest.iter().map(Value::number).collect();
        let numbers = numbers?.try_into().ok()?;
        Some(Card::of(layers, units, simultaneous, budget, numbers))
    }

    /// The card of its four counts and flags and its numbers, in the order of [`Card::FIELDS`],
    /// without services and without a floor.
    pub(crate) fn of(
        layers: u8,
        units: u16,
        simultaneous: bool,
        budget: u16,
        numbers: [f64; NUMBERS],
    ) -> Card {
        let mut card = Card { layers, units, simultaneous, budget, ..Card::example() };
        card.set_numbers(numbers);
        card
    }

    /// Its bytes on a sheet of a version.
    pub fn bytes(&self, version: Version) -> usize {
        length_with(version, self.services.len().min(MOST_COUNTED))
    }

    /// Whether what the card has besides its fields can stand on a sheet of a version.
    pub(crate) fn stands_in(&self, version: Version) -> Result<(), Refusal> {
        if self.floor && !version.has_floor() {
            return Err(Refusal::VersionWithoutFloor);
        }
        match self.services.is_empty() || version.has_services() {
            true => Ok(()),
            false => Err(Refusal::VersionWithoutServices),
        }
    }

    /// The card as line 0 of a version has it, what has no place there left out: a floor before
    /// version 4, services before version 3, and those beyond the 255 that a count can say, of which
    /// the engine refuses each beyond 32.
    pub(crate) fn line(&self, version: Version) -> Vec<u8> {
        let mut fields = Buffer::<{ Card::BYTES }>::new();
        for value in self.values() {
            value.write(version, &mut fields);
        }
        let mut bytes = fields.to_vec();
        if version.has_services() {
            let counted = self.services.iter().take(MOST_COUNTED);
            bytes.push(counted.len() as u8);
            for Service { number, class } in counted {
                bytes.extend(number.to_be_bytes());
                bytes.push(class.number());
            }
        }
        if version.has_floor() {
            bytes.push(u8::from(self.floor));
        }
        bytes
    }

    /// The card as in line 0 of a sheet of a version. An error for what can't stand there: a floor
    /// before version 4 with refusal 1, services before version 3, or more than 255 of them, with 61;
    /// [`Card::check`] has the rest.
    ///
    /// ```
    /// use heat_battery::{Card, Refusal, Service, ServiceClass, Version};
    ///
    /// let card = Card::example();
    /// assert_eq!(card.to_bytes(Version::Two)?.len(), 158);
    /// assert_eq!(card.to_bytes(Version::Three)?.len(), 159);
    /// let services = vec![Service::new(12, ServiceClass::Space)];
    /// let card = Card { services, ..card };
    /// assert_eq!(card.to_bytes(Version::Three)?[158..], [1, 0, 12, 2]);
    /// assert_eq!(card.to_bytes(Version::Two), Err(Refusal::VersionWithoutServices));
    /// let card = Card { floor: true, ..card };
    /// assert_eq!(card.to_bytes(Version::Four)?[158..], [1, 0, 12, 2, 1]);
    /// assert_eq!(card.to_bytes(Version::Three), Err(Refusal::VersionWithoutFloor));
    /// # Ok::<(), Refusal>(())
    /// ```
    pub fn to_bytes(&self, version: Version) -> Result<Vec<u8>, Refusal> {
        self.stands_in(version)?;
        match self.services.len() {
            ..=MOST_COUNTED => Ok(self.line(version)),
            _ => Err(Refusal::BadServices),
        }
    }

    /// A card of any numbers, as line 0 of a version has it. Refusal 1 for another length and for
    /// a flag other than 0 or 1; 61 for an unknown class, where 1 to 4 don't apply; [`Card::check`]
    /// has the rest.
    pub fn from_bytes(version: Version, bytes: &[u8]) -> Result<Card, Refusal> {
        Card::read(version, bytes).map_err(|fault| fault.refusal)
    }

    /// `from_bytes` with its reason in words.
    pub(crate) fn read(version: Version, bytes: &[u8]) -> Result<Card, Fault> {
        let bad = |words| Fault::new("card", Refusal::CardOutOfRange, words);
        test_length(version, bytes).map_err(bad)?;
        let mut cursor = Cursor(bytes);
        let values: Result<Vec<Value>, String> =
            Card::FIELDS.iter().map(|field| field.read(version, &mut cursor)).collect();
        let card = Card::from_values(&values.map_err(bad)?);
        let mut card = card.ok_or_else(|| bad("no card".into()))?;
        if let (true, Some((last, _))) = (version.has_floor(), bytes.split_last()) {
            let flag = Card::FLOOR.read(version, &mut Cursor(&[*last])).map_err(bad)?;
            card.floor = flag == Value::Flag(true);
        }
        // The count, which the length agrees with; a flag is too short to be a service.
        cursor.byte();
        while let (Some(number), Some(class)) = (cursor.short(), cursor.byte()) {
            let Some(class) = ServiceClass::from_number(class) else {
                let words = format!("service {number} has class {class}, not 1, 2 or 3");
                let unknown = Fault::new("services", Refusal::BadServices, words);
                return Err(card.faults().into_iter().next().unwrap_or(unknown));
            };
            card.services.push(Service { number, class });
        }
        Ok(card)
    }

    /// The length of the card at the front of a record of a version; None where there are too few
    /// bytes to say.
    pub(crate) fn length(version: Version, record: &[u8]) -> Option<usize> {
        match version.has_services() {
            true => record.get(Card::BYTES).map(|count| length_with(version, usize::from(*count))),
            false => Some(Card::BYTES),
        }
    }

    /// Whether a card of a version can have so many bytes.
    pub(crate) fn has_length(version: Version, length: usize) -> bool {
        (0..=MOST_COUNTED).any(|count| length_with(version, count) == length)
    }
}

/// Bytes of a card of a version with so many services, where it has places for them: the count and
/// the floor's flag are among them.
const fn length_with(version: Version, count: usize) -> usize {
    let services = if version.has_services() { 1 + SERVICE_BYTES * count } else { 0 };
    Card::BYTES + services + version.has_floor() as usize
}

/// Whether the bytes of a card are as many as its version and its count of services say; if not,
/// what is wrong, in words.
fn test_length(version: Version, bytes: &[u8]) -> Result<(), String> {
    let length = bytes.len();
    match (Card::length(version, bytes), bytes.get(Card::BYTES)) {
        (Some(right), _) if right == length => Ok(()),
        (Some(right), Some(count)) if version.has_services() => {
            Err(format!("a card with {count} services has {right} bytes, not {length}"))
        }
        (Some(right), _) => Err(format!("a card has {right} bytes, not {length}")),
        (None, _) => {
            Err(format!("a card has at least {} bytes, not {length}", length_with(version, 0)))
        }
    }
}
