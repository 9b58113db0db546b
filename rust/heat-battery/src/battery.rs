//! A battery: its card, zones and totals.

use crate::answer::{
    read_totals, read_zones, state_bytes, write_state, Answer, Totals, Zones, HEAD_BYTES,
    MOST_LAYERS,
};
use crate::bytes::{Buffer, Cursor};
use crate::call::{Call, MOST_BYTES};
use crate::card::Card;
use crate::ffi;
use crate::refusal::Refusal;
use crate::version::Version;
use std::fmt;

/// Version and length of line 0.
const FRONT_BYTES: usize = 1 + 2;
const MOST_OPENING: usize = FRONT_BYTES + Card::MOST_BYTES;
const MOST_RECORD: usize = Card::MOST_BYTES + state_bytes(MOST_LAYERS as u8);
const MOST_LINE: usize = 2 + MOST_BYTES + HEAD_BYTES + state_bytes(MOST_LAYERS as u8);

/// Bytes of version and line 0.
pub(crate) fn opening_bytes(version: Version, card: &Card) -> usize {
    FRONT_BYTES + card.bytes(version)
}

/// Bytes of the line of a call of so many bytes, with its length.
pub(crate) fn line_bytes(call: usize, layers: u8) -> usize {
    2 + call + Answer::bytes(layers)
}

/// A battery: its card, zones and totals, and the version of the sheet that its lines are for.
///
/// Calls change it only where they are answered. [`Battery::call`] gives every refusal as an
/// error; a battery that a call was refused for is as it was. [`Version`] says what an answer
/// shows in which version.
///
/// ```
/// use heat_battery::{Battery, Call, Card, Refusal, ServiceType};
///
/// let mut battery = Battery::open(&Card::example())?;
/// let half = battery.state_of_charge()?;
/// assert!(half > 0.0 && half < 1.0);
/// battery.call(&Call::Electric { power: 3.0, target: 1.0 })?;
/// assert!(battery.state_of_charge()? > half);
///
/// let before = battery.zones();
/// let demand = Call::Demand {
///     service: ServiceType::Space,
///     commit: true,
///     control_on: false,
///     required: 1.0,
///     start: 0.0,
///     return_temperature: None,
/// };
/// assert_eq!(battery.call(&demand), Err(Refusal::NoReturn));
/// assert_eq!(battery.zones(), before);
/// # Ok::<(), Refusal>(())
/// ```
#[derive(Clone)]
pub struct Battery {
    version: Version,
    card: Card,
    /// Card, zones and totals as the entries take them.
    record: Buffer<MOST_RECORD>,
}

impl Battery {
    /// A fresh battery of the newest version: all zones at the card's start, totals 0. Refusals 1
    /// to 4 and 61.
    pub fn open(card: &Card) -> Result<Battery, Refusal> {
        Battery::open_as(Version::NEWEST, card)
    }

    /// A fresh battery of a version. Refusals 1 to 4 and 61: 1 also for a card with a floor before
    /// version 4, 61 also for one that lists services before version 3.
    ///
    /// ```
    /// use heat_battery::{Battery, Call, Card, Refusal, Version};
    ///
    /// let charge = "hydronic inlet=70 hours=0.5 flow=8 target=1 limit=4 hex_a=174 hex_b=-930 \
    ///               velocity=0.035 diameter=0.0065";
    /// let charge: Call = charge.parse().unwrap();
    /// let [one, two] = [Version::One, Version::Two].map(|version| {
    ///     let mut battery = Battery::open_as(version, &Card::example())?;
    ///     battery.call(&charge)
    /// });
    /// let (one, two) = (one?, two?);
    /// assert_eq!((one.energy, one.zones), (two.energy, two.zones));
    /// assert!(one.time == 0.0 && two.time > 0.0); // how long the pump ran, s
    /// # Ok::<(), Refusal>(())
    /// ```
    pub fn open_as(version: Version, card: &Card) -> Result<Battery, Refusal> {
        Battery::open_on(version, card, &mut [0; MOST_OPENING])
    }

    /// A fresh battery, with version and line 0 at the front of a sheet. Refusals 1 to 4, 61, 11.
    pub(crate) fn open_on(
        version: Version,
        card: &Card,
        sheet: &mut [u8],
    ) -> Result<Battery, Refusal> {
        if let Err(refusal) = card.stands_in(version) {
            // What is tested before: for a floor the other fields, for services 2 to 4 too.
            let fields = Card { services: Vec::new(), ..card.clone() };
            let before = fields.check().err().filter(|first| first.number() <= refusal.number());
            return Err(before.unwrap_or(refusal));
        }
        let mut record = Buffer::zeros(card.bytes(version) + state_bytes(card.layers));
        let refusal = ffi::open(version.number(), &card.line(version), record.as_mut(), sheet);
        match Refusal::from_number(refusal) {
            Some(refusal) => Err(refusal),
            None => Ok(Battery { version, card: card.clone(), record }),
        }
    }

    /// A battery of a version with zones and totals of the caller's. The card's own refusals are 1
    /// to 4 and 61; 10 where there aren't as many zones as layers or a number isn't finite.
    ///
    /// ```
    /// use heat_battery::{Battery, Card, Refusal, Totals, Version};
    ///
    /// let (version, card) = (Version::NEWEST, Card::example());
    /// let battery = Battery::with_state(version, &card, &[58.5; 8], &Totals::default())?;
    /// assert_eq!(*battery.zones(), [58.5; 8]);
    /// let refused = Battery::with_state(version, &card, &[f64::NAN; 8], &Totals::default());
    /// assert_eq!(refused.err(), Some(Refusal::BadBattery));
    /// # Ok::<(), Refusal>(())
    /// ```
    pub fn with_state(
        version: Version,
        card: &Card,
        zones: &[f64],
        totals: &Totals,
    ) -> Result<Battery, Refusal> {
        Battery::open_as(version, card)?;
        if zones.len() != usize::from(card.layers) {
            return Err(Refusal::BadBattery);
        }
        Battery::of(version, card, zones, totals).tested()
    }

    /// The bytes of a card, as many zones as its layers, and totals.
    pub(crate) fn of(version: Version, card: &Card, zones: &[f64], totals: &Totals) -> Battery {
        let mut record = Buffer::new();
        record.push(&card.line(version));
        write_state(&mut record, zones, totals);
        Battery { version, card: card.clone(), record }
    }

    /// A battery from the bytes of its card, zones and totals: 10 where it isn't good. They don't
    /// say their version, and versions 1 and 2 share them, so it is asked for.
    pub fn from_bytes(version: Version, bytes: &[u8]) -> Result<Battery, Refusal> {
        let front = Card::length(version, bytes).and_then(|length| bytes.get(..length));
        let card = front.and_then(|front| Card::from_bytes(version, front).ok());
        let card = card.filter(|card| Battery::open_as(version, card).is_ok());
        let card = card.ok_or(Refusal::BadBattery)?;
        if bytes.len() != card.bytes(version) + state_bytes(card.layers) {
            return Err(Refusal::BadBattery);
        }
        let mut record = Buffer::new();
        record.push(bytes);
        Battery { version, card, record }.tested()
    }

    /// The battery where the engine takes it. A state of charge is asked, which changes nothing.
    fn tested(self) -> Result<Battery, Refusal> {
        match self.clone().answer(&Call::StateOfCharge) {
            Ok(_) => Ok(self),
            Err(_) => Err(Refusal::BadBattery),
        }
    }

    /// Card, zones and totals as the C entries take them.
    pub fn as_bytes(&self) -> &[u8] {
        &self.record
    }

    /// The version of the sheet that its lines are for.
    pub fn version(&self) -> Version {
        self.version
    }

    /// The card.
    pub fn card(&self) -> &Card {
        &self.card
    }

    fn state(&self) -> Option<(Zones, Totals)> {
        let mut cursor = Cursor(self.record.get(self.card.bytes(self.version)..)?);
        Some((read_zones(self.card.layers, &mut cursor)?, read_totals(&mut cursor)?))
    }

    /// Zone temperatures, °C.
    pub fn zones(&self) -> Zones {
        self.state().unzip().0.unwrap_or(Zones::EMPTY)
    }

    /// The five totals.
    pub fn totals(&self) -> Totals {
        self.state().unzip().1.unwrap_or_default()
    }

    /// The state of charge, 0 to 1. Refusals 23 and 25.
    pub fn state_of_charge(&self) -> Result<f64, Refusal> {
        Ok(self.clone().call(&Call::StateOfCharge)?.figure())
    }

    /// How much energy a charge to a level would take, kWh, with water of at most `flow_maximum`
    /// °C where that is given. Refusals 10, 23 and 25.
    ///
    /// ```
    /// use heat_battery::{Battery, Card, Refusal};
    ///
    /// let battery = Battery::open(&Card::example())?;
    /// let full = battery.charge_energy_demand(None, 1.0)?;
    /// let lukewarm = battery.charge_energy_demand(Some(60.0), 1.0)?;
    /// assert!(0.0 < lukewarm && lukewarm < full);
    /// # Ok::<(), Refusal>(())
    /// ```
    pub fn charge_energy_demand(
        &self,
        flow_maximum: Option<f64>,
        target: f64,
    ) -> Result<f64, Refusal> {
        let call = Call::ChargeEnergyDemand { flow_maximum, target };
        Ok(self.clone().call(&call)?.figure())
    }

    /// Makes a call, with no sheet. Refusals 10 and 20 to 25; the battery is then as it was.
    pub fn call(&mut self, call: &Call) -> Result<Answer, Refusal> {
        self.answer(call)?.result()
    }

    /// Makes a call, with no sheet, as its line would show it: one of 20 to 25 is an answer
    /// with its refusal, only 10 is an error.
    pub fn answer(&mut self, call: &Call) -> Result<Answer, Refusal> {
        self.answer_on(call, &mut [0; MOST_LINE])
    }

    /// Makes a call with its line at the front of a sheet. Refusals 10 and 11; one of 20 to 25
    /// is in the answer.
    pub(crate) fn answer_on(&mut self, call: &Call, sheet: &mut [u8]) -> Result<Answer, Refusal> {
        let (version, record) = (self.version, self.record.as_mut());
        let result = call.with_bytes(
            version,
            |bytes| ffi::call(version.number(), record, bytes, sheet),
            || Refusal::BadCall.number(),
        );
        match Refusal::from_number(result) {
            Some(refusal) if !refusal.is_line() => Err(refusal),
            _ => self.read_answer(call, sheet).ok_or(Refusal::BadCall),
        }
    }

    /// The answer on the line of a call at the front of a sheet.
    fn read_answer(&self, call: &Call, sheet: &[u8]) -> Option<Answer> {
        let (length, layers) = (call.kind().bytes(self.version), self.card.layers);
        let answer = sheet.get(2 + length..line_bytes(length, layers))?;
        Answer::read(call, layers, &mut Cursor(answer)).ok()
    }
}

impl fmt::Debug for Battery {
    fn fmt(&self, f: &mut fmt::Formatter<'_>) -> fmt::Result {
        debug("Battery", self.version, &self.card, &self.zones(), &self.totals(), f)
    }
}

/// A battery by version, card, zones and totals.
pub(crate) fn debug(
    name: &str,
    version: Version,
    card: &Card,
    zones: &[f64],
    totals: &Totals,
    f: &mut fmt::Formatter<'_>,
) -> fmt::Result {
    let mut shown = f.debug_struct(name);
    shown.field("version", &version).field("card", card);
    shown.field("zones", &zones).field("totals", totals).finish()
}

/// The same version, card, zones and totals, as numbers.
impl PartialEq for Battery {
    fn eq(&self, other: &Battery) -> bool {
        self.version == other.version
            && self.card == other.card
            && self.zones() == other.zones()
            && self.totals() == other.totals()
    }
}
