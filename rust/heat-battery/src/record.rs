//! A battery as a record of numbers.

use crate::answer::{Answer, Figures, Totals, Zones};
use crate::battery::{debug, Battery};
use crate::call::Call;
use crate::card::Card;
use crate::ffi;
use crate::refusal::Refusal;
use crate::service::{Service, ServiceClass};
use crate::version::Version;
use std::fmt;

/// A battery as a record of numbers, laid out as C's `struct heat_battery`: the quickest way
/// through many calls, since nothing is written to bytes and read back between them.
///
/// It gives the answers of [`Battery`] to the bit. It is made from a card or from a battery, so
/// it is always a good one, and turns into a battery again.
///
/// ```
/// use heat_battery::{Battery, Call, Card, Record, Refusal};
///
/// let mut record = Record::open(&Card::example())?;
/// let mut battery = Battery::open(&Card::example())?;
/// for call in [Call::Electric { power: 3.0, target: 1.0 }, Call::StandingLoss] {
///     assert_eq!(record.advance(&call)?, battery.call(&call)?);
/// }
/// assert_eq!(*record.zones(), *battery.zones());
/// assert!(record.totals().charged > 0.0);
/// assert_eq!(Battery::from(&record), battery);
/// # Ok::<(), Refusal>(())
/// ```
#[derive(PartialEq)]
pub struct Record {
    version: Version,
    battery: ffi::Battery,
}

/// What is shown of a call that can't be made in the record's version.
const BAD_CALL: ffi::Shown =
    ffi::Shown { refusal: 10, mark: 0, substeps: 0, energy: 0.0, outlet: 0.0, time: 0.0 };

impl Clone for Record {
    fn clone(&self) -> Record {
        let Record { version, battery } = *self;
        Record { version, battery }
    }

    /// Copies no more zones than there are, services only where there are some, and the card number
    /// by number, as the engine reads it: the quick way back to a kept state.
    #[inline]
    fn clone_from(&mut self, source: &Record) {
        let ffi::Battery { card, zones, count, totals, services, numbers: listed, classes, floor } =
            &source.battery;
        let ffi::Card { layers, units, simultaneous, budget, numbers } = *card;
        self.version = source.version;
        let battery = &mut self.battery;
        battery.card.layers = layers;
        battery.card.units = units;
        battery.card.simultaneous = simultaneous;
        battery.card.budget = budget;
        battery.card.numbers = numbers;
        battery.totals = *totals;
        battery.floor = *floor;
        // Without services their places are 0.
        if battery.services > 0 || *services > 0 {
            battery.services = *services;
            battery.numbers = *listed;
            battery.classes = *classes;
        }
        if battery.count > *count {
            battery.zones = *zones;
        }
        battery.count = *count;
        for (place, zone) in battery.zones.iter_mut().zip(zones).take(usize::from(*count)) {
            *place = *zone;
        }
    }
}

impl Record {
    /// A fresh battery of the newest version: all zones at the card's start, totals 0. Refusals 1
    /// to 4 and 61.
    ///
    /// ```
    /// use heat_battery::{Card, Record, Refusal};
    ///
    /// let record = Record::open(&Card::example())?;
    /// assert_eq!(*record.zones(), [58.0; 8]);
    /// let card = Card { max: 20.0, ..Card::example() };
    /// assert_eq!(Record::open(&card).err(), Some(Refusal::MaxTooLow));
    /// # Ok::<(), Refusal>(())
    /// ```
    pub fn open(card: &Card) -> Result<Record, Refusal> {
        Record::open_as(Version::NEWEST, card)
    }

    /// A fresh battery of a version. Refusals 1 to 4 and 61: 1 also for a card with a floor before
    /// version 4, 61 also for one that lists services before version 3.
    pub fn open_as(version: Version, card: &Card) -> Result<Record, Refusal> {
        Battery::open_as(version, card).map(|battery| Record::from(&battery))
    }

    /// The version of the sheet that its answers are for.
    pub fn version(&self) -> Version {
        self.version
    }

    /// The card.
    pub fn card(&self) -> Card {
        let ffi::Card { layers, units, simultaneous, budget, numbers } = self.battery.card;
        let card = Card::of(layers, units, simultaneous == 1, budget, numbers);
        let mut card = Card { floor: self.battery.floor == 1, ..card };
        let listed = self.battery.numbers.iter().zip(&self.battery.classes);
        for (number, class) in listed.take(usize::from(self.battery.services)) {
            let class = ServiceClass::from_number(*class);
            card.services.extend(class.map(|class| Service { number: *number, class }));
        }
        card
    }

    /// Zone temperatures, °C.
    pub fn zones(&self) -> &[f64] {
        self.battery.zones.get(..usize::from(self.battery.count)).unwrap_or_default()
    }

    /// The five totals.
    pub fn totals(&self) -> Totals {
        Totals::from_numbers(self.battery.totals)
    }

    /// The state of charge, 0 to 1. Refusals 23 and 25.
    pub fn state_of_charge(&self) -> Result<f64, Refusal> {
        Ok(self.clone().advance(&Call::StateOfCharge)?.figure())
    }

    /// How much energy a charge to a level would take, kWh, with water of at most `flow_maximum`
    /// °C where that is given. Refusals 10, 23 and 25.
    pub fn charge_energy_demand(
        &self,
        flow_maximum: Option<f64>,
        target: f64,
    ) -> Result<f64, Refusal> {
        let call = Call::ChargeEnergyDemand { flow_maximum, target };
        Ok(self.clone().advance(&call)?.figure())
    }

    /// Advances the battery by a call. Refusals 10 and 20 to 25; the battery is then as it was.
    ///
    /// ```
    /// use heat_battery::{Call, Card, Record, Refusal};
    ///
    /// let mut record = Record::open(&Card::example())?;
    /// let before = record.clone();
    /// let charge = Call::Electric { power: -1.0, target: 1.0 };
    /// assert_eq!(record.advance(&charge), Err(Refusal::BadCall));
    /// assert_eq!(record, before);
    /// # Ok::<(), Refusal>(())
    /// ```
    #[inline]
    pub fn advance(&mut self, call: &Call) -> Result<Answer, Refusal> {
        let shown = self.entry(call);
        match Refusal::from_number(shown.refusal) {
            Some(refusal) => Err(refusal),
            None => Ok(self.shown(call, None, &shown)),
        }
    }

    /// Advances the battery by a call and gives what its line would show: one of 20 to 25 is
    /// an answer with its refusal, only 10 is an error.
    #[inline]
    pub fn answer(&mut self, call: &Call) -> Result<Answer, Refusal> {
        let shown = self.entry(call);
        match Refusal::from_number(shown.refusal) {
            Some(refusal) if !refusal.is_line() => Err(refusal),
            refusal => Ok(self.shown(call, refusal, &shown)),
        }
    }

    #[inline]
    fn entry(&mut self, call: &Call) -> ffi::Shown {
        let Record { version, battery } = self;
        call.with_bytes(
            *version,
            |bytes| ffi::advance(version.number(), battery, bytes),
            || BAD_CALL,
        )
    }

    /// The line's answer, with the battery as it is now.
    #[inline]
    fn shown(&self, call: &Call, refusal: Option<Refusal>, shown: &ffi::Shown) -> Answer {
        let Figures { energy, trial_energy, state_of_charge, charge_energy_demand } =
            Figures::of(call, refusal, shown.energy);
        Answer {
            refusal,
            energy,
            trial_energy,
            state_of_charge,
            charge_energy_demand,
            outlet: (shown.mark == 1).then_some(shown.outlet),
            time: shown.time,
            substeps: shown.substeps,
            zones: Zones::new(self.zones()).unwrap_or(Zones::EMPTY),
            totals: self.totals(),
        }
    }
}

impl From<&Battery> for Record {
    fn from(battery: &Battery) -> Record {
        let card = battery.card();
        let read = battery.zones();
        let mut zones = [0.0; crate::MOST_LAYERS];
        for (place, zone) in zones.iter_mut().zip(read.iter()) {
            *place = *zone;
        }
        let mut numbers = [0; Service::MOST];
        let mut classes = [0; Service::MOST];
        let places = numbers.iter_mut().zip(&mut classes);
        for ((number, class), service) in places.zip(&card.services) {
            *number = service.number;
            *class = service.class.number();
        }
        let (services, floor) = (card.services.len() as u8, u8::from(card.floor));
        let card = ffi::Card {
            layers: card.layers,
            units: card.units,
            simultaneous: u8::from(card.simultaneous),
            budget: card.budget,
            numbers: card.numbers(),
        };
        let (count, totals) = (card.layers, battery.totals().numbers());
        let version = battery.version();
        let battery =
            ffi::Battery { card, zones, count, totals, services, numbers, classes, floor };
        Record { version, battery }
    }
}

impl From<&Record> for Battery {
    fn from(record: &Record) -> Battery {
        Battery::of(record.version, &record.card(), record.zones(), &record.totals())
    }
}

impl fmt::Debug for Record {
    fn fmt(&self, f: &mut fmt::Formatter<'_>) -> fmt::Result {
        debug("Record", self.version, &self.card(), self.zones(), &self.totals(), f)
    }
}
