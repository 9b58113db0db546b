//! The caller's own record as include/heat_battery.h has it, and the independent entry on it,
//! written from documents 01 and 02 alone.

use crate::entries::Step;
use crate::fields;
use crate::model::{
    has_floor_flag, is_known, lists_services, Answer, Battery, Card, Service, Services, State,
    Totals,
};
use crate::plain::{self, MOST_SERVICES};
use crate::ranges;
use crate::reading;
use crate::sheet;
use std::mem::offset_of;

pub const MOST_LAYERS: usize = 64;

#[repr(C)]
#[derive(Clone, Copy)]
pub struct OwnCard {
    pub layers: u8,
    pub units: u16,
    pub simultaneous: u8,
    pub budget: u16,
    /// Substep to power, in the header's order.
    pub numbers: [f64; 19],
}

#[repr(C)]
#[derive(Clone, Copy)]
pub struct Record {
    pub card: OwnCard,
    pub zones: [f64; MOST_LAYERS],
    pub count: u8,
    pub totals: [f64; 5],
    /// How many services are listed; read, like the next two, from version 3 on.
    pub services: u8,
    pub numbers: [u16; MOST_SERVICES],
    pub classes: [u8; MOST_SERVICES],
    /// Read from version 4 on.
    pub floor: u8,
}

const _: () = assert!(size_of::<OwnCard>() == 160 && size_of::<Record>() == 824);
const _: () = assert!(offset_of!(Record, classes) == 786 && offset_of!(Record, floor) == 818);

#[repr(C)]
#[derive(Clone, Copy)]
pub struct Shown {
    pub refusal: u8,
    pub mark: u8,
    pub substeps: u32,
    pub energy: f64,
    pub outlet: f64,
    pub time: f64,
}

impl From<&Card> for OwnCard {
    fn from(card: &Card) -> Self {
        OwnCard {
            layers: card.layers,
            units: card.units,
            simultaneous: card.simultaneous,
            budget: card.budget,
            numbers: card.numbers(),
        }
    }
}

/// At most 64 zones and 32 services are taken; the places above them are 0.
impl From<&Battery> for Record {
    fn from(battery: &Battery) -> Self {
        let mut record = Record {
            card: OwnCard::from(&battery.card),
            zones: [0.0; MOST_LAYERS],
            count: battery.card.layers,
            totals: [0.0; 5],
            services: battery.card.services.listed().len() as u8,
            numbers: [0; MOST_SERVICES],
            classes: [0; MOST_SERVICES],
            floor: battery.card.floor,
        };
        let places = record.numbers.iter_mut().zip(&mut record.classes);
        for ((number, class), service) in places.zip(battery.card.services.listed()) {
            (*number, *class) = (service.number, service.class);
        }
        record.put(&battery.state);
        record
    }
}

impl Record {
    /// The record of a byte record, whether that is one or not; what its bytes lack is 0. Places above
    /// the counts have NaNs and numbers of their own, and so have services and floor where the version
    /// doesn't read them: the floor is then 1 or what none may be, by the card's bytes.
    pub fn of_bytes(version: u8, bytes: &[u8]) -> Self {
        let mut whole = bytes.to_vec();
        whole.resize(bytes.len().max(sheet::card_length(version, 0)), 0);
        let front = sheet::card_in_front(version, &whole).map_or(whole.len(), <[u8]>::len);
        whole.resize(whole.len().max(sheet::card_length(version, u8::MAX)), 0);
        let card = sheet::card_in_front(version, &whole);
        let card = card.and_then(|card| reading::card(version, card)).expect("a card's length");
        let mut numbers = whole[front..].chunks_exact(8).map(|eight| fields::number_at(eight, 0));
        let layers = usize::from(card.layers).min(MOST_LAYERS);
        let zones = numbers.by_ref().take(layers).collect();
        let mut record =
            Record::from(&Battery { card, state: State { zones, ..State::default() } });
        record.totals.fill_with(|| numbers.next().unwrap_or(0.0));
        for (at, place) in record.zones.iter_mut().enumerate().skip(layers) {
            *place = f64::from_bits(0x7ff8_0000_0000_0000 | at as u64);
        }
        let mut listed = usize::from(record.services).min(MOST_SERVICES);
        if !lists_services(version) {
            (listed, record.services) = (0, 0xe7);
        }
        for at in listed..MOST_SERVICES {
            record.numbers[at] = at as u16;
            record.classes[at] = 0xff - at as u8;
        }
        if !has_floor_flag(version) {
            let is_odd = whole[..front].iter().fold(0, |sum, byte| sum ^ byte) % 2 == 1;
            record.floor = if is_odd { 1 } else { 0xe7 };
        }
        record
    }

    /// Zones and totals; the places above the zones stay.
    fn put(&mut self, state: &State) {
        for (place, zone) in self.zones.iter_mut().zip(&state.zones) {
            *place = *zone;
        }
        self.totals = state.totals.numbers();
    }

    /// The list of services; None for more than there are places.
    pub fn listed(&self) -> Option<Services> {
        let places = self.numbers.iter().zip(&self.classes);
        let all: Vec<Service> = places.map(|(&number, &class)| Service { number, class }).collect();
        Some(Services::new(all.get(..usize::from(self.services))?))
    }

    /// The battery; None where refusal 10 applies to it.
    fn battery(&self, version: u8) -> Option<Battery> {
        let OwnCard { layers, units, simultaneous, budget, numbers } = self.card;
        let mut card = Card { layers, units, simultaneous, budget, ..Card::default() };
        for (number, own) in card.numbers_mut().into_iter().zip(numbers) {
            *number = own;
        }
        if lists_services(version) {
            card.services = self.listed()?;
        }
        if has_floor_flag(version) {
            card.floor = self.floor;
        }
        if self.count != layers || plain::card_refusal(&card) != 0 {
            return None;
        }
        let zones = self.zones[..usize::from(layers)].to_vec();
        let [running_hours, pump_hours, direct_hours, charged, charged_electric] = self.totals;
        let totals = Totals { running_hours, pump_hours, direct_hours, charged, charged_electric };
        let battery = Battery { card, state: State { zones, totals } };
        (!ranges::battery_refusal(&battery)).then_some(battery)
    }

    /// Every number by its bits, the places above the counts too.
    pub fn words(&self) -> Vec<u64> {
        let OwnCard { layers, units, simultaneous, budget, numbers } = self.card;
        let whole = [layers.into(), units.into(), simultaneous.into(), budget.into()];
        let floats = numbers.iter().chain(&self.zones).chain(&self.totals).map(|x| x.to_bits());
        let bytes = [self.count, self.services, self.floor].map(u64::from);
        let numbers = self.numbers.iter().map(|number| u64::from(*number));
        let classes = self.classes.iter().map(|class| u64::from(*class));
        whole.into_iter().chain(bytes).chain(floats).chain(numbers).chain(classes).collect()
    }
}

impl Shown {
    fn refused(refusal: u8) -> Self {
        Shown { refusal, mark: 0, substeps: 0, energy: 0.0, outlet: 0.0, time: 0.0 }
    }

    fn new(answer: &Answer) -> Self {
        Shown {
            refusal: answer.refusal,
            mark: u8::from(answer.outlet.is_some()),
            substeps: answer.substeps,
            energy: answer.energy,
            outlet: answer.outlet.unwrap_or(0.0),
            time: answer.time,
        }
    }

    pub fn words(&self) -> [u64; 6] {
        let floats = [self.energy, self.outlet, self.time].map(f64::to_bits);
        let [energy, outlet, time] = floats;
        [self.refusal.into(), self.mark.into(), self.substeps.into(), energy, outlet, time]
    }
}

/// Advances the record by a call; it stays where one of 40, 10 and 20 to 25 is shown.
pub fn advance(step: Step, version: u8, record: &mut Record, call: &[u8]) -> Shown {
    if !is_known(version) {
        return Shown::refused(40);
    }
    let Some(battery) = record.battery(version) else {
        return Shown::refused(10);
    };
    let Some(call) = reading::call(version, &battery.card, call) else {
        return Shown::refused(10);
    };
    let (answer, after) = step(version, &battery, &call);
    if answer.refusal == 0 {
        record.put(&after.state);
    }
    Shown::new(&answer)
}
