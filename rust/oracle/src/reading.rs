//! Card, battery record, call and answer read from bytes, as documents 01 and 02 lay them out.

use crate::model::{
    has_floor_flag, lists_services, Answer, Battery, Call, Card, Demand, Hydronic, Service,
    Services, State, Totals,
};
use crate::plain;
use crate::ranges;
use crate::sheet::{call_length, card_in_front, record_length};

/// Bytes that are read from the front; None where they end too early.
struct Cursor<'a>(&'a [u8]);

impl Cursor<'_> {
    fn take<const N: usize>(&mut self) -> Option<[u8; N]> {
        let (taken, rest) = self.0.split_first_chunk::<N>()?;
        self.0 = rest;
        Some(*taken)
    }

    fn byte(&mut self) -> Option<u8> {
        self.take().map(u8::from_be_bytes)
    }

    fn short(&mut self) -> Option<u16> {
        self.take().map(u16::from_be_bytes)
    }

    fn count(&mut self) -> Option<u32> {
        self.take().map(u32::from_be_bytes)
    }

    fn number(&mut self) -> Option<f64> {
        self.take().map(|bytes| f64::from_bits(u64::from_be_bytes(bytes)))
    }

    fn numbers(&mut self, count: usize) -> Option<Vec<f64>> {
        (0..count).map(|_| self.number()).collect()
    }

    /// A mark and its number; None for another mark and for nonzero bytes under mark 0.
    fn optional(&mut self) -> Option<Option<f64>> {
        let mark = self.byte()?;
        let number = self.number()?;
        match mark {
            0 if number.to_bits() == 0 => Some(None),
            1 => Some(Some(number)),
            _ => None,
        }
    }

    fn state(&mut self, layers: u8) -> Option<State> {
        let zones = self.numbers(usize::from(layers))?;
        let totals = Totals {
            running_hours: self.number()?,
            pump_hours: self.number()?,
            direct_hours: self.number()?,
            charged: self.number()?,
            charged_electric: self.number()?,
        };
        Some(State { zones, totals })
    }

    /// A count, then as many services.
    fn services(&mut self) -> Option<Services> {
        let mut listed = Vec::new();
        for _ in 0..self.byte()? {
            listed.push(Service { number: self.short()?, class: self.byte()? });
        }
        Some(Services::new(&listed))
    }

    fn demand(&mut self, version: u8) -> Option<Call> {
        Some(Call::Demand(Demand {
            service_type: match lists_services(version) {
                true => self.short()?,
                false => self.byte()?.into(),
            },
            commit: self.byte()?,
            control_on: self.byte()?,
            required: self.number()?,
            start: self.number()?,
            return_temperature: self.optional()?,
        }))
    }

    fn hydronic(&mut self) -> Option<Call> {
        Some(Call::Hydronic(Hydronic {
            inlet: self.number()?,
            hours: self.number()?,
            flow: self.number()?,
            target: self.number()?,
            limit: self.number()?,
            hex_a: self.number()?,
            hex_b: self.number()?,
            velocity: self.number()?,
            diameter: self.number()?,
        }))
    }

    fn call(&mut self, version: u8) -> Option<Call> {
        match self.byte()? {
            1 => self.demand(version),
            2 => Some(Call::Electric { power: self.number()?, target: self.number()? }),
            3 => self.hydronic(),
            4 => Some(Call::StandingLoss),
            5 => Some(Call::CloseTimestep),
            6 => Some(Call::StateOfCharge),
            7 => Some(Call::ChargeEnergyDemand {
                flow_maximum: self.optional()?,
                target: self.number()?,
            }),
            _ => None,
        }
    }
}

/// A card of any numbers; None where the length is another.
pub fn card(version: u8, bytes: &[u8]) -> Option<Card> {
    if card_in_front(version, bytes)?.len() != bytes.len() {
        return None;
    }
    let mut cursor = Cursor(bytes);
    let mut card = Card {
        layers: cursor.byte()?,
        units: cursor.short()?,
        simultaneous: cursor.byte()?,
        budget: cursor.short()?,
        ..Card::default()
    };
    for number in card.numbers_mut() {
        *number = cursor.number()?;
    }
    if lists_services(version) {
        card.services = cursor.services()?;
    }
    if has_floor_flag(version) {
        card.floor = cursor.byte()?;
    }
    Some(card)
}

/// A battery handed in; None where refusal 10 applies to it.
pub fn battery(version: u8, bytes: &[u8]) -> Option<Battery> {
    let front = card_in_front(version, bytes)?;
    let card = card(version, front)?;
    if plain::card_refusal(&card) != 0 || bytes.len() != record_length(front) {
        return None;
    }
    let state = Cursor(&bytes[front.len()..]).state(card.layers)?;
    let battery = Battery { card, state };
    (!ranges::battery_refusal(&battery)).then_some(battery)
}

/// Kind and call fields, alone; None where refusal 10 applies to them.
pub fn call(version: u8, card: &Card, bytes: &[u8]) -> Option<Call> {
    let kind = bytes.first()?;
    if bytes.len() != call_length(version, *kind)? {
        return None;
    }
    let call = Cursor(bytes).call(version)?;
    (!ranges::call_refusal(version, card, &call)).then_some(call)
}

/// What a call line shows after its call; None for another length, for a mark other than
/// 0 or 1 and for nonzero bytes under an absent outlet.
pub fn answer(layers: u8, bytes: &[u8]) -> Option<Answer> {
    let mut cursor = Cursor(bytes);
    let answer = Answer {
        refusal: cursor.byte()?,
        energy: cursor.number()?,
        outlet: cursor.optional()?,
        time: cursor.number()?,
        substeps: cursor.count()?,
        state: cursor.state(layers)?,
    };
    cursor.0.is_empty().then_some(answer)
}
