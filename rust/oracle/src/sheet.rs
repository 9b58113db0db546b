//! The bytes of the sheet, written from documents 01 and 02: card, call, battery and line.

use crate::model::{has_floor_flag, lists_services, Answer, Battery, Call, Card, State};

/// A card's fields: all of a card before version 3.
pub const CARD_BYTES: usize = 158;
/// Number and class of a listed service.
pub const SERVICE_BYTES: usize = 3;
/// Call fields of kinds 1 to 7, before version 3.
const FIELD_BYTES: [usize; 7] = [28, 16, 72, 0, 0, 0, 17];
/// Refusal, energy, outlet's mark, outlet, time, substeps.
pub const ANSWER_HEAD_BYTES: usize = 1 + 8 + 1 + 8 + 8 + 4;

/// A card that lists so many services, whatever their count; before version 3 it lists none. From
/// version 4 on the floor flag is its last byte.
pub fn card_length(version: u8, services: u8) -> usize {
    let services = match lists_services(version) {
        true => 1 + SERVICE_BYTES * usize::from(services),
        false => 0,
    };
    CARD_BYTES + services + usize::from(has_floor_flag(version))
}

/// The card at the front of these bytes, whose count says its length; None where they end before it.
pub fn card_in_front(version: u8, bytes: &[u8]) -> Option<&[u8]> {
    let services = match lists_services(version) {
        true => *bytes.get(CARD_BYTES)?,
        false => 0,
    };
    bytes.get(..card_length(version, services))
}

/// Kind and call fields; None for an unknown kind.
pub fn call_length(version: u8, kind: u8) -> Option<usize> {
    let at = usize::from(kind).checked_sub(1)?;
    let longer_type = usize::from(kind == 1 && lists_services(version));
    FIELD_BYTES.get(at).map(|fields| 1 + fields + longer_type)
}

/// Zones and five totals.
pub fn state_length(layers: u8) -> usize {
    8 * usize::from(layers) + 40
}

/// A battery: a card of these bytes, zones and totals.
pub fn record_length(card: &[u8]) -> usize {
    card.len() + state_length(card.first().copied().unwrap_or(0))
}

/// Version, length of line 0, line 0 with a card of these bytes.
pub fn opening_length(card: &[u8]) -> usize {
    1 + 2 + card.len()
}

/// What follows kind and call fields on a call line.
pub fn answer_length(layers: u8) -> usize {
    ANSWER_HEAD_BYTES + state_length(layers)
}

/// A call line with its length.
pub fn line_length(call: &[u8], layers: u8) -> usize {
    2 + call.len() + answer_length(layers)
}

fn float(bytes: &mut Vec<u8>, x: f64) {
    bytes.extend(x.to_bits().to_be_bytes());
}

fn floats(bytes: &mut Vec<u8>, items: &[f64]) {
    for x in items {
        float(bytes, *x);
    }
}

/// A mark, and the number or zero bytes.
fn optional(bytes: &mut Vec<u8>, x: Option<f64>) {
    bytes.push(u8::from(x.is_some()));
    float(bytes, x.unwrap_or(0.0));
}

fn state(bytes: &mut Vec<u8>, state: &State) {
    floats(bytes, &state.zones);
    floats(bytes, &state.totals.numbers());
}

/// The card as in line 0.
pub fn card_bytes(version: u8, card: &Card) -> Vec<u8> {
    let mut bytes = vec![card.layers];
    bytes.extend(card.units.to_be_bytes());
    bytes.push(card.simultaneous);
    bytes.extend(card.budget.to_be_bytes());
    floats(&mut bytes, &card.numbers());
    if lists_services(version) {
        let listed = card.services.listed();
        bytes.push(listed.len() as u8);
        for service in listed {
            bytes.extend(service.number.to_be_bytes());
            bytes.push(service.class);
        }
    }
    if has_floor_flag(version) {
        bytes.push(card.floor);
    }
    bytes
}

/// Card, zones and totals.
pub fn battery_bytes(version: u8, battery: &Battery) -> Vec<u8> {
    let mut bytes = card_bytes(version, &battery.card);
    state(&mut bytes, &battery.state);
    bytes
}

/// The kind and the call fields; before version 3 a type has one byte, the lower one.
pub fn call_bytes(version: u8, call: &Call) -> Vec<u8> {
    let mut bytes = vec![call.kind()];
    match call {
        Call::Demand(d) => {
            let [high, low] = d.service_type.to_be_bytes();
            if lists_services(version) {
                bytes.push(high);
            }
            bytes.extend([low, d.commit, d.control_on]);
            floats(&mut bytes, &[d.required, d.start]);
            optional(&mut bytes, d.return_temperature);
        }
        Call::Electric { power, target } => floats(&mut bytes, &[*power, *target]),
        Call::Hydronic(h) => {
            floats(&mut bytes, &[h.inlet, h.hours, h.flow, h.target, h.limit]);
            floats(&mut bytes, &[h.hex_a, h.hex_b, h.velocity, h.diameter]);
        }
        Call::StandingLoss | Call::CloseTimestep | Call::StateOfCharge => {}
        Call::ChargeEnergyDemand { flow_maximum, target } => {
            optional(&mut bytes, *flow_maximum);
            float(&mut bytes, *target);
        }
    }
    bytes
}

/// A line: the length of what follows it, then that.
fn line(content: Vec<u8>) -> Vec<u8> {
    let length = u16::try_from(content.len()).expect("a line is shorter than 65,536 bytes");
    let mut bytes = length.to_be_bytes().to_vec();
    bytes.extend(content);
    bytes
}

/// What opening leaves on a sheet: the version and line 0.
pub fn opening(version: u8, card: &Card) -> Vec<u8> {
    let mut bytes = vec![version];
    bytes.extend(line(card_bytes(version, card)));
    bytes
}

/// A call line with its length.
pub fn call_line(version: u8, call: &Call, answer: &Answer) -> Vec<u8> {
    line_with(&call_bytes(version, call), answer)
}

/// A call line with its length and the call's own bytes.
pub fn line_with(call: &[u8], answer: &Answer) -> Vec<u8> {
    let mut content = call.to_vec();
    content.push(answer.refusal);
    float(&mut content, answer.energy);
    optional(&mut content, answer.outlet);
    float(&mut content, answer.time);
    content.extend(answer.substeps.to_be_bytes());
    state(&mut content, &answer.state);
    line(content)
}
