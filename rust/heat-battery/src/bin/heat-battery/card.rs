//! `card check` and `card template`, and cards for the other commands.

use crate::arguments::Arguments;
use crate::failure::Failure;
use crate::files;
use crate::holds::{warnings, Holds};
use crate::output::{note, print};
use heat_battery::text::{self, Slips};
use heat_battery::{Call, Card, Looks, Refusal, Service};
use std::ffi::OsStr;

pub fn template(_: &Arguments) -> Result<(), Failure> {
    print(&Card::example().to_string())
}

pub fn check(arguments: &Arguments) -> Result<(), Failure> {
    let card = accepted(arguments.place(0))?;
    print(&format!(
        "accepted: {}, {}\n{}\n{}{}card {}\n",
        size(&card),
        span(&card),
        Holds::of(&card),
        services(&card),
        floor(&card),
        card.fingerprint()
    ))?;
    for words in warnings(&card) {
        note(&format!("warning: {words}"));
    }
    Ok(())
}

/// A number of things.
pub fn count(number: impl Into<u64>, thing: &str) -> String {
    match number.into() {
        1 => format!("1 {thing}"),
        number => format!("{number} {thing}s"),
    }
}

/// Layers and units.
pub fn size(card: &Card) -> String {
    format!("{}, {}", count(card.layers, "layer"), count(card.units, "unit"))
}

/// Temperatures that an installer asks for first.
fn span(card: &Card) -> String {
    format!(
        "melting {} to {} °C, empty at {} °C, full at {} °C",
        card.lower, card.upper, card.reference, card.max
    )
}

/// A line with the services that a card lists; empty where it lists none.
fn services(card: &Card) -> String {
    match card.services.is_empty() {
        true => String::new(),
        false => format!("services: {}\n", listed(&card.services)),
    }
}

/// A line that says where standing losses stop; empty where the card has no floor.
fn floor(card: &Card) -> String {
    match card.floor {
        true => format!("floor: {}\n", floor_words()),
        false => String::new(),
    }
}

/// What a floor does.
pub fn floor_words() -> String {
    format!("standing losses stop at {} °C", Card::FLOOR_TEMPERATURE)
}

/// Services in words: `12 space, 700 direct`
pub fn listed(services: &[Service]) -> String {
    let words: Vec<String> = services.iter().map(Service::to_string).collect();
    match words.is_empty() {
        true => "none".into(),
        false => words.join(", "),
    }
}

/// That a demand's service isn't listed, in words, where it isn't and the refusal is 21.
pub fn unlisted(card: &Card, call: &Call, refusal: Refusal) -> Option<String> {
    let number = card.unlisted(call).filter(|_| refusal == Refusal::NoService)?;
    Some(format!("service {number} isn't on the card's list: {}", listed(&card.services)))
}

/// The card of a file, where the engine opens a battery with it; else every reason why not. A
/// number that is out of range is a refusal, whatever its size.
pub fn accepted(path: &OsStr) -> Result<Card, Failure> {
    let refused = |refusal: Refusal, slips: &Slips| {
        let reasons = slips.to_string().replace('\n', "\n  ");
        files::refused(path, format!("card refused, {refusal}\n  {reasons}"))
    };
    let listed =
        text::card(&files::text(path, Looks::Card)?).map_err(|slips| match slips.refusal() {
            Some(refusal) => refused(refusal, &slips),
            None => files::trouble(path, format!("no card:\n{slips}")),
        })?;
    match listed.card.check() {
        Ok(()) => Ok(listed.card),
        Err(refusal) => Err(refused(refusal, &listed.faults())),
    }
}
