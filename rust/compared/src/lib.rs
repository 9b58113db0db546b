//! The crate and the command against the oracle; here, the oracle's cards, calls and answers beside the crate's.

use heat_battery::{Answer, Battery, Call, Card, Totals, Version};
use oracle::random::Random;
use oracle::{generate, model, sheet};

/// A known version, drawn.
pub fn version(random: &mut Random) -> Version {
    Version::from_number(generate::version(random)).expect("a known version")
}

pub fn card(version: Version, card: &model::Card) -> Card {
    let bytes = sheet::card_bytes(version.number(), card);
    let read = Card::from_bytes(version, &bytes).expect("an accepted card");
    assert_eq!(read.to_bytes(version).expect("a card of the version"), bytes);
    assert_eq!(read.bytes(version), bytes.len());
    read
}

pub fn call(version: Version, call: &model::Call) -> Call {
    let bytes = sheet::call_bytes(version.number(), call);
    let read = Call::from_bytes(version, &bytes).expect("a call in range");
    assert_eq!(read.to_bytes(version).expect("a call of the version"), bytes);
    assert_eq!(read.kind().bytes(version), bytes.len());
    read
}

/// The battery by its state and by its bytes, which are the same.
pub fn battery(version: Version, battery: &model::Battery) -> Battery {
    let totals = Totals::from_numbers(battery.state.totals.numbers());
    let card = card(version, &battery.card);
    let read = Battery::with_state(version, &card, &battery.state.zones, &totals);
    let read = read.expect("a good battery");
    let bytes = sheet::battery_bytes(version.number(), battery);
    assert_eq!(read.as_bytes(), bytes);
    let again = Battery::from_bytes(version, &bytes).expect("a good battery");
    assert_eq!(again.as_bytes(), bytes);
    read
}

pub fn bits(numbers: &[f64]) -> Vec<u64> {
    numbers.iter().map(|x| x.to_bits()).collect()
}

/// The same answer, zones and totals, bit for bit.
pub fn assert_same(ours: &Answer, theirs: &model::Answer, what: &dyn std::fmt::Debug) {
    let refusal = ours.refusal.map_or(0, |refusal| refusal.number());
    assert_eq!(refusal, theirs.refusal, "refusal of {what:?}");
    assert_eq!(ours.substeps, theirs.substeps, "substeps of {what:?}");
    let outlet = |x: Option<f64>| x.map(f64::to_bits);
    assert_eq!(outlet(ours.outlet), outlet(theirs.outlet), "outlet of {what:?}");
    let pairs = [
        (bits(&[ours.figure()]), bits(&[theirs.energy]), "energy"),
        (bits(&[ours.time]), bits(&[theirs.time]), "time"),
        (bits(&ours.zones), bits(&theirs.state.zones), "zones"),
        (bits(&ours.totals.numbers()), bits(&theirs.state.totals.numbers()), "totals"),
    ];
    for (ours, theirs, name) in pairs {
        assert_eq!(ours, theirs, "{name} of {what:?}");
    }
}
