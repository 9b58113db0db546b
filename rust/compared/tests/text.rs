//! The text formats: the oracle's lists there and back.

use heat_battery::{read, text, Call, Card, Sheet, Version};
use oracle::random::Random;
use oracle::{generate, model, plain};

fn listed(list: &str) -> Vec<Call> {
    text::calls(list).expect("a list").into_iter().map(|listed| listed.call).collect()
}

fn run(version: Version, card: &Card, calls: &[Call]) -> Vec<u8> {
    let mut sheet = Sheet::open_as(version, card).expect("an accepted card");
    for call in calls {
        sheet.answer(call).expect("a call in range has a line");
    }
    sheet.into_bytes()
}

fn bytes(version: Version, calls: &[Call]) -> Vec<Vec<u8>> {
    calls.iter().map(|call| call.to_bytes(version).expect("a call of the version")).collect()
}

/// A random list of the oracle's from a fresh battery.
fn list(random: &mut Random) -> (Version, Card, Vec<Call>) {
    let version = compared::version(random);
    let drawn = generate::card_of(random, version.number());
    let mut battery = model::Battery::fresh(&drawn);
    let mut calls = Vec::new();
    for _ in 0..generate::list_length(random) {
        let next = generate::next_call(random, version.number(), &battery);
        battery = plain::step(version.number(), &battery, &next).1;
        calls.push(compared::call(version, &next));
    }
    (version, compared::card(version, &drawn), calls)
}

/// 10,000 lists: text, sheet, text again, and the sheet once more.
#[test]
fn lists_go_there_and_back() {
    let mut random = Random::new(11);
    for _ in 0..10_000 {
        let (version, card, calls) = list(&mut random);
        let card_text = card.to_string();
        let calls_text = text::list(calls.iter().copied());
        let again: Card = card_text.parse().expect("a card");
        assert_eq!(again.to_bytes(version), card.to_bytes(version));
        assert_eq!(bytes(version, &listed(&calls_text)), bytes(version, &calls));

        let sheet = run(version, &again, &listed(&calls_text));
        let (version_read, card_read, lines) = read(&sheet).expect("a sheet");
        assert_eq!(version_read, version);
        let calls_read: Vec<Call> = lines.map(|line| line.expect("a line").call).collect();
        assert_eq!(card_read.to_string(), card_text);
        assert_eq!(text::list(calls_read), calls_text);
    }
}

/// Any list of services comes back from text, accepted or not, with or without a floor behind it; one
/// that is refused is said.
#[test]
fn services_go_there_and_back() {
    let mut random = Random::new(13);
    let (mut accepted, mut refused, mut floored) = (0, 0, 0);
    for at in 0..40_000 {
        let version = [Version::Three, Version::Four][at % 2];
        let drawn = generate::any_card_of(&mut random, version.number());
        let bytes = oracle::sheet::card_bytes(version.number(), &drawn);
        // An unknown class has no name, a flag is 0 or 1.
        let Ok(card) = Card::from_bytes(version, &bytes) else { continue };
        let listed = text::card(&card.to_string());
        if card.faults().iter().any(|fault| fault.refusal.number() == 1) {
            continue; // a number out of its bytes' range, or NaN with a payload
        }
        let listed = listed.expect("a card");
        assert_eq!(listed.card.to_bytes(version).expect("a card"), bytes);
        assert_eq!(listed.services.len(), card.services.len());
        let refusal = listed.card.check().err();
        assert_eq!(listed.faults().refusal(), refusal);
        match refusal {
            None => {
                accepted += usize::from(!card.services.is_empty());
                floored += usize::from(card.floor);
            }
            Some(refusal) => refused += usize::from(refusal.number() == 61),
        }
    }
    assert!(accepted > 1000 && refused > 300, "{accepted} accepted, {refused} refused with 61");
    assert!(floored > 1000, "{floored} with a floor");
}

/// Any bits of a number but a NaN's payload come back from text.
#[test]
fn numbers_read_back_exactly() {
    let mut random = Random::new(12);
    for _ in 0..200_000 {
        let drawn =
            if random.one_in(4) { random.odd_number() } else { f64::from_bits(random.word()) };
        let call = Call::Electric { power: drawn, target: 0.0 };
        let again: Call = call.to_string().parse().expect("a call");
        match drawn.is_nan() {
            true => assert!(again.to_string().contains("NaN")),
            false => assert_eq!(bytes(Version::One, &[again]), bytes(Version::One, &[call])),
        }
    }
}
