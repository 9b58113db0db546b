//! A card's bytes with any list behind its fields, and what opening says of them.

use heat_battery::{ffi, Card, Version};

/// The card's bytes with a list of any numbers and classes behind the fields, without a flag.
pub fn listing(card: &Card, services: &[(u16, u8)]) -> Vec<u8> {
    let fields = card.to_bytes(Version::NEWEST).unwrap()[..Card::BYTES].to_vec();
    let entries = services.iter().flat_map(|(number, class)| {
        let [high, low] = number.to_be_bytes();
        [high, low, *class]
    });
    fields.into_iter().chain([services.len() as u8]).chain(entries).collect()
}

/// So many services, rising.
pub fn rising(count: u16) -> Vec<(u16, u8)> {
    (0..count).map(|at| (4 + at, 1 + (at % 3) as u8)).collect()
}

/// What opening says of a card's bytes; refused, it changes nothing. The crate says the same.
pub fn opened(version: Version, bytes: &[u8]) -> u8 {
    let layers = bytes.first().copied().unwrap_or(0);
    let (mut record, mut sheet) =
        (vec![7; bytes.len() + 40 + 8 * usize::from(layers)], vec![7; bytes.len() + 3]);
    let refusal = ffi::open(version.number(), bytes, &mut record, &mut sheet);
    if refusal != 0 {
        assert!(record.iter().chain(&sheet).all(|byte| *byte == 7));
    }
    let read = Card::from_bytes(version, bytes).and_then(|card| {
        let first = card.faults().first().map(|fault| fault.refusal);
        assert_eq!(first, card.check().err());
        card.check()
    });
    assert_eq!(read.err().map_or(0, |refusal| refusal.number()), refusal);
    refusal
}
