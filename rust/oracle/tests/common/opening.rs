//! A card's opening by the oracle, and what must follow from it in the record, the audit and the
//! caller's own record.

use oracle::auditor::{audit_by, Verdict};
use oracle::entries::{self, call_by, STEPS};
use oracle::model::{Battery, Service, Services};
use oracle::own::{self, Record};
use oracle::{reading, sheet};

pub const UNTOUCHED: u8 = 0xee;

/// So many services: 4, 5, 6 and so on, all of one class.
pub fn many(count: u16) -> Services {
    let listed: Vec<Service> = (4..4 + count).map(|number| Service { number, class: 3 }).collect();
    Services::new(&listed)
}

/// What an opening gives, after all else that counts 1 to 4 and 61 has said the same: 10 of a record,
/// 41 of the audit, 10 of the caller's own record. A refused one changes nothing.
pub fn opened(version: u8, card: &[u8]) -> u8 {
    let (length, room) = (sheet::record_length(card), sheet::opening_length(card));
    let (mut record, mut lent) = (vec![UNTOUCHED; length], vec![UNTOUCHED; room]);
    let refusal = entries::open(version, card, &mut record, &mut lent);
    let line_0 = [&[version], &(card.len() as u16).to_be_bytes()[..], card].concat();
    let due = if refusal == 0 { (0, Verdict::Accepted(0)) } else { (10, Verdict::refused(41, 0)) };
    if refusal == 0 {
        assert_eq!((&record[..card.len()], &lent), (card, &line_0));
    } else {
        assert!(record.iter().chain(&lent).all(|byte| *byte == UNTOUCHED));
        record = [card, &vec![0; length - card.len()]].concat();
    }
    for step in STEPS {
        let (mut after, mut line) = (record.clone(), vec![UNTOUCHED; 900]);
        assert_eq!(call_by(step, version, &mut after, &[5], &mut line), due.0);
        assert_eq!(after, record);
        assert_eq!(audit_by(step, &line_0), due.1);
        if let Some(card) = reading::card(version, card).filter(|card| card.layers <= 64) {
            let mut own = Record::from(&Battery::fresh(&card));
            assert_eq!(own::advance(step, version, &mut own, &[5]).refusal, due.0);
        }
    }
    refusal
}
