//! Records of a vector file, as VECTORS.md lays them out.

use crate::model::{Answer, Battery, Call, Card, Demand, Hydronic};

/// The one NaN of vector files.
pub const NAN: u64 = 0x7ff8000000000000;
/// The most words that a record has.
pub const MOST_WORDS: usize = 480;
/// A record that sets state, version and floor and has no outputs.
pub const START: u16 = 50;

#[derive(Clone, Debug, PartialEq)]
pub struct Record {
    pub function: u16,
    pub words: Vec<u64>,
}

/// Words are added in order, inputs first.
impl Record {
    pub fn new(function: u16) -> Self {
        Record { function, words: Vec::new() }
    }

    pub fn word(mut self, word: u64) -> Self {
        self.words.push(word);
        self
    }

    pub fn flag(self, flag: bool) -> Self {
        self.word(u64::from(flag))
    }

    pub fn float(self, x: f64) -> Self {
        self.word(if x.is_nan() { NAN } else { x.to_bits() })
    }

    pub fn floats(self, items: &[f64]) -> Self {
        items.iter().fold(self, |record, x| record.float(*x))
    }

    /// A count, then as many numbers.
    pub fn counted(self, items: &[f64]) -> Self {
        self.word(items.len() as u64).floats(items)
    }

    /// A mark, and the number or 0.
    pub fn optional(self, x: Option<f64>) -> Self {
        self.flag(x.is_some()).float(x.unwrap_or(0.0))
    }

    /// 23 words.
    pub fn card(self, card: &Card) -> Self {
        self.word(u64::from(card.layers))
            .word(u64::from(card.units))
            .word(u64::from(card.simultaneous))
            .word(u64::from(card.budget))
            .floats(&card.numbers())
    }

    pub fn battery(self, battery: &Battery) -> Self {
        self.card(&battery.card)
            .counted(&battery.state.zones)
            .floats(&battery.state.totals.numbers())
    }

    /// The kind and the call fields in document 01's order.
    pub fn call(self, call: &Call) -> Self {
        let record = self.word(u64::from(call.kind()));
        match call {
            Call::Demand(demand) => record.demand(demand),
            Call::Electric { power, target } => record.floats(&[*power, *target]),
            Call::Hydronic(hydronic) => record.hydronic(hydronic),
            Call::StandingLoss | Call::CloseTimestep | Call::StateOfCharge => record,
            Call::ChargeEnergyDemand { flow_maximum, target } => {
                record.optional(*flow_maximum).float(*target)
            }
        }
    }

    fn demand(self, demand: &Demand) -> Self {
        self.word(u64::from(demand.service_type))
            .word(u64::from(demand.commit))
            .word(u64::from(demand.control_on))
            .float(demand.required)
            .float(demand.start)
            .optional(demand.return_temperature)
    }

    fn hydronic(self, hydronic: &Hydronic) -> Self {
        self.floats(&[
            hydronic.inlet,
            hydronic.hours,
            hydronic.flow,
            hydronic.target,
            hydronic.limit,
            hydronic.hex_a,
            hydronic.hex_b,
            hydronic.velocity,
            hydronic.diameter,
        ])
    }

    pub fn answer(self, answer: &Answer) -> Self {
        self.word(u64::from(answer.refusal))
            .float(answer.energy)
            .optional(answer.outlet)
            .float(answer.time)
            .word(u64::from(answer.substeps))
            .floats(&answer.state.zones)
            .floats(&answer.state.totals.numbers())
    }

    pub fn write(&self, bytes: &mut Vec<u8>) {
        assert!((1..=MOST_WORDS).contains(&self.words.len()));
        bytes.extend(self.function.to_be_bytes());
        bytes.extend((self.words.len() as u16).to_be_bytes());
        for word in &self.words {
            bytes.extend(word.to_be_bytes());
        }
    }
}

/// The records of a vector file; None where its bytes are no sequence of records.
pub fn read_all(mut bytes: &[u8]) -> Option<Vec<Record>> {
    let mut records = Vec::new();
    while !bytes.is_empty() {
        let (function, rest) = bytes.split_first_chunk::<2>()?;
        let (count, rest) = rest.split_first_chunk::<2>()?;
        let length = 8 * usize::from(u16::from_be_bytes(*count));
        let words = rest.get(..length)?;
        records.push(Record {
            function: u16::from_be_bytes(*function),
            words: words.chunks_exact(8).map(word_of).collect(),
        });
        bytes = &rest[length..];
    }
    Some(records)
}

fn word_of(bytes: &[u8]) -> u64 {
    bytes.iter().fold(0, |word, byte| word << 8 | u64::from(*byte))
}
