//! The judge against the plain implementation on random lists of calls.

use crate::generate;
use crate::judge;
use crate::model::{Answer, Battery, Call};
use crate::plain;
use crate::random::Random;
use std::fmt;

/// Refusals that a line can show, 0 for an answer.
const REFUSALS: [u8; 7] = [0, 20, 21, 22, 23, 24, 25];

/// What lists of calls came to, by kind and refusal.
#[derive(Default)]
pub struct Counts {
    pub calls: u64,
    pub lists: u64,
    pub substeps: u64,
    pub disagreements: u64,
    by_kind: [[u64; 7]; 7],
}

impl Counts {
    pub fn add(&mut self, call: &Call, answer: &Answer) {
        self.calls += 1;
        self.substeps += u64::from(answer.substeps);
        let column = REFUSALS.iter().position(|refusal| *refusal == answer.refusal);
        let column = column.expect("a call in range gets one of the refusals 20 to 25, or none");
        self.by_kind[usize::from(call.kind()) - 1][column] += 1;
    }
}

impl fmt::Display for Counts {
    fn fmt(&self, f: &mut fmt::Formatter<'_>) -> fmt::Result {
        writeln!(f, "kind   answered        20        21        22        23        24        25")?;
        for (kind, row) in self.by_kind.iter().enumerate() {
            write!(f, "{:4} ", kind + 1)?;
            for count in row {
                write!(f, "{count:10}")?;
            }
            writeln!(f)?;
        }
        write!(
            f,
            "{} lists, {} calls, {} substeps, {} disagreements",
            self.lists, self.calls, self.substeps, self.disagreements
        )
    }
}

/// Compares at least `count` calls; prints every disagreement.
pub fn run(count: u64, seed: u64) -> Counts {
    let mut random = Random::new(seed);
    let mut counts = Counts::default();
    while counts.calls < count {
        let version = generate::version(&mut random);
        let card = generate::card_of(&mut random, version);
        let mut battery = generate::battery(&mut random, &card);
        counts.lists += 1;
        for _ in 0..generate::list_length(&mut random) {
            let call = generate::next_call(&mut random, version, &battery);
            battery = compare(version, &battery, &call, &mut counts);
        }
    }
    counts
}

fn compare(version: u8, battery: &Battery, call: &Call, counts: &mut Counts) -> Battery {
    let (judged, after) = judge::step(version, battery, call);
    let (plain, _) = plain::step(version, battery, call);
    counts.add(call, &judged);
    if !judged.same_bits(&plain) {
        counts.disagreements += 1;
        println!("disagreement, version {version}\n{battery:?}\n{call:?}\njudge {judged:?}\nplain {plain:?}");
    }
    after
}
