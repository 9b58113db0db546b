//! A library against the independent entries and auditor: results, lines, records, and every
//! byte that must stay, also around what is lent. Each input is lent twice, with its end and with
//! its start against a page that can't be read.

use crate::auditor::{self, Fields, Verdict};
use crate::damage::{self, Sheet};
use crate::entries::{self, Step};
use crate::generate;
use crate::lent::{Flush, Lent, LentValue};
use crate::library::Library;
use crate::model::{is_known, Battery};
use crate::own::{self, Record, Shown};
use crate::random::Random;
use crate::raw::{self, Calling, Opening};
use crate::reading;
use std::collections::BTreeMap;
use std::fmt;

/// Disagreements that are printed with their bytes; the others are only counted.
const PRINTED: u64 = 20;

/// What a comparison came to.
#[derive(Default)]
pub struct Report {
    /// How often each entry gave each refusal, 0 for none.
    counts: BTreeMap<(&'static str, u8), u64>,
    /// Inputs compared.
    pub inputs: u64,
    /// Inputs on which the two differ.
    pub disagreements: u64,
    /// Inputs whose making settles another result than the independent one.
    pub surprises: u64,
}

impl Report {
    pub fn count(&self, entry: &'static str, refusal: u8) -> u64 {
        self.counts.get(&(entry, refusal)).copied().unwrap_or(0)
    }

    pub fn is_clean(&self) -> bool {
        self.disagreements == 0 && self.surprises == 0
    }

    fn add(&mut self, entry: &'static str, refusal: u8) {
        self.inputs += 1;
        *self.counts.entry((entry, refusal)).or_default() += 1;
    }

    /// Counts a failure and prints the first ones.
    fn fail(&mut self, as_known: bool, as_other: bool, text: impl FnOnce() -> String) {
        self.surprises += u64::from(!as_known);
        self.disagreements += u64::from(!as_other);
        if !(as_known && as_other) && self.surprises + self.disagreements <= PRINTED {
            println!("{}", text());
        }
    }
}

impl fmt::Display for Report {
    fn fmt(&self, f: &mut fmt::Formatter<'_>) -> fmt::Result {
        let mut last = "";
        for ((entry, refusal), count) in &self.counts {
            if *entry != last {
                writeln!(f, "{entry}")?;
                last = entry;
            }
            writeln!(f, "{refusal:6}{count:10}")?;
        }
        write!(
            f,
            "{} inputs, {} disagreements, {} against their making",
            self.inputs, self.disagreements, self.surprises
        )
    }
}

pub fn hex(bytes: &[u8]) -> String {
    bytes.iter().map(|byte| format!("{byte:02x}")).collect()
}

// ---- Entries

/// An entry's result, and what it was lent as it left it.
#[derive(PartialEq)]
struct Outcome {
    result: u8,
    record: Vec<u8>,
    sheet: Vec<u8>,
    /// Card or call.
    read: Vec<u8>,
    /// Whether what lies beside these is as it was.
    guarded: bool,
}

impl Outcome {
    /// Before an entry.
    fn lend(record: &[u8], sheet: &[u8], read: &[u8]) -> Self {
        let (record, sheet, read) = (record.to_vec(), sheet.to_vec(), read.to_vec());
        Outcome { result: 0, record, sheet, read, guarded: true }
    }

    /// After an entry that is lent the same, flush against a page that can't be read.
    fn after(&self, flush: Flush, entry: impl Fn(&[u8], &mut [u8], &mut [u8]) -> u8) -> Self {
        let mut record = Lent::new(&self.record, flush);
        let mut sheet = Lent::new(&self.sheet, flush);
        let read = Lent::new(&self.read, flush);
        let result = entry(read.bytes(), record.bytes_mut(), sheet.bytes_mut());
        let guarded = [&record, &sheet, &read].iter().all(|lent| lent.is_guarded());
        let [record, sheet, read] = [record, sheet, read].map(|lent| lent.bytes().to_vec());
        Outcome { result, record, sheet, read, guarded }
    }

    fn text(&self, who: &str) -> String {
        let Outcome { result, record, sheet, guarded, .. } = self;
        let beside = if *guarded { "" } else { ", bytes beside them changed" };
        let (record, sheet) = (hex(record), hex(sheet));
        format!("  {who}: result {result}{beside}\n    record {record}\n    sheet {sheet}")
    }
}

fn failure(
    what: &str,
    version: u8,
    lent: &Outcome,
    ours: &Outcome,
    theirs: Option<&Outcome>,
) -> String {
    format!(
        "{what}, version {version}\n  card or call {}\n  record {}\n  sheet {}\n{}\n{}",
        hex(&lent.read),
        hex(&lent.record),
        hex(&lent.sheet),
        ours.text("independent"),
        theirs.map_or(String::new(), |theirs| theirs.text("library"))
    )
}

/// Compares an opening.
pub fn check_open(library: &impl Library, input: &Opening, report: &mut Report) {
    let version = input.version;
    let lend = || Outcome::lend(&input.record, &input.sheet, &input.card);
    let mut ours = lend();
    ours.result = entries::open(version, &ours.read, &mut ours.record, &mut ours.sheet);
    let theirs = |flush: &Flush| {
        lend().after(*flush, |card, record, sheet| library.open(version, card, record, sheet))
    };
    let other = library.lent().iter().map(theirs).find(|theirs| *theirs != ours);
    report.add("open", ours.result);
    report.fail(input.known.allows(ours.result), other.is_none(), || {
        failure("open", version, &lend(), &ours, other.as_ref())
    });
}

/// Compares a call; the battery that the independent entry left.
pub fn check_call(
    library: &impl Library,
    step: Step,
    input: &Calling,
    report: &mut Report,
) -> Option<Battery> {
    let version = input.version;
    let lend = || Outcome::lend(&input.record, &input.sheet, &input.call);
    let mut ours = lend();
    ours.result = entries::call_by(step, version, &mut ours.record, &ours.read, &mut ours.sheet);
    let theirs = |flush: &Flush| {
        lend().after(*flush, |call, record, sheet| library.call(version, record, call, sheet))
    };
    let other = library.lent().iter().map(theirs).find(|theirs| *theirs != ours);
    report.add("call", ours.result);
    report.fail(input.known.allows(ours.result), other.is_none(), || {
        failure("call", version, &lend(), &ours, other.as_ref())
    });
    // An unknown version reads nothing.
    is_known(version).then(|| reading::battery(version, &ours.record)).flatten()
}

/// Compares a call on the caller's own record.
pub fn check_advance(
    advance: impl Fn(u8, &mut Record, &[u8]) -> Shown,
    step: Step,
    version: u8,
    record: &Record,
    call: &[u8],
    report: &mut Report,
) {
    let mut ours = *record;
    let expected = own::advance(step, version, &mut ours, call);
    report.add("advance", expected.refusal);
    // What it shows, the record that it leaves, and whether the rest is as it was.
    let theirs = |flush: Flush| {
        let read = Lent::new(call, flush);
        let mut lent = LentValue::new(*record, flush);
        let shown = advance(version, lent.value_mut(), read.bytes());
        let kept = lent.is_guarded() && read.is_guarded() && read.bytes() == call;
        (shown.words(), lent.value_mut().words(), kept)
    };
    let same = (expected.words(), ours.words(), true);
    let other = Flush::BOTH.into_iter().map(theirs).find(|theirs| *theirs != same);
    report.fail(true, other.is_none(), || {
        let lent = (hex(call), record.words());
        format!(
            "advance, version {version}, of call and record {lent:x?}\n  independent: {same:x?}\n  library: {other:x?}"
        )
    });
}

/// Compares `open` and `call` on at least `count` inputs, in lists.
pub fn entries(library: &impl Library, step: Step, count: u64, seed: u64) -> Report {
    let mut random = Random::new(seed);
    let mut report = Report::default();
    while report.inputs < count {
        check_open(library, &raw::opening(&mut random), &mut report);
        let version = generate::version(&mut random);
        let card = generate::card_of(&mut random, version);
        let mut battery = generate::battery(&mut random, &card);
        for _ in 0..generate::list_length(&mut random) {
            let input = raw::calling(&mut random, version, &battery);
            // A list goes on from its last good battery.
            battery = check_call(library, step, &input, &mut report).unwrap_or(battery);
        }
    }
    report
}

// ---- Audit

/// Compares the verdicts on a sheet.
pub fn check_sheet(library: &impl Library, step: Step, sheet: &Sheet, report: &mut Report) {
    let verdict = auditor::audit_by(step, &sheet.bytes);
    let ours = auditor::limited(&sheet.bytes, |_| verdict);
    let theirs = |flush: &Flush| {
        let lent = Lent::new(&sheet.bytes, *flush);
        let (word, whole) = (library.audit(lent.bytes()), library.audit_whole(lent.bytes()));
        (word, whole, lent.is_guarded() && lent.bytes() == sheet.bytes)
    };
    let sound = (ours.word(), verdict.fields(), true);
    let other = library.lent().iter().map(theirs).find(|theirs| *theirs != sound);
    report.add("audit", ours.refusal());
    report.fail(sheet.known.allows(&verdict), other.is_none(), || {
        let (word, whole, _) = other.unwrap_or(sound);
        sheet_failure(sheet, &ours, word, whole)
    });
}

fn sheet_failure(sheet: &Sheet, ours: &Verdict, theirs: u64, whole: Fields) -> String {
    format!(
        "audit of '{}', known {:?}\n  independent: {ours}\n  library: line {} refusal {}; of any length: {whole:?}\n  sheet {}",
        sheet.what,
        sheet.known,
        theirs / 256,
        theirs % 256,
        hex(&sheet.bytes)
    )
}

/// Compares the audit on at least `count` sheets, with their damaged copies.
pub fn audit(library: &impl Library, step: Step, count: u64, seed: u64) -> Report {
    let mut random = Random::new(seed);
    let mut report = Report::default();
    let mut families = 0;
    while report.inputs < count {
        for sheet in damage::family(&mut random, families) {
            check_sheet(library, step, &sheet, &mut report);
        }
        families += 1;
    }
    report
}
