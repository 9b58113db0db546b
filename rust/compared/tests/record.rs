//! The caller's own record against the byte entry: the same answer, zones and totals, bit for
//! bit, and the same refusals.

use compared::{battery, bits, version};
use heat_battery::{ffi, Answer, Battery, Call, Record, Refusal, Version};
use oracle::random::Random;
use oracle::{generate, model, raw, reading, sheet};
use std::collections::BTreeMap;

/// A number that a variable sets.
fn set(name: &str, otherwise: u64) -> u64 {
    let set = std::env::var(name).ok();
    set.map_or(otherwise, |text| text.parse().unwrap_or_else(|_| panic!("{name} is a number")))
}

/// Calls to compare: 100,000, or as many as the variable HEAT_BATTERY_CALLS says.
fn calls() -> u64 {
    set("HEAT_BATTERY_CALLS", 100_000)
}

/// Seed 1, or what the variable HEAT_BATTERY_SEED says.
fn random() -> Random {
    Random::new(set("HEAT_BATTERY_SEED", 1))
}

/// Every refusal of a call in a known version, and 0 for none.
const REFUSALS: [u8; 8] = [0, 10, 20, 21, 22, 23, 24, 25];

/// How often each refusal was given, 0 for none.
#[derive(Default)]
struct Counts(BTreeMap<u8, u64>);

impl Counts {
    fn add(&mut self, refusal: u8) {
        *self.0.entry(refusal).or_default() += 1;
    }

    fn all(&self) -> u64 {
        self.0.values().sum()
    }

    /// Prints them; every refusal that was expected occurred, if there were many.
    fn end(&self, what: &str, expected: &[u8]) {
        println!("{what}: {} calls, 0 disagreements, by refusal {:?}", self.all(), self.0);
        for refusal in expected {
            let found = self.0.contains_key(refusal);
            assert!(found || self.all() < 20_000, "no call with {refusal}");
        }
    }
}

// ---- The C entries, on any bytes

fn number_at(bytes: &[u8]) -> f64 {
    f64::from_bits(u64::from_be_bytes(bytes.try_into().expect("eight bytes")))
}

fn short_at(bytes: &[u8], at: usize) -> u16 {
    u16::from_be_bytes([bytes[at], bytes[at + 1]])
}

/// The bits of what stands in the places above the count: NaNs with a payload, an infinity, -0.
const ABOVE: [u64; 4] =
    [0x7ff0_0000_0000_0001, 0xfff8_dead_0000_beef, 0x7ff0_0000_0000_0000, 0x8000_0000_0000_0000];

/// The record of any bytes that are as long as a record of their first byte, up to 64 layers, and of
/// their count of services.
fn own(version: u8, bytes: &[u8]) -> Option<ffi::Battery> {
    let layers = *bytes.first().filter(|layers| **layers <= 64)?;
    let front = sheet::card_in_front(version, bytes)?;
    if bytes.len() != sheet::record_length(front) {
        return None;
    }
    let (behind, floor) = own_floor(version, &front[sheet::CARD_BYTES..]);
    let (services, listed, classes) = own_services(behind);
    let numbers = [&bytes[6..sheet::CARD_BYTES], &bytes[front.len()..]].concat();
    let mut numbers = numbers.chunks_exact(8).map(number_at);
    let mut next = || numbers.next().expect("a number");
    let card = ffi::Card {
        layers,
        units: short_at(bytes, 1),
        simultaneous: bytes[3],
        budget: short_at(bytes, 4),
        numbers: std::array::from_fn(|_| next()),
    };
    let above = |k: usize| f64::from_bits(ABOVE[k % ABOVE.len()]);
    let zones = std::array::from_fn(|k| if k < usize::from(layers) { next() } else { above(k) });
    let totals = std::array::from_fn(|_| next());
    let (count, numbers) = (layers, listed);
    Some(ffi::Battery { card, zones, count, totals, services, numbers, classes, floor })
}

/// What stands before the floor's flag behind a card's fields, and the flag; what no version reads may
/// be anything.
fn own_floor(version: u8, bytes: &[u8]) -> (&[u8], u8) {
    match bytes.split_last() {
        Some((flag, rest)) if model::has_floor_flag(version) => (rest, *flag),
        _ => (bytes, 3),
    }
}

type OwnServices = (u8, [u16; ffi::MOST_SERVICES], [u8; ffi::MOST_SERVICES]);

/// A count and its services, as far as there are places; what no version reads may be anything.
fn own_services(bytes: &[u8]) -> OwnServices {
    let above = |k: usize| [0, 3, 4, 40_000, 65_535][k % 5];
    let mut numbers = std::array::from_fn(above);
    let mut classes = std::array::from_fn(|k| above(k) as u8);
    let Some((count, entries)) = bytes.split_first() else { return (77, numbers, classes) };
    let places = numbers.iter_mut().zip(&mut classes);
    for ((number, class), entry) in places.zip(entries.chunks_exact(sheet::SERVICE_BYTES)) {
        (*number, *class) = (short_at(entry, 0), entry[2]);
    }
    (*count, numbers, classes)
}

/// Every bit of a record.
fn record_bits(battery: &ffi::Battery) -> Vec<u64> {
    let ffi::Card { layers, units, simultaneous, budget, numbers } = battery.card;
    let counts = [layers.into(), units.into(), simultaneous.into(), budget.into()];
    let floats = numbers.iter().chain(&battery.zones).chain(&battery.totals).map(|x| x.to_bits());
    let ffi::Battery { count, services, numbers, classes, floor, .. } = battery;
    let listed = numbers.iter().map(|number| u64::from(*number));
    let classes = classes.iter().map(|class| u64::from(*class));
    let bytes = [count, services, floor].map(|byte| u64::from(*byte));
    let counts = counts.into_iter().chain(bytes);
    counts.chain(floats).chain(listed).chain(classes).collect()
}

/// Refusal, energy, outlet's mark, outlet, time and substeps of a line, as on the sheet.
fn shown_bytes(shown: &ffi::Shown) -> Vec<u8> {
    let ffi::Shown { refusal, mark, substeps, energy, outlet, time } = *shown;
    let mut bytes = vec![refusal];
    bytes.extend(energy.to_bits().to_be_bytes());
    bytes.push(mark);
    bytes.extend(outlet.to_bits().to_be_bytes());
    bytes.extend(time.to_bits().to_be_bytes());
    bytes.extend(substeps.to_be_bytes());
    bytes
}

/// The two entries on one record and call: their refusal, and the record that they left. None
/// where the bytes are of no record's length.
fn compare(version: u8, record: &[u8], call: &[u8]) -> Option<(u8, Vec<u8>)> {
    let mut ours = own(version, record)?;
    let mut record = record.to_vec();
    let mut line = vec![0; 2 + call.len() + sheet::answer_length(ours.count)];
    let result = ffi::call(version, &mut record, call, &mut line);
    let shown = ffi::advance(version, &mut ours, call);
    let head = match result {
        10 | 40 => shown_bytes(&refused(result)),
        _ => line[2 + call.len()..][..sheet::ANSWER_HEAD_BYTES].to_vec(),
    };
    assert_eq!(shown_bytes(&shown), head, "{version} {record:?} {call:?}");
    let after = own(version, &record).expect("a record of the same length");
    assert_eq!(record_bits(&ours), record_bits(&after), "{version} {record:?} {call:?}");
    Some((result, record))
}

/// What a refused call shows.
fn refused(refusal: u8) -> ffi::Shown {
    ffi::Shown { refusal, mark: 0, substeps: 0, energy: 0.0, outlet: 0.0, time: 0.0 }
}

/// Lists with damaged records and calls and unknown versions between the good ones.
#[test]
fn the_two_entries_agree_on_any_bytes() {
    let mut random = random();
    let mut counts = Counts::default();
    while counts.all() < calls() {
        let version = generate::version(&mut random);
        let card = generate::card_of(&mut random, version);
        let mut theirs = generate::battery(&mut random, &card);
        for _ in 0..generate::list_length(&mut random) {
            let drawn = raw::calling(&mut random, version, &theirs);
            let Some((refusal, after)) = compare(drawn.version, &drawn.record, &drawn.call) else {
                continue;
            };
            counts.add(refusal);
            // A list goes on from its last good battery.
            theirs = reading::battery(version, &after).unwrap_or(theirs);
        }
    }
    counts.end("the C entries", &[&REFUSALS[..], &[40]].concat());
}

/// A count that is not the card's layers is refused with 10, and nothing is changed.
#[test]
fn another_count_is_refused() {
    let card = generate::points_card();
    for version in Version::ALL.map(|version| version.number()) {
        let bytes = sheet::battery_bytes(version, &model::Battery::fresh(&card));
        for count in (0..=255).filter(|count| *count != card.layers) {
            let mut battery = own(version, &bytes).expect("a record");
            battery.count = count;
            let before = record_bits(&battery);
            assert_eq!(ffi::advance(version, &mut battery, &[4]), refused(10));
            assert_eq!(record_bits(&battery), before);
        }
    }
}

// ---- Record and Battery

fn answer_bits(answer: &Answer) -> Vec<u64> {
    let refusal = answer.refusal.map_or(0, |refusal| refusal.number());
    let mut all = vec![refusal.into(), answer.substeps.into(), answer.outlet.is_some().into()];
    all.extend(bits(&[answer.figure(), answer.outlet.unwrap_or(0.0), answer.time]));
    all.extend(bits(&answer.zones));
    all.extend(bits(&answer.totals.numbers()));
    all
}

/// One call on both; the refusal.
fn call_both(record: &mut Record, battery: &mut Battery, call: &Call) -> u8 {
    let mut again = record.clone();
    let (shown, expected) = (record.answer(call), battery.answer(call));
    assert_eq!(shown.as_ref().map(answer_bits), expected.as_ref().map(answer_bits), "{call:?}");
    assert_eq!(Battery::from(&*record).as_bytes(), battery.as_bytes(), "{call:?}");
    let result = again.advance(call);
    assert_eq!(result.is_ok(), matches!(shown, Ok(Answer { refusal: None, .. })));
    assert!(again == *record, "{call:?}");
    result.err().map_or(0, |refusal| refusal.number())
}

/// Lists of typed calls, out of range now and then.
#[test]
fn a_record_answers_as_a_battery() {
    let mut random = random();
    let mut counts = Counts::default();
    while counts.all() < calls() {
        let version = version(&mut random);
        let card = generate::card_of(&mut random, version.number());
        let theirs = generate::battery(&mut random, &card);
        let mut ours = battery(version, &theirs);
        let mut record = Record::from(&ours);
        assert_eq!(record.card().to_bytes(version), ours.card().to_bytes(version));
        for _ in 0..generate::list_length(&mut random) {
            let now = reading::battery(version.number(), ours.as_bytes());
            let now = now.expect("a good battery");
            let drawn = raw::calling(&mut random, version.number(), &now).call;
            let Ok(call) = Call::from_bytes(version, &drawn) else { continue };
            counts.add(call_both(&mut record, &mut ours, &call));
        }
    }
    counts.end("Record and Battery", &REFUSALS);
}

/// `clone_from` leaves what `clone` gives, in all 64 places and all 32 of the services, whatever the
/// layers, services and floor of either record.
#[test]
fn a_record_goes_back() {
    let mut random = random();
    let mut draw = || {
        let version = version(&mut random);
        let card = generate::card_of(&mut random, version.number());
        Record::from(&battery(version, &generate::battery(&mut random, &card)))
    };
    let mut record = draw();
    for _ in 0..1000 {
        let kept = draw();
        record.clone_from(&kept);
        assert!(record == kept);
    }
}

/// Refusals 1 to 4 and 61 as for a battery, and the fresh one.
#[test]
fn a_record_opens_as_a_battery() {
    let mut random = random();
    for _ in 0..calls() {
        let version = version(&mut random);
        let drawn = generate::any_card_of(&mut random, version.number());
        let drawn = sheet::card_bytes(version.number(), &drawn);
        let Ok(card) = heat_battery::Card::from_bytes(version, &drawn) else { continue };
        let opened = Record::open_as(version, &card).map(|record| Battery::from(&record));
        let expected: Result<Battery, Refusal> = Battery::open_as(version, &card);
        let bytes = |battery: Result<Battery, Refusal>| {
            battery.map(|battery| (battery.version(), battery.as_bytes().to_vec()))
        };
        assert_eq!(bytes(opened), bytes(expected));
    }
}
