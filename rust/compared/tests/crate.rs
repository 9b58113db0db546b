//! The oracle's lists, cards, calls and sheets replayed through the crate.

use compared::{assert_same, battery, call, card, version};
use heat_battery::{audit, explain, ffi, is_too_long, Answer, Battery, Call, Card, Explanation};
use heat_battery::{Kind, Refusal, Sheet, Verdict, Version};
use oracle::random::Random;
use oracle::{auditor, damage, generate, model, plain, raw, sheet, sheets};

/// 10,000, or as many as the variable HEAT_BATTERY_LISTS says.
fn lists() -> u64 {
    let set = std::env::var("HEAT_BATTERY_LISTS").ok();
    set.map_or(10_000, |count| count.parse().expect("HEAT_BATTERY_LISTS is a number"))
}

#[test]
fn the_versions_are_the_oracles() {
    assert_eq!(Version::ALL.map(|version| version.number()), model::VERSIONS);
}

/// Demands for numbers above 3: answered ones by their class, refused ones and trials of a number
/// that isn't listed.
#[derive(Debug, Default)]
struct Numbered {
    listed: [u64; 3],
    refused: u64,
    tried: u64,
}

impl Numbered {
    fn add(&mut self, card: &Card, call: &Call, answer: &Answer) {
        let Call::Demand { service, commit, .. } = *call else { return };
        if !service.is_numbered() {
            return;
        }
        match (card.class(service), answer.refusal) {
            (Some(class), None) => self.listed[usize::from(class.number()) - 1] += 1,
            (None, Some(Refusal::NoService)) => self.refused += 1,
            (None, None) if !commit && answer.substeps > 0 => self.tried += 1,
            _ => {}
        }
        assert_eq!(card.unlisted(call).is_some(), card.class(service).is_none());
    }

    /// Each of them occurred, if there were many lists.
    fn end(&self) {
        let [regular, space, direct] = self.listed;
        let least = [regular, space, direct, self.refused, self.tried].into_iter().min();
        assert!(least > Some(lists() / 200), "{self:?}");
    }
}

/// Zones of answered standing losses with the floor: those that stop there, that end above it, and
/// that were at it or under it before.
#[derive(Debug, Default)]
struct Floored {
    stopped: u64,
    above: u64,
    stayed: u64,
}

impl Floored {
    fn add(&mut self, card: &Card, before: &[f64], call: &Call, answer: &Answer) {
        if !card.floor || *call != Call::StandingLoss || answer.refusal.is_some() {
            return;
        }
        const FLOOR: f64 = Card::FLOOR_TEMPERATURE;
        for (before, after) in before.iter().zip(answer.zones.iter()) {
            match (*before > FLOOR, *after > FLOOR) {
                (true, true) => self.above += 1,
                (true, false) => self.stopped += u64::from(*after == FLOOR),
                (false, _) => self.stayed += u64::from(before.to_bits() == after.to_bits()),
            }
        }
    }

    /// Each of them occurred, if there were many lists.
    fn end(&self) {
        let least = [self.stopped, self.above, self.stayed].into_iter().min();
        assert!(least > Some(lists() / 200), "{self:?}");
    }
}

/// Lists from fresh batteries and from ones handed in: every answer, zone and total.
#[test]
fn answers_are_the_oracles() {
    let mut random = Random::new(1);
    let mut numbered = Numbered::default();
    let mut floored = Floored::default();
    for _ in 0..lists() {
        let version = version(&mut random);
        let drawn = generate::card_of(&mut random, version.number());
        let mut theirs = generate::battery(&mut random, &drawn);
        let mut ours = battery(version, &theirs);
        for _ in 0..generate::list_length(&mut random) {
            let next = generate::next_call(&mut random, version.number(), &theirs);
            let (answer, after) = plain::step(version.number(), &theirs, &next);
            let call = call(version, &next);
            let given = ours.answer(&call).expect("a call in range has a line");
            assert_same(&given, &answer, &next);
            assert_eq!(ours.as_bytes(), sheet::battery_bytes(version.number(), &after));
            numbered.add(ours.card(), &call, &given);
            floored.add(ours.card(), &theirs.state.zones, &call, &given);
            theirs = after;
        }
    }
    numbered.end();
    floored.end();
}

/// Lists from fresh batteries on sheets: every byte, and the audit of what is written.
#[test]
fn sheets_are_the_oracles() {
    let mut random = Random::new(2);
    for _ in 0..lists() / 5 {
        let version = version(&mut random);
        let drawn = generate::card_of(&mut random, version.number());
        let mut theirs = model::Battery::fresh(&drawn);
        let mut ours = Sheet::open_as(version, &card(version, &drawn)).expect("an accepted card");
        let mut bytes = sheet::opening(version.number(), &drawn);
        for _ in 0..generate::list_length(&mut random) {
            let next = generate::next_call(&mut random, version.number(), &theirs);
            let (answer, after) = plain::step(version.number(), &theirs, &next);
            let result = ours.call(&call(version, &next));
            assert_eq!(result.err().map_or(0, |refusal| refusal.number()), answer.refusal);
            bytes.extend(sheet::call_line(version.number(), &next, &answer));
            theirs = after;
        }
        assert_eq!(ours.as_bytes(), bytes);
        assert_eq!(ours.lines().count() as u64, ours.len());
        assert_eq!(audit(&bytes), Verdict::Accepted(ours.len()));
    }
}

/// One list of types 0 to 3 in all versions: the answers differ in the time of answered hydronic
/// charges only, which version 1 shows as 0; that a card lists services from version 3 on plays no
/// part, nor does the flag of version 4 where it is 0.
#[test]
fn versions_differ_in_the_time_of_hydronic_charges() {
    let mut random = Random::new(7);
    let mut timed = 0;
    for _ in 0..lists() / 5 {
        let drawn = generate::card(&mut random);
        let mut theirs = generate::battery(&mut random, &drawn);
        let [mut old, mut new] = [Version::One, Version::Two].map(|one| battery(one, &theirs));
        let services = generate::services(&mut random);
        let listing = model::Battery { card: model::Card { services, ..drawn }, ..theirs.clone() };
        let mut later = [Version::Three, Version::Four].map(|one| battery(one, &listing));
        for _ in 0..generate::list_length(&mut random) {
            let next = generate::next_call(&mut random, Version::Two.number(), &theirs);
            theirs = plain::step(new.version().number(), &theirs, &next).1;
            let call = call(Version::Two, &next);
            let [one, two] = [&mut old, &mut new].map(|battery| battery.answer(&call).unwrap());
            let is_timed = call.kind() == Kind::Hydronic && two.refusal.is_none();
            let time = if is_timed { 0.0 } else { two.time };
            assert_eq!(one, Answer { time, ..two }, "{call}");
            for battery in &mut later {
                assert_eq!(battery.answer(&call), Ok(two), "{call}");
            }
            assert_eq!(old.as_bytes(), new.as_bytes());
            timed += u64::from(is_timed && two.time > 0.0);
        }
    }
    assert!(timed > lists() / 10, "{timed} charges with a time");
}

/// Refusals 1 to 4 and 61, and the words for them.
#[test]
fn cards_are_refused_and_explained() {
    let mut random = Random::new(3);
    let (mut bad_services, mut bad_flags) = (0, 0);
    for _ in 0..100_000 {
        let version = version(&mut random);
        let drawn = generate::any_card_of(&mut random, version.number());
        let refusal = Refusal::from_number(plain::card_refusal(&drawn));
        let read = Card::from_bytes(version, &sheet::card_bytes(version.number(), &drawn));
        let found = read.and_then(|card| {
            let faults = card.faults();
            assert_eq!(faults.first().map(|fault| fault.refusal), refusal, "{faults:?}");
            assert_eq!(Battery::open_as(version, &card).err(), refusal);
            card.check()
        });
        assert_eq!(found.err(), refusal);
        bad_services += u32::from(refusal == Some(Refusal::BadServices));
        let is_flag = plain::card_refusal(&model::Card { floor: 0, ..drawn }) != 1;
        bad_flags += u32::from(refusal == Some(Refusal::CardOutOfRange) && is_flag);
    }
    assert!(bad_services > 1000, "{bad_services} cards with 61");
    assert!(bad_flags > 1000, "{bad_flags} cards with 1 for their flag");
}

/// Refusal 10 of calls, and the words for it; a refused call changes nothing.
#[test]
fn calls_are_refused_and_explained() {
    let mut random = Random::new(4);
    let (mut refused, mut answered) = (0, 0);
    while refused < 2_000 {
        let version = version(&mut random);
        let drawn = generate::card_of(&mut random, version.number());
        let theirs = generate::battery(&mut random, &drawn);
        let input = raw::calling(&mut random, version.number(), &theirs);
        let mut ours = battery(version, &theirs);
        let expected = oracle::reading::call(version.number(), &drawn, &input.call).is_none();
        let read = Call::from_bytes(version, &input.call);
        let explained = read.map_or(true, |call| !call.faults(version, ours.card()).is_empty());
        assert_eq!(explained, expected, "{:?}", input.call);
        let Ok(read) = read else { continue };
        let before = ours.clone();
        match ours.call(&read) {
            Err(Refusal::BadCall) => refused += 1,
            other => {
                assert!(!expected, "{other:?}");
                answered += 1;
            }
        }
        if expected {
            assert_eq!(ours.as_bytes(), before.as_bytes());
        }
    }
    assert!(answered > 2_000);
}

/// Batteries handed in: refusal 10 for bad ones.
#[test]
fn records_are_refused() {
    let mut random = Random::new(5);
    for _ in 0..50_000 {
        let version = version(&mut random);
        let drawn = generate::card_of(&mut random, version.number());
        let theirs = generate::battery(&mut random, &drawn);
        let record = raw::calling(&mut random, version.number(), &theirs).record;
        let good = oracle::reading::battery(version.number(), &record).is_some();
        let read = Battery::from_bytes(version, &record);
        assert_eq!(read.err(), (!good).then_some(Refusal::BadBattery));
    }
}

/// The verdict on damaged sheets, and that its explanation is of the same line.
#[test]
fn verdicts_are_the_oracles_and_explained() {
    let mut random = Random::new(6);
    let families = (0..400).flat_map(|index| damage::family(&mut random, index));
    let drawn = families.map(|sheet| sheet.bytes);
    let named = sheets::all().into_iter().map(|sheet| sheet.bytes);
    for bytes in drawn.chain(named) {
        let verdict = audit(&bytes);
        assert_eq!(verdict.to_string(), auditor::audit(&bytes).to_string());
        assert_eq!(ffi::audit(&bytes), auditor::audit_limited(&bytes).word());
        assert_eq!(is_too_long(&bytes), ffi::audit(&bytes) == 44);
        assert_eq!(explained(&bytes, verdict), verdict, "{:?}", explain(&bytes));
    }
}

/// The verdict that an explanation amounts to.
fn explained(bytes: &[u8], verdict: Verdict) -> Verdict {
    match explain(bytes) {
        Explanation::Agreement => match verdict {
            Verdict::Accepted(lines) => Verdict::Accepted(lines),
            Verdict::Refused { .. } => Verdict::Accepted(0),
        },
        Explanation::Damage(damage) => {
            Verdict::Refused { refusal: damage.refusal, line: damage.line }
        }
        Explanation::Differences { line, fields, .. } => {
            assert!(!fields.is_empty());
            Verdict::Refused { refusal: Refusal::Disagrees, line }
        }
    }
}

/// A sheet with little room: 11, and nothing is changed.
#[test]
fn a_sheet_without_room_refuses() {
    let drawn = card(Version::NEWEST, &generate::points_card());
    let open = |most| Sheet::open_within(Version::NEWEST, &drawn, most);
    assert_eq!(open(162).err(), Some(Refusal::NoRoom));
    let mut ours = open(163 + 81 + 80).expect("room to open");
    assert!(ours.call(&Call::StandingLoss).is_ok());
    let before = ours.clone();
    let bad = Call::Electric { power: -1.0, target: 1.0 };
    assert_eq!(ours.call(&bad), Err(Refusal::BadCall), "10 before 11");
    assert_eq!(ours.call(&Call::CloseTimestep), Err(Refusal::NoRoom));
    assert_eq!(ours.as_bytes(), before.as_bytes());
    assert_eq!(ours.battery().as_bytes(), before.battery().as_bytes());
    assert_eq!(audit(ours.as_bytes()), Verdict::Accepted(1));
}
