//! The floor of standing losses: the figures of document 02's request Six, the crate and the text.

mod common {
    pub mod figures;
    pub mod opening;
}

use common::figures::{POINTS, WET};
use common::opening::{listing, opened, rising};
use heat_battery::{audit, explain, ffi, looks, read, text, Explanation, Looks, Verdict};
use heat_battery::{Answer, Battery, Call, Card, Record, Refusal, Sheet, Totals, Version};
use heat_battery::{Service, ServiceClass, ServiceType, Value};

const LOSS: Call = Call::StandingLoss;

/// The points' card with a floor.
fn floored() -> Card {
    Card { floor: true, ..POINTS }
}

/// What a battery with a floor answers as a battery, as a record and, if it is fresh, on a sheet: the
/// same.
fn answer(battery: &Battery, call: &Call) -> Answer {
    let (version, card) = (battery.version(), battery.card());
    let mut after = battery.clone();
    let answer = after.answer(call).unwrap();
    let mut record = Record::from(battery);
    assert_eq!(record.answer(call), Ok(answer));
    assert_eq!(Battery::from(&record), after);
    if Battery::open_as(version, card).unwrap() == *battery {
        let mut sheet = Sheet::open_as(version, card).unwrap();
        assert_eq!(sheet.answer(call), Ok(answer));
        assert_eq!(audit(sheet.as_bytes()), Verdict::Accepted(1));
        assert_eq!(explain(sheet.as_bytes()), Explanation::Agreement);
        let (version_read, card_read, mut lines) = read(sheet.as_bytes()).unwrap();
        assert_eq!((version_read, &card_read), (version, card));
        assert_eq!(lines.next().unwrap().unwrap().answer, answer);
    }
    answer
}

/// The loss of a fresh battery of the newest version.
fn loss(card: &Card) -> Answer {
    answer(&Battery::open(card).unwrap(), &LOSS)
}

/// The same without the floor.
fn without(card: &Card) -> Answer {
    loss(&Card { floor: false, ..card.clone() })
}

/// The loss of a battery with zones of the caller's.
fn loss_of(card: &Card, zones: &[f64]) -> Answer {
    answer(&Battery::with_state(Version::Four, card, zones, &Totals::default()).unwrap(), &LOSS)
}

// ---- The figures

/// Of 900 kJ it has 424.
#[test]
fn a_loss_stops_at_the_floor() {
    let lost = loss(&floored());
    assert_eq!((lost.energy, &lost.zones[..]), (0.11777777777777777, &[16.0][..]));
    assert_eq!((lost.energy, lost.substeps), (424.0 / 3600.0, 1));
    let lost = without(&floored());
    assert_eq!((lost.energy, &lost.zones[..]), (0.25, &[-103.0][..]));
}

/// An update that ends at exactly 16 doesn't end under the floor: all counts, though less is held.
#[test]
fn an_end_at_the_floor_counts_whole() {
    let card = Card { start: 16.5, losses: 0.06666666666666668, ..floored() };
    let lost = loss(&card);
    assert_eq!((lost.energy, &lost.zones[..]), (2.0000000000000004 / 3600.0, &[16.0][..]));
    assert_eq!(lost, without(&card));
}

/// So little is lost that the update leaves the zone: 6e-8 kJ count, 4e-9 are held.
#[test]
fn a_loss_that_moves_nothing_counts_whole() {
    let card = Card { start: 16.000000001, losses: 1.0, ..floored() };
    let lost = loss(&card);
    assert_eq!((lost.energy, &lost.zones[..]), (1.666666804567285e-11, &[16.000000001][..]));
    assert_eq!(lost, without(&card));
}

/// The loss, 298.2 kJ, is less than the 298.20000000000005 held, and yet the update ends below 16.
#[test]
fn no_more_than_the_loss_is_taken() {
    let card = Card { below: 1.3, start: 56.3, losses: 0.12332506203473946, ..floored() };
    let lost = loss(&card);
    assert_eq!((lost.energy, &lost.zones[..]), (0.08283333333333333, &[16.0][..]));
    assert_eq!(*without(&card).zones, [15.999999999999986]);
}

/// What was taken, not the loss minus the rest.
#[test]
fn the_energy_is_what_was_taken() {
    let lost = loss(&Card { start: 18.7, losses: 0.86, ..floored() });
    assert_eq!((lost.energy, &lost.zones[..]), (0.002999999999999999, &[16.0][..]));
}

/// A loss without end takes what is held.
#[test]
fn an_infinite_loss_is_answered() {
    let card = Card { losses: 1000.0, timestep: 24.0, ..floored() };
    let lost = loss_of(&card, &[1e305]);
    assert_eq!((lost.refusal, &lost.zones[..]), (None, &[16.0][..]));
    assert_eq!(lost.energy, 2e305 / 3600.0);
    let lost = loss_of(&Card { floor: false, ..card }, &[1e305]);
    assert_eq!((lost.refusal, &lost.zones[..]), (Some(Refusal::NotFinite), &[1e305][..]));
}

#[test]
fn what_zones_lose_is_summed_by_sum2() {
    let lost = loss(&Card { layers: 8, start: 76.3, losses: 1.0, ..floored() });
    assert_eq!((lost.energy, &lost.zones[..]), (0.11794444444444445, &[16.0; 8][..]));
}

/// Each zone by itself: those at or under the floor stay, one stops there, one ends above.
#[test]
fn zones_at_or_under_the_floor_stay() {
    let card = Card { layers: 5, losses: 0.5, ..floored() };
    let lost = loss_of(&card, &[-20.0, 16.0, 16.2, 15.999999999999998, 70.0]);
    let plain = loss_of(&Card { floor: false, ..card.clone() }, &[16.0, 16.0, 16.0, 16.0, 70.0]);
    assert_eq!(lost.zones[..3], [-20.0, 16.0, 16.0]);
    assert_eq!(lost.zones[3..], [15.999999999999998, plain.zones[4].max(16.0)]);
    // A battery that is cold already loses nothing, however often it is asked.
    let cold = loss_of(&card, &[16.0, 0.0, -50.0, 15.0, 16.0]);
    assert_eq!((cold.energy.to_bits(), cold.refusal), (0, None));
    assert_eq!(*cold.zones, [16.0, 0.0, -50.0, 15.0, 16.0]);
}

fn demand(required: f64) -> Call {
    Call::Demand {
        service: ServiceType::Space,
        commit: true,
        control_on: false,
        required,
        start: 0.0,
        return_temperature: Some(5.0),
    }
}

/// Only kind 4 has the floor: every other call answers as without it, below 16 °C too.
#[test]
fn no_other_call_has_a_floor() {
    let card = Card { start: 20.0, ..floored() };
    let hydronic = common::figures::Wet { inlet: 2.0, ..WET }.call();
    let calls = [
        demand(0.005),
        demand(1.0),
        hydronic,
        Call::Electric { power: 0.001, target: 0.2 },
        Call::CloseTimestep,
        Call::StateOfCharge,
        Call::ChargeEnergyDemand { flow_maximum: Some(10.0), target: 1.0 },
    ];
    for call in calls {
        let [with, without] = [card.clone(), Card { floor: false, ..card.clone() }]
            .map(|card| answer(&Battery::open(&card).unwrap(), &call));
        assert_eq!(with, without, "{call}");
    }
    let drawn = answer(&Battery::open(&card).unwrap(), &demand(0.005));
    assert!(drawn.zones[0] < 16.0, "{drawn:?}");
}

/// With the flag 0 every answer is version 3's.
#[test]
fn without_a_floor_the_answers_are_version_3s() {
    let card = Card { layers: 3, ..POINTS };
    let mut three = Battery::open_as(Version::Three, &card).unwrap();
    let mut four = Battery::open_as(Version::Four, &card).unwrap();
    let calls = [LOSS, LOSS, demand(0.05), WET.call(), LOSS, Call::StateOfCharge];
    for call in calls {
        assert_eq!(four.answer(&call), three.answer(&call), "{call}");
    }
    assert!(four.zones()[0] < 16.0 || four.totals().charged > 0.0);
    // The card's flag is all that the bytes have besides.
    let (three, four) = (three.as_bytes(), four.as_bytes());
    assert_eq!([&three[..159], &[0], &three[159..]].concat(), four);
}

// ---- The card

/// The card's bytes in version 4 with a list of any numbers and classes and any flag.
fn bytes(card: &Card, services: &[(u16, u8)], flag: u8) -> Vec<u8> {
    [listing(card, services), vec![flag]].concat()
}

#[test]
fn another_flag_is_1_before_all_else() {
    let cards = [
        POINTS,
        Card { lower: 57.0, ..POINTS },
        Card { max: 20.0, reference: 19.0, ..POINTS },
        Card { reference: 80.0, ..POINTS },
    ];
    let lists = [vec![], vec![(12, 2)], vec![(3, 1)], vec![(12, 9)], rising(32), rising(33)];
    for (card, expected) in cards.iter().zip([0, 2, 3, 4]) {
        for list in &lists {
            let is_good = list.iter().all(|(number, class)| *number > 3 && *class < 4);
            let listed = if is_good && list.len() <= 32 { 0 } else { 61 };
            let refusal = if expected == 0 { listed } else { expected };
            for flag in [0, 1] {
                assert_eq!(opened(Version::Four, &bytes(card, list, flag)), refusal, "{list:?}");
            }
            for flag in [2, 3, 128, 255] {
                assert_eq!(opened(Version::Four, &bytes(card, list, flag)), 1, "{list:?}");
            }
        }
    }
    for flag in 2..=255 {
        assert_eq!(opened(Version::Four, &bytes(&POINTS, &[], flag)), 1);
    }
}

#[test]
fn other_lengths_are_1() {
    let right = bytes(&POINTS, &[(12, 2), (13, 1)], 1);
    assert_eq!((right.len(), opened(Version::Four, &right)), (166, 0));
    for length in 0..right.len() {
        assert_eq!(opened(Version::Four, &right[..length]), 1, "{length} bytes");
    }
    assert_eq!(opened(Version::Four, &[&right[..], &[0]].concat()), 1);
    // With a count above 32 the flag still stands behind the list.
    let many = bytes(&POINTS, &rising(33), 1);
    assert_eq!(
        (many.len(), opened(Version::Four, &many), opened(Version::Four, &many[..258])),
        (259, 61, 1)
    );
    let many = bytes(&POINTS, &rising(255), 1);
    assert_eq!(
        (many.len(), opened(Version::Four, &many), opened(Version::Four, &many[..924])),
        (925, 61, 1)
    );
}

/// The longest card and the longest record.
#[test]
fn all_services_and_all_layers_have_room_with_a_floor() {
    let services: Vec<Service> = (0..32u16)
        .map(|at| Service::new(4 + 2113 * at, ServiceClass::ALL[usize::from(at) % 3]))
        .collect();
    let card = Card { layers: 64, services, ..floored() };
    let battery = Battery::open(&card).unwrap();
    assert_eq!((card.bytes(Version::Four), battery.as_bytes().len()), (256, 256 + 512 + 40));
    assert_eq!(battery.as_bytes()[255], 1);
    assert_eq!(Battery::from_bytes(Version::Four, battery.as_bytes()).as_ref(), Ok(&battery));
    assert_eq!(*answer(&battery, &LOSS).zones, [16.0; 64]);
    assert_eq!(card.to_string().parse(), Ok(card));
}

#[test]
fn a_sheet_has_the_floor() {
    let services = vec![Service::new(12, ServiceClass::Space)];
    let card = Card { services, ..floored() };
    let mut sheet = Sheet::open(&card).unwrap();
    assert_eq!(sheet.as_bytes()[..3], [4, 0, 163]);
    assert_eq!(sheet.as_bytes()[161..], [1, 0, 12, 2, 1]);
    sheet.call(&LOSS).unwrap();
    let bytes = sheet.as_bytes();
    assert_eq!(audit(bytes), Verdict::Accepted(1));
    assert_eq!(looks(bytes), Some(Looks::Sheet));
    assert_eq!(Sheet::open_within(Version::Four, &card, 165).err(), Some(Refusal::NoRoom));
    assert!(Sheet::open_within(Version::Four, &card, 166).is_ok());
    let with = |flag: u8| [&bytes[..165], &[flag], &bytes[166..]].concat();
    // Without the floor more is lost.
    assert_eq!(audit(&with(0)).to_string(), "refused 43 line 1");
    let Explanation::Differences { fields, .. } = explain(&with(0)) else { panic!("none") };
    let named: Vec<_> = fields.into_iter().map(|one| [one.field, one.shown, one.given]).collect();
    let energy = ["energy, kWh", "0.11777777777777777", "0.25"].map(String::from);
    assert_eq!(named, [energy, ["zone 1, °C", "16.0", "-103.0"].map(String::from)]);
    assert_eq!(audit(&with(2)).to_string(), "refused 41 line 0");
    let Explanation::Damage(damage) = explain(&with(2)) else { panic!("no damage") };
    assert_eq!(damage.words, "floor is the number 2, not 0 or 1 (the card's refusal 1)");
}

#[test]
fn the_record_has_the_floor() {
    let record = Record::open(&floored()).unwrap();
    assert_eq!(record.card(), floored());
    let mut other = Record::open(&POINTS).unwrap();
    assert!(other != record);
    other.clone_from(&record);
    assert!(other == record && other.card() == floored());
    other.clone_from(&Record::open(&POINTS).unwrap());
    assert!(other == Record::open(&POINTS).unwrap() && other.card() == POINTS);
    let battery = Battery::open(&floored()).unwrap();
    let mut bytes = battery.as_bytes().to_vec();
    for version in [Version::One, Version::Two, Version::Three] {
        assert_eq!(Battery::from_bytes(version, &bytes), Err(Refusal::BadBattery));
    }
    bytes[159] = 2;
    assert_eq!(Battery::from_bytes(Version::Four, &bytes), Err(Refusal::BadBattery));
}

// ---- The caller's own record

fn own(floor: u8) -> ffi::Battery {
    let number = |value: &Value| match value {
        Value::Number(number) => *number,
        other => panic!("{other:?}"),
    };
    let numbers: Vec<f64> = POINTS.values()[4..].iter().map(number).collect();
    let numbers = numbers.try_into().unwrap();
    let mut zones = [0.0; heat_battery::MOST_LAYERS];
    zones[0] = POINTS.start;
    ffi::Battery {
        card: ffi::Card { layers: 1, units: 1, simultaneous: 0, budget: 1000, numbers },
        zones,
        count: 1,
        totals: [0.0; 5],
        services: 0,
        numbers: [0; 32],
        classes: [0; 32],
        floor,
    }
}

/// Before version 4 the floor may hold anything; no call writes it.
#[test]
fn the_own_records_floor_is_read_from_version_4_on() {
    for version in 1..=4 {
        for floor in 0..=255 {
            let mut battery = own(floor);
            let shown = ffi::advance(version, &mut battery, &[4]);
            assert_eq!(battery.floor, floor);
            let expected = match (version, floor) {
                (4, 1) => (0, 0.11777777777777777, 16.0),
                (4, 2..) => (10, 0.0, 76.0),
                _ => (0, 0.25, -103.0),
            };
            assert_eq!((shown.refusal, shown.energy, battery.zones[0]), expected);
        }
    }
}

// ---- Versions 1 to 3 have no floor

#[test]
fn a_floor_is_never_dropped() {
    let refused = Some(Refusal::VersionWithoutFloor);
    for version in [Version::One, Version::Two, Version::Three] {
        assert!(!version.has_floor());
        assert_eq!(floored().to_bytes(version).err(), refused);
        assert_eq!(Battery::open_as(version, &floored()).err(), refused);
        assert_eq!(Record::open_as(version, &floored()).err(), refused);
        assert_eq!(Sheet::open_as(version, &floored()).err(), refused);
        let state = Battery::with_state(version, &floored(), &[60.0], &Totals::default());
        assert_eq!(state.err(), refused);
        // Its number is 1: the fields go before it, 2 to 4 and 61 don't.
        let open = |card: Card| Battery::open_as(version, &card).err();
        assert_eq!(open(Card { layers: 0, ..floored() }), Some(Refusal::CardOutOfRange));
        assert_eq!(open(Card { lower: 57.0, max: 15.0, ..floored() }), refused);
        let services = vec![Service::new(12, ServiceClass::Space)];
        assert_eq!(open(Card { services, ..floored() }), refused);
    }
    let refusal = Refusal::VersionWithoutFloor;
    assert_eq!((refusal.number(), refusal.name()), (1, "CARD_OUT_OF_RANGE"));
    assert_eq!(Refusal::from_number(1), Some(Refusal::CardOutOfRange));
    assert!(!refusal.is_line());
}

/// A card without a floor has one fingerprint, whatever the version of its sheet.
#[test]
fn fingerprints_have_the_floor() {
    let services = vec![Service::new(12, ServiceClass::Space)];
    let cards = [
        POINTS,
        floored(),
        Card { services: services.clone(), ..POINTS },
        Card { services, ..floored() },
    ];
    for (at, card) in cards.iter().enumerate() {
        for other in &cards[at + 1..] {
            assert_ne!(card.fingerprint(), other.fingerprint());
        }
    }
}

// ---- Text

#[test]
fn a_floor_goes_there_and_back_in_text() {
    let text = floored().to_string();
    let line = "\nfloor = yes                 # standing losses stop at 16 °C, from version 4 on: \
                yes or no\n";
    assert!(text.contains(line), "{text}");
    assert_eq!(text.parse(), Ok(floored()));
    assert!(POINTS.to_string().contains("\nfloor = no  "));
    // Absent, it is none; its place and its blanks are free.
    let absent = text.replace(line, "\n");
    assert_eq!(absent.parse(), Ok(POINTS));
    for floor in ["floor = yes", "floor=1", " floor\t=  yes # a"] {
        assert_eq!(format!("{floor}\n{absent}").parse(), Ok(floored()), "{floor}");
        assert_eq!(format!("{absent}{floor}").parse(), Ok(floored()), "{floor}");
    }
    for floor in ["floor = no", "floor = 0"] {
        assert_eq!(format!("{absent}{floor}").parse(), Ok(POINTS), "{floor}");
    }
    // The lines of the fields are theirs, wherever the floor stands.
    for text in [format!("floor = yes\n{absent}"), format!("{absent}floor = yes")] {
        let listed = text::card(&text).unwrap();
        assert_eq!(listed.lines.len(), Card::FIELDS.len());
        let first = text.lines().position(|line| line.starts_with("layers")).unwrap() + 1;
        assert_eq!(listed.lines[0], first);
    }
    assert_eq!(looks(b"floor = yes\n"), Some(Looks::Card));
}

#[test]
fn slips_of_the_floor_are_named() {
    let absent = POINTS.to_string().replace("floor = no ", "# ");
    let lines = absent.lines().count();
    let of = |floor: &str, words: &str| {
        let slips = text::card(&format!("{absent}{floor}")).unwrap_err();
        assert_eq!(slips.to_string(), format!("line {}: {words}", lines + 1));
        assert_eq!(slips.refusal(), None);
    };
    of("floor = 2", "floor is '2', not yes or no");
    of("floor = 16", "floor is '16', not yes or no");
    of("floor =", "floor is '', not yes or no");
    of("floor", "'floor' is no 'name = value'");
    of("floors = yes", "'floors' is no field; did you mean floor?");
    let slips = text::card(&format!("{absent}floor = no\nfloor = yes")).unwrap_err();
    assert_eq!(slips.to_string(), format!("line {}: floor stands twice", lines + 2));
    // It is never missing, and its slip is one.
    assert_eq!(text::card("floor = x").unwrap_err().to_string().matches("floor").count(), 1);
}
