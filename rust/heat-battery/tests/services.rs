//! Services by number: the figures of document 02's request Four, the crate and the text.

mod common {
    pub mod figures;
    pub mod opening;
}

use common::figures::POINTS;
use common::opening::{listing, opened, rising};
use heat_battery::{audit, explain, ffi, looks, read, text, Explanation, Looks, Verdict};
use heat_battery::{Answer, Battery, Call, Card, Record, Refusal, Sheet, Version};
use heat_battery::{Service, ServiceClass, ServiceType, Totals};
use std::collections::HashSet;

use ServiceClass::{Direct, Regular, Space};

fn card(services: &[(u16, ServiceClass)]) -> Card {
    let services = services.iter().map(|(number, class)| Service::new(*number, *class)).collect();
    Card { services, start: 60.0, ..POINTS }
}

fn demand(service: ServiceType, commit: bool) -> Call {
    Call::Demand {
        service,
        commit,
        control_on: false,
        required: 0.02,
        start: 0.0,
        return_temperature: Some(10.0),
    }
}

/// What a fresh battery of the card answers as a battery, as a record and on a sheet: the same.
fn answer(card: &Card, call: &Call) -> Answer {
    answer_as(Version::Three, card, call)
}

fn answer_as(version: Version, card: &Card, call: &Call) -> Answer {
    let mut battery = Battery::open_as(version, card).unwrap();
    let mut sheet = Sheet::open_as(version, card).unwrap();
    let mut record = Record::from(&battery);
    let answer = battery.answer(call).unwrap();
    assert_eq!(record.answer(call), Ok(answer));
    assert_eq!(Battery::from(&record), battery);
    assert_eq!(sheet.answer(call), Ok(answer));
    assert_eq!(audit(sheet.as_bytes()), Verdict::Accepted(1));
    assert_eq!(explain(sheet.as_bytes()), Explanation::Agreement);
    let (version_read, card_read, mut lines) = read(sheet.as_bytes()).unwrap();
    let line = lines.next().unwrap().unwrap();
    assert_eq!((version_read, &card_read), (version, card));
    assert_eq!((line.call, line.answer), (*call, answer));
    answer
}

// ---- The card

#[test]
fn a_count_above_32_has_its_length_and_is_61() {
    let card = card(&[]);
    let bytes = listing(&card, &rising(33));
    assert_eq!(bytes.len(), 258);
    assert_eq!(opened(Version::Three, &bytes), 61);
    assert_eq!(opened(Version::Three, &bytes[..255]), 1);
    let no_layers = listing(&Card { layers: 0, ..card.clone() }, &rising(33));
    assert_eq!((no_layers.len(), opened(Version::Three, &no_layers)), (258, 1));
    assert_eq!(opened(Version::Three, &listing(&card, &rising(255))), 61);
    assert_eq!(opened(Version::Three, &listing(&card, &rising(32))), 0);
    assert_eq!(opened(Version::Three, &listing(&card, &[])), 0);
}

#[test]
fn other_lengths_are_1() {
    let bytes = listing(&card(&[]), &[(12, 2), (13, 1)]);
    assert_eq!(opened(Version::Three, &bytes), 0);
    for length in 0..bytes.len() {
        assert_eq!(opened(Version::Three, &bytes[..length]), 1, "{length} bytes");
    }
    assert_eq!(opened(Version::Three, &[&bytes[..], &[0]].concat()), 1);
    assert_eq!(opened(Version::Three, &[&bytes[..], &[0, 14, 1]].concat()), 1);
}

#[test]
fn a_list_that_is_none_is_61_after_4() {
    let card = card(&[]);
    let bad: [&[(u16, u8)]; 9] = [
        &[(3, 1)],
        &[(0, 1)],
        &[(12, 0)],
        &[(12, 4)],
        &[(12, 255)],
        &[(12, 2), (12, 2)],
        &[(13, 2), (12, 2)],
        &[(4, 1), (70, 2), (69, 3)],
        &[(4, 1), (70, 2), (71, 0)],
    ];
    for list in bad {
        assert_eq!(opened(Version::Three, &listing(&card, list)), 61, "{list:?}");
        let other = |card: Card| opened(Version::Three, &listing(&card, list));
        assert_eq!(other(Card { max: f64::NAN, ..card.clone() }), 1);
        assert_eq!(other(Card { lower: 57.0, max: 15.0, ..card.clone() }), 2);
        assert_eq!(other(Card { max: 20.0, reference: 20.0, ..card.clone() }), 3);
        assert_eq!(other(Card { reference: 80.0, ..card.clone() }), 4);
    }
    let good: [&[(u16, u8)]; 4] =
        [&[(4, 3)], &[(4, 1), (5, 1)], &[(65535, 2)], &[(32767, 1), (32768, 2)]];
    for list in good {
        assert_eq!(opened(Version::Three, &listing(&card, list)), 0, "{list:?}");
    }
    assert_eq!(opened(Version::Three, &listing(&card, &[(32768, 2), (32767, 1)])), 61);
}

#[test]
fn the_record_has_the_services() {
    let card = card(&[(12, Space), (700, Direct)]);
    let battery = Battery::open_as(Version::Three, &card).unwrap();
    assert_eq!(battery.as_bytes().len(), 159 + 6 + 8 + 40);
    assert_eq!(battery.as_bytes()[158..165], [2, 0, 12, 2, 2, 0xbc, 3]);
    assert_eq!(Battery::from_bytes(Version::Three, battery.as_bytes()).as_ref(), Ok(&battery));
    for version in [Version::One, Version::Two] {
        let read = Battery::from_bytes(version, battery.as_bytes());
        assert_eq!(read, Err(Refusal::BadBattery));
    }
    let record = Record::open(&card).unwrap();
    assert_eq!(record.card(), card);
    let mut other = Record::open(&POINTS).unwrap();
    assert!(other != record);
    other.clone_from(&record);
    assert!(other == record && other.card() == card);
    other.clone_from(&Record::open(&POINTS).unwrap());
    assert!(other == Record::open(&POINTS).unwrap() && other.card() == POINTS);
    let mut bytes = battery.as_bytes().to_vec();
    bytes[161] = 4;
    assert_eq!(Battery::from_bytes(Version::Three, &bytes), Err(Refusal::BadBattery));
}

/// The longest card and the longest record.
#[test]
fn all_services_and_all_layers_have_room() {
    let all: Vec<(u16, ServiceClass)> =
        (0..32u16).map(|at| (4 + 2113 * at, ServiceClass::ALL[usize::from(at) % 3])).collect();
    let card = Card { layers: 64, ..card(&all) };
    let battery = Battery::open_as(Version::Three, &card).unwrap();
    assert_eq!((card.bytes(Version::Three), battery.as_bytes().len()), (255, 255 + 512 + 40));
    assert_eq!(Battery::from_bytes(Version::Three, battery.as_bytes()).as_ref(), Ok(&battery));
    for (number, class) in &all {
        let given = answer(&card, &demand(ServiceType::Numbered(*number), true));
        let class = ServiceType::from_number(class.number().into());
        assert_eq!(given, answer(&card, &demand(class, true)), "{number}");
    }
    let next = ServiceType::Numbered(all[31].0 + 1);
    assert_eq!(answer(&card, &demand(next, true)).refusal, Some(Refusal::NoService));
    assert_eq!(card.to_string().parse(), Ok(card));
}

#[test]
fn a_sheet_has_the_services() {
    let card = card(&[(12, Space), (700, Direct)]);
    let mut sheet = Sheet::open_as(Version::Three, &card).unwrap();
    assert_eq!(sheet.as_bytes()[..3], [3, 0, 165]);
    assert_eq!(sheet.as_bytes().len(), 3 + 165);
    sheet.call(&demand(ServiceType::Numbered(700), true)).unwrap();
    let bytes = sheet.as_bytes();
    // 100 + 8 L bytes follow.
    assert_eq!(bytes[168..174], [0, 108, 1, 0x02, 0xbc, 1]);
    assert_eq!(bytes.len(), 168 + 2 + 108);
    assert_eq!(audit(bytes), Verdict::Accepted(1));
    assert_eq!(looks(bytes), Some(Looks::Sheet));
    assert_eq!(Sheet::open_within(Version::Three, &card, 167).err(), Some(Refusal::NoRoom));
    assert!(Sheet::open_within(Version::Three, &card, 168).is_ok());
    // Its list damaged, the card is refused.
    for (at, byte, words) in [
        (161, 9, "a card with 9 services has 186 bytes, not 165 (the card's refusal 1)"),
        (163, 3, "service 3 is direct; listed numbers are 4 to 65535 (the card's refusal 61)"),
        (164, 7, "service 12 has class 7, not 1, 2 or 3 (the card's refusal 61)"),
    ] {
        let mut bytes = bytes.to_vec();
        bytes[at] = byte;
        assert_eq!(audit(&bytes).to_string(), "refused 41 line 0");
        let Explanation::Damage(damage) = explain(&bytes) else { panic!("no damage") };
        assert_eq!((damage.refusal, damage.line), (Refusal::BadCard, 0));
        assert_eq!(damage.words, words);
    }
}

// ---- Demands

#[test]
fn a_listed_service_runs_as_its_class() {
    let card = card(&[(256, Regular), (257, Space), (515, Direct)]);
    for (number, class) in
        [(256, ServiceType::Regular), (257, ServiceType::Space), (515, ServiceType::Direct)]
    {
        let given = answer(&card, &demand(ServiceType::Numbered(number), true));
        assert_eq!(given, answer(&card, &demand(class, true)), "{number}");
        assert_eq!(given.refusal, None);
        let Totals { pump_hours, direct_hours, .. } = given.totals;
        let is_direct = class == ServiceType::Direct;
        assert_eq!((direct_hours > 0.0, pump_hours > 0.0), (is_direct, !is_direct));
    }
}

#[test]
fn classes_1_and_2_show_no_difference() {
    for number in [4, 256, 65535] {
        let service = ServiceType::Numbered(number);
        for commit in [true, false] {
            let [regular, space, direct] = [Regular, Space, Direct]
                .map(|class| answer(&card(&[(number, class)]), &demand(service, commit)));
            assert_eq!(regular, space);
            assert_eq!(direct == space, !commit, "running hours are a committed demand's");
        }
    }
}

#[test]
fn an_unlisted_service_is_21_and_its_trial_runs() {
    let card = card(&[(12, Space), (700, Direct)]);
    for number in [4, 11, 13, 256, 257, 515, 699, 701, 65535] {
        let service = ServiceType::Numbered(number);
        let refused = answer(&card, &demand(service, true));
        assert_eq!(refused.refusal, Some(Refusal::NoService), "{number}");
        assert_eq!(refused, answer(&card, &demand(ServiceType::Combi, true)));
        let trial = answer(&card, &demand(service, false));
        assert_eq!(trial, answer(&card, &demand(ServiceType::Space, false)));
        assert!(trial.trial_energy.unwrap() > 0.0);
        // 20 before 21; nothing is called for where nothing is required.
        let with = |required, return_temperature| Call::Demand {
            service,
            commit: true,
            control_on: false,
            required,
            start: 0.0,
            return_temperature,
        };
        assert_eq!(answer(&card, &with(1.0, None)).refusal, Some(Refusal::NoReturn));
        assert_eq!(answer(&card, &with(1e-10, Some(10.0))).refusal, None);
        assert_eq!(answer(&card, &with(1.1e-10, Some(10.0))).refusal, Some(Refusal::NoService));
    }
}

#[test]
fn types_0_to_3_answer_as_in_version_2() {
    let listing = card(&[(12, Space), (700, Direct)]);
    let mut without = Battery::open_as(Version::Two, &card(&[])).unwrap();
    let mut with = Battery::open_as(Version::Three, &listing).unwrap();
    for service in ServiceType::NAMED {
        for commit in [true, false] {
            let call = demand(service, commit);
            assert_eq!(with.answer(&call), without.answer(&call));
        }
    }
    assert_eq!(*with.zones(), *without.zones());
    assert_eq!(with.totals(), without.totals());
}

/// Every u16 is a type; commit, control, required, start, mark and return follow it.
#[test]
fn a_demand_has_30_bytes() {
    let call = Call::Demand {
        service: ServiceType::Numbered(0x1234),
        commit: true,
        control_on: false,
        required: 1.5,
        start: 0.25,
        return_temperature: Some(10.0),
    };
    let bytes = call.to_bytes(Version::Three).unwrap();
    let numbers = [1.5f64, 0.25, 10.0].map(f64::to_be_bytes);
    let [required, start, back] = &numbers;
    assert_eq!(bytes, [&[1, 0x12, 0x34, 1, 0], &required[..], start, &[1], back].concat());
    assert_eq!(bytes.len(), 30);
    assert_eq!(Call::from_bytes(Version::Three, &bytes), Ok(call));
    let mut battery = Battery::open_as(Version::Three, &card(&[])).unwrap();
    for number in [0, 1, 255, 256, 65535] {
        let mut bytes = bytes.clone();
        bytes[1..3].copy_from_slice(&u16::to_be_bytes(number));
        let mut line = [0; 2 + 108];
        let mut record = battery.as_bytes().to_vec();
        let refusal = ffi::call(3, &mut record, &bytes, &mut line);
        assert_eq!(refusal, if number == 1 { 0 } else { 21 }, "{number}");
    }
    // That of version 2 is no call here, nor the other way round.
    let bytes = demand(ServiceType::Space, true).to_bytes(Version::Two).unwrap();
    let mut record = battery.as_bytes().to_vec();
    assert_eq!(ffi::call(3, &mut record, &bytes, &mut [0; 200]), 10);
    assert!(Call::from_bytes(Version::Three, &bytes).is_err());
    assert!(battery.call(&demand(ServiceType::Space, true)).is_ok());
}

// ---- The caller's own record

fn own(card: &Card) -> ffi::Battery {
    let mut numbers = [0; 32];
    let mut classes = [0; 32];
    for (at, service) in card.services.iter().enumerate() {
        (numbers[at], classes[at]) = (service.number, service.class.number());
    }
    let mut zones = [0.0; heat_battery::MOST_LAYERS];
    zones[0] = card.start;
    let values = card.values();
    let number = |value: &heat_battery::Value| match value {
        heat_battery::Value::Number(number) => *number,
        other => panic!("{other:?}"),
    };
    let fields: Vec<f64> = values[4..].iter().map(number).collect();
    ffi::Battery {
        card: ffi::Card {
            layers: card.layers,
            units: card.units,
            simultaneous: card.simultaneous.into(),
            budget: card.budget,
            numbers: fields.try_into().unwrap(),
        },
        zones,
        count: card.layers,
        totals: [0.0; 5],
        services: card.services.len() as u8,
        numbers,
        classes,
        floor: 0,
    }
}

#[test]
fn the_own_records_services_are_read_from_version_3_on() {
    let card = card(&[(12, Space), (700, Direct)]);
    let calls = |version: Version, number| {
        demand(ServiceType::from_number(number), true).to_bytes(version).unwrap()
    };
    let refusal = |version: Version, battery: ffi::Battery, number| {
        let mut after = battery;
        let shown = ffi::advance(version.number(), &mut after, &calls(version, number));
        if shown.refusal != 0 {
            assert_eq!(after, battery);
        }
        let services = (after.services, after.numbers, after.classes);
        assert_eq!(services, (battery.services, battery.numbers, battery.classes));
        shown.refusal
    };
    let three = |battery, number| refusal(Version::Three, battery, number);
    assert_eq!([12, 700, 2, 13, 0].map(|number| three(own(&card), number)), [0, 0, 0, 21, 21]);
    // Places above the count may hold anything, and list nothing.
    let mut odd = own(&card);
    (odd.numbers[2], odd.classes[2], odd.numbers[31]) = (800, 1, 3);
    assert_eq!([12, 800].map(|number| three(odd, number)), [0, 21]);
    let bad: [fn(&mut ffi::Battery); 6] = [
        |battery| battery.services = 33,
        |battery| battery.services = 255,
        |battery| battery.services = 3,
        |battery| battery.numbers[0] = 3,
        |battery| battery.numbers[1] = 12,
        |battery| battery.classes[1] = 4,
    ];
    for change in bad {
        let mut battery = own(&card);
        change(&mut battery);
        assert_eq!(three(battery, 2), 10);
        for version in [Version::One, Version::Two] {
            assert_eq!(refusal(version, battery, 2), 0);
        }
    }
}

// ---- Versions 1 and 2 have no services

#[test]
fn services_are_never_dropped() {
    let listing = card(&[(12, Space)]);
    let numbered = demand(ServiceType::Numbered(12), true);
    for version in [Version::One, Version::Two] {
        let refused = Some(Refusal::VersionWithoutServices);
        assert_eq!(listing.to_bytes(version).err(), refused);
        assert_eq!(Battery::open_as(version, &listing).err(), refused);
        assert_eq!(Record::open_as(version, &listing).err(), refused);
        assert_eq!(Sheet::open_as(version, &listing).err(), refused);
        let state = Battery::with_state(version, &listing, &[60.0], &Totals::default());
        assert_eq!(state.err(), refused);
        // The fields go first.
        let cold = Card { max: 20.0, ..listing.clone() };
        assert_eq!(Battery::open_as(version, &cold).err(), Some(Refusal::MaxTooLow));

        assert_eq!(numbered.to_bytes(version), Err(Refusal::BadCall));
        let card = card(&[]);
        let words = format!(
            "service is 12: numbers above 3 are known from version 3 on, and this is version {version}"
        );
        assert_eq!(numbered.faults(version, &card)[0].words, words);
        assert!(demand(ServiceType::Space, true).faults(version, &card).is_empty());
        let mut sheet = Sheet::open_as(version, &card).unwrap();
        let before = sheet.as_bytes().to_vec();
        assert_eq!(sheet.answer(&numbered), Err(Refusal::BadCall));
        assert_eq!(sheet.as_bytes(), before);
        let mut record = Record::open_as(version, &card).unwrap();
        assert_eq!(record.answer(&numbered), Err(Refusal::BadCall));
    }
    assert!(numbered.faults(Version::Three, &listing).is_empty());
    let refusal = Refusal::VersionWithoutServices;
    assert_eq!((refusal.number(), refusal.name()), (61, "BAD_SERVICES"));
    assert_eq!(Refusal::from_number(61), Some(Refusal::BadServices));
}

/// More than a count can say: refused as 33 are, and never written.
#[test]
fn services_beyond_255_are_61() {
    let many: Vec<(u16, ServiceClass)> = (4..304).map(|number| (number, Space)).collect();
    let card = card(&many);
    assert_eq!(card.to_bytes(Version::Three), Err(Refusal::BadServices));
    assert_eq!(card.check(), Err(Refusal::BadServices));
    assert_eq!(Sheet::open(&card).err(), Some(Refusal::BadServices));
    assert_eq!(Card { layers: 0, ..card.clone() }.check(), Err(Refusal::CardOutOfRange));
    let [fault] = &card.faults()[..] else { panic!("{:?}", card.faults()) };
    assert_eq!(fault.words, "300 services are listed, at most 32 may be");
}

#[test]
fn services_are_told_by_their_numbers() {
    assert_eq!(ServiceType::Numbered(3), ServiceType::Direct);
    let set: HashSet<ServiceType> =
        [ServiceType::Numbered(3), ServiceType::Direct, ServiceType::Numbered(4)].into();
    assert_eq!(set.len(), 2);
    for number in 0..=u16::MAX {
        let service = ServiceType::from_number(number);
        assert_eq!((service.number(), service.is_numbered()), (number, number > 3));
        assert_eq!(service.name().is_none(), number > 3);
    }
    // Handed in as a number, 2 is space on every sheet.
    let call = demand(ServiceType::Numbered(2), true);
    assert_eq!(
        call.to_bytes(Version::One),
        demand(ServiceType::Space, true).to_bytes(Version::One)
    );
    assert_eq!(call.to_string(), demand(ServiceType::Space, true).to_string());
    for number in 0..=u8::MAX {
        let class = ServiceClass::from_number(number);
        assert_eq!(class.is_some(), (1..=3).contains(&number));
        assert!(class.is_none_or(|class| class.number() == number));
    }
}

/// A card without services has one fingerprint, whatever the version of its sheet.
#[test]
fn fingerprints_have_the_services() {
    assert_eq!(Card::example().fingerprint().to_string(), "3ce57cdf");
    let one = card(&[(12, Space)]).fingerprint();
    for other in [&[][..], &[(12, Direct)], &[(13, Space)], &[(12, Space), (13, Space)]] {
        assert_ne!(card(other).fingerprint(), one);
    }
}

// ---- Text

#[test]
fn services_go_there_and_back_in_text() {
    let listing = card(&[(4, Regular), (12, Space), (65535, Direct)]);
    let text = listing.to_string();
    let end = "\nservice 4 = regular\nservice 12 = space\nservice 65535 = direct\n";
    assert!(text.ends_with(end), "{text}");
    assert_eq!(text.parse(), Ok(listing.clone()));
    // A line's place among the fields and its blanks are free.
    let fields = card(&[]).to_string();
    let spread =
        format!("service  4=regular # a\n\tservice 12 = space\n{fields}service 65535 = direct");
    assert_eq!(spread.parse(), Ok(listing));
    // The template shows a service, and lists none.
    let template = Card::example().to_string();
    assert!(template.contains("\n#   service 12 = space\n"), "{template}");
    assert!(template.parse::<Card>().unwrap().services.is_empty());

    for (service, text) in [
        (ServiceType::Numbered(12), "service=12"),
        (ServiceType::Numbered(65535), "service=65535"),
        (ServiceType::Direct, "service=direct"),
    ] {
        let call = demand(service, true);
        assert!(call.to_string().starts_with(&format!("demand {text} commit=yes ")));
        assert_eq!(call.to_string().parse(), Ok(call));
    }
    let numbered = demand(ServiceType::Space, true).to_string().replace("=space", "=2");
    assert_eq!(numbered.parse(), Ok(demand(ServiceType::Space, true)));
    for bad in ["65536", "-1", "+4", "4.0", "12x", "x"] {
        let text =
            demand(ServiceType::Space, true).to_string().replace("=space", &format!("={bad}"));
        let slips = text.parse::<Call>().unwrap_err().to_string();
        let words = "not combi, regular, space, direct or a number up to 65535";
        assert_eq!(slips, format!("line 1: service is '{bad}', {words}"));
    }
}

/// What is said of services behind the fields of a card, and the refusal.
fn slips(services: &str) -> (String, Option<Refusal>) {
    let fields = card(&[]).to_string();
    let first = fields.lines().count();
    let said = match text::card(&format!("{fields}{services}")) {
        Ok(listed) => {
            assert_eq!(listed.card.check().err(), Some(Refusal::BadServices));
            listed.faults()
        }
        Err(slips) => slips,
    };
    // Lines are counted from the first service.
    let mut text = String::new();
    for slip in &said.first {
        let line = slip.line.map_or(String::new(), |line| format!("{}: ", line - first));
        let refusal = slip.refusal.map_or(String::new(), |one| format!(" ({})", one.number()));
        text += &format!("{line}{}{refusal}\n", slip.words);
    }
    (text, said.refusal())
}

#[test]
fn faults_of_services_are_named_with_their_lines() {
    let bad = Some(Refusal::BadServices);
    let of = |services: &str, words: &str, refusal| {
        assert_eq!(slips(services), (format!("{words}\n"), refusal), "{services}");
    };
    of("service 3 = space", "1: service 3 is direct; listed numbers are 4 to 65535 (61)", bad);
    of("service 0 = space", "1: service 0 is combi; listed numbers are 4 to 65535 (61)", bad);
    of(
        "service 12 = spcae",
        "1: service 12 is 'spcae', not regular, space or direct; did you mean space? (61)",
        bad,
    );
    of("service 12 = combi", "1: service 12 is 'combi', not regular, space or direct (61)", bad);
    of("service 12 = 2", "1: service 12 is '2', not regular, space or direct (61)", bad);
    of("service 12 =", "1: service 12 is '', not regular, space or direct (61)", bad);
    of("service 12 = space\nservice 12 = space", "2: service 12 is listed twice (61)", bad);
    of(
        "service 12 = space\nservice 11 = space",
        "2: service 11 stands behind 12; the numbers have to rise (61)",
        bad,
    );
    of("service 65536 = space", "1: service 65536 is above 65535 (61)", bad);
    of("service = space", "1: a service has a number: 'service 12 = space'", None);
    of("service x = space", "1: service 'x' is no whole number from 4 to 65535", None);
    of("service -4 = space", "1: service '-4' is no whole number from 4 to 65535", None);
    of("service 12 space", "1: 'service 12 space' is no 'name = value'", None);
    let words = "is no field; a service is listed as 'service 12 = space'";
    of("services 12 = space", &format!("1: 'services 12' {words}"), None);
    of("Service 12 = space", &format!("1: 'Service 12' {words}"), None);
    // All of them at once.
    let all = "service 12 = space\nservice 3 = bath\nservice 12 = direct\nservice 70000 = space";
    let words = "\
2: service 3 is 'bath', not regular, space or direct (61)
4: service 70000 is above 65535 (61)
3: service 12 is listed twice (61)";
    of(all, words, bad);
    let many: String = (4..37).map(|number| format!("service {number} = space\n")).collect();
    of(&many, "33 services are listed, at most 32 may be (61)", bad);
    let (said, _) = slips(&many.replace("service 9 = space", "service 9 = bath"));
    assert!(said.contains("33 services are listed, at most 32 may be (61)\n"), "{said}");
    // A field out of range goes before.
    let fields = card(&[]).to_string().replace("units = 1 ", "units = 70000 ");
    let slips = text::card(&format!("{fields}service 3 = bath")).unwrap_err();
    assert_eq!(slips.refusal(), Some(Refusal::CardOutOfRange));
}

#[test]
fn a_text_that_begins_with_a_service_looks_like_a_card() {
    assert_eq!(looks(b"service 12 = space\n"), Some(Looks::Card));
    assert_eq!(looks(b"demand service=12\n"), Some(Looks::Calls));
}
