//! The independent entries and auditor with a fault put in, to show that a comparison finds it.

use crate::auditor::{self, Fields, Verdict};
use crate::entries::Step;
use crate::library::{Independent, Library};
use crate::model::{
    has_floor_flag, is_known, lists_services, shows_hydronic_time, Answer, Battery, Call, Card,
    Demand, Service, Services, VERSIONS,
};
use crate::own::{self, Record, Shown};
use crate::plain::{self, HydronicEnd, Lowered, Salt, FLOOR};
use crate::reading;
use crate::sheet::{self, CARD_BYTES};
use std::borrow::Cow;

#[derive(Clone, Copy, Debug, PartialEq, Eq)]
pub enum Fault {
    None,
    /// Room tested with < for ≤.
    Room,
    /// Room tested before the call's fields.
    RoomFirst,
    /// A byte of the line written before 11.
    LineBeforeRoom,
    /// A flag 2 taken for 1.
    Flag,
    /// Bytes under an absent mark ignored.
    AbsentBytes,
    /// A zone of the record changed on a refusal line.
    RefusedRecord,
    /// A byte after the line written.
    BehindLine,
    /// An unknown version tested after the card, or the record.
    VersionLate,
    /// The hydronic time shown in every version.
    TimeAlways,
    /// The hydronic time as a product, substep × count, where no substep is replayed.
    TimeProduct,
    /// 61 given before 4.
    ServicesEarly,
    /// A count of 33 accepted.
    Services33,
    /// Equal numbers taken for rising ones.
    EqualNumbers,
    /// A service number under 4 accepted.
    NumberUnder4,
    /// Class 0 or 4 accepted.
    AnyClass,
    /// A card's length taken for 158 + 3 × count.
    ServicesLength,
    /// The bytes of a type exchanged.
    TypeExchanged,
    /// A type that isn't listed served as a regular one.
    UnlistedServed,
    /// A trial of a type that isn't listed refused with 21.
    UnlistedTrial,
    /// A floor flag of 2 accepted, as 1.
    Flag2,
    /// The floor flag before the services.
    FlagFirst,
    /// The floor in version 3.
    FloorEarly,
    /// The floor with the flag 0.
    FloorAlways,
    /// No floor with the flag 1.
    FloorNever,
    /// The floor in a demand.
    FloorInDemand,
    /// A zone under the floor raised to it.
    FloorRaises,
    /// The whole energy counted at the floor.
    FloorWhole,
    /// The energy minus the rest counted.
    FloorRest,
    /// What the zone holds over the floor counted, where the energy is less.
    FloorHeld,
    /// What the zone holds over the card's ref counted.
    FloorRef,
    /// What zones give up to the floor summed in plain f64.
    FloorPlainSum,
    /// The own record's services read in every version.
    OwnServicesEarly,
    /// More services than 32 in the own record taken for 32.
    OwnServices33,
    /// The own record's services stored to.
    OwnServicesStored,
    /// Another floor of the own record than 0 and 1 refused in every version.
    OwnFloorEarly,
    /// A floor of 1 in the own record taken for the card's in every version.
    OwnFloorTaken,
    /// A floor of 2 in the own record taken for 1.
    OwnFloor2,
    /// The own record's floor stored to.
    OwnFloorStored,
    /// Every sheet accepted.
    PassesAll,
    /// No sheet accepted.
    PassesNone,
    /// Line index one too low.
    Index,
    /// The last line's answer not compared.
    LastLine,
    /// 43 where 42 applies to the same line.
    Order,
    /// No limit of length.
    NoLimit,
    /// A limit of length in the audit of any length.
    WholeLimited,
    /// The byte after the sheet read.
    ReadsBehind,
    /// The byte before the sheet read.
    ReadsBefore,
}

/// Faults of the entries alone, by their names for a variable or an option.
pub const IN_ENTRIES: [(&str, Fault); 9] = [
    ("room", Fault::Room),
    ("room-first", Fault::RoomFirst),
    ("line-before-room", Fault::LineBeforeRoom),
    ("flag", Fault::Flag),
    ("absent-bytes", Fault::AbsentBytes),
    ("refused-record", Fault::RefusedRecord),
    ("behind-line", Fault::BehindLine),
    ("version-late", Fault::VersionLate),
    ("services-early", Fault::ServicesEarly),
];

/// Faults of the audit alone.
pub const IN_AUDIT: [(&str, Fault); 7] = [
    ("passes-all", Fault::PassesAll),
    ("passes-none", Fault::PassesNone),
    ("index", Fault::Index),
    ("last-line", Fault::LastLine),
    ("order", Fault::Order),
    ("no-limit", Fault::NoLimit),
    ("whole-limited", Fault::WholeLimited),
];

/// Faults of what the entries and the audit share: steps, layout and card.
pub const IN_BOTH: [(&str, Fault); 22] = [
    ("time-always", Fault::TimeAlways),
    ("time-product", Fault::TimeProduct),
    ("services-33", Fault::Services33),
    ("equal-numbers", Fault::EqualNumbers),
    ("number-under-4", Fault::NumberUnder4),
    ("any-class", Fault::AnyClass),
    ("services-length", Fault::ServicesLength),
    ("type-exchanged", Fault::TypeExchanged),
    ("unlisted-served", Fault::UnlistedServed),
    ("unlisted-trial", Fault::UnlistedTrial),
    ("flag-2", Fault::Flag2),
    ("flag-first", Fault::FlagFirst),
    ("floor-early", Fault::FloorEarly),
    ("floor-always", Fault::FloorAlways),
    ("floor-never", Fault::FloorNever),
    ("floor-in-demand", Fault::FloorInDemand),
    ("floor-raises", Fault::FloorRaises),
    ("floor-whole", Fault::FloorWhole),
    ("floor-rest", Fault::FloorRest),
    ("floor-held", Fault::FloorHeld),
    ("floor-ref", Fault::FloorRef),
    ("floor-plain-sum", Fault::FloorPlainSum),
];

/// Faults of the entry on the caller's own record.
pub const IN_OWN: [(&str, Fault); 7] = [
    ("own-services-early", Fault::OwnServicesEarly),
    ("own-services-33", Fault::OwnServices33),
    ("own-services-stored", Fault::OwnServicesStored),
    ("own-floor-early", Fault::OwnFloorEarly),
    ("own-floor-taken", Fault::OwnFloorTaken),
    ("own-floor-2", Fault::OwnFloor2),
    ("own-floor-stored", Fault::OwnFloorStored),
];

/// Faults that end the program, as a page that can't be read is read.
pub const ENDING: [(&str, Fault); 2] =
    [("reads-behind", Fault::ReadsBehind), ("reads-before", Fault::ReadsBefore)];

pub struct Faulty {
    pub fault: Fault,
}

/// The plain steps with the newest version's answers; a card of another has no floor in them.
fn time_always(_: u8, battery: &Battery, call: &Call) -> (Answer, Battery) {
    plain::step(VERSIONS[VERSIONS.len() - 1], battery, call)
}

fn time_product(version: u8, battery: &Battery, call: &Call) -> (Answer, Battery) {
    let (mut answer, after) = plain::step(version, battery, call);
    let Call::Hydronic(fields) = call else { return (answer, after) };
    let is_replayed = plain::hydronic_end(battery, fields) == Ok(HydronicEnd::Replay);
    if shows_hydronic_time(version) && !is_replayed {
        answer.time = battery.card.substep * f64::from(answer.substeps);
    }
    (answer, after)
}

/// The plain steps for a demand of another type; the line still has the call's own bytes.
fn retyped(
    version: u8,
    battery: &Battery,
    call: &Call,
    other: impl Fn(&Demand) -> u16,
) -> (Answer, Battery) {
    match call {
        Call::Demand(demand) if lists_services(version) => {
            let service_type = other(demand);
            plain::step(version, battery, &Call::Demand(Demand { service_type, ..*demand }))
        }
        _ => plain::step(version, battery, call),
    }
}

fn type_exchanged(version: u8, battery: &Battery, call: &Call) -> (Answer, Battery) {
    retyped(version, battery, call, |demand| demand.service_type.swap_bytes())
}

/// Whether a type is a number above 3 that the card doesn't list.
fn is_unlisted(card: &Card, demand: &Demand) -> bool {
    demand.service_type > 3 && plain::class(card, demand.service_type) == 0
}

fn unlisted_served(version: u8, battery: &Battery, call: &Call) -> (Answer, Battery) {
    retyped(version, battery, call, |demand| match is_unlisted(&battery.card, demand) {
        true => 1,
        false => demand.service_type,
    })
}

fn unlisted_trial(version: u8, battery: &Battery, call: &Call) -> (Answer, Battery) {
    let (answer, after) = plain::step(version, battery, call);
    match call {
        Call::Demand(demand) if is_unlisted(&battery.card, demand) && answer.outlet.is_some() => {
            (Answer::refused(21, &battery.state), battery.clone())
        }
        _ => (answer, after),
    }
}

// ---- The floor

/// The plain steps on the card with another flag, in version 4; the card stays.
fn flagged(version: u8, battery: &Battery, call: &Call, floor: u8) -> (Answer, Battery) {
    let card = Card { floor, ..battery.card };
    let (answer, after) = plain::step(version, &Battery { card, ..battery.clone() }, call);
    (answer, Battery { card: battery.card, ..after })
}

fn floor_early(version: u8, battery: &Battery, call: &Call) -> (Answer, Battery) {
    match (version, call) {
        (3, Call::StandingLoss) => flagged(4, battery, call, 1),
        _ => plain::step(version, battery, call),
    }
}

/// The floor in every version.
fn floor_taken(version: u8, battery: &Battery, call: &Call) -> (Answer, Battery) {
    match call {
        Call::StandingLoss => flagged(4, battery, call, 1),
        _ => plain::step(version, battery, call),
    }
}

fn floor_always(version: u8, battery: &Battery, call: &Call) -> (Answer, Battery) {
    flagged(version, battery, call, 1)
}

fn floor_never(version: u8, battery: &Battery, call: &Call) -> (Answer, Battery) {
    flagged(version, battery, call, 0)
}

/// A committed demand that leaves no zone under the floor that wasn't.
fn floor_in_demand(version: u8, battery: &Battery, call: &Call) -> (Answer, Battery) {
    let (mut answer, mut after) = plain::step(version, battery, call);
    if battery.card.floor == 1 && matches!(call, Call::Demand(_)) {
        for (zone, before) in answer.state.zones.iter_mut().zip(&battery.state.zones) {
            *zone = zone.max(before.min(FLOOR));
        }
        after.state = answer.state.clone();
    }
    (answer, after)
}

/// A standing loss with the floor by another update of a zone, of a salt and a card, with its loss and
/// what the right update makes of both; and with another sum.
fn floored(
    version: u8,
    battery: &Battery,
    call: &Call,
    update: impl Fn(&Salt, &Card, f64, f64, Lowered) -> (f64, f64),
    sum: fn(&[f64]) -> f64,
) -> (Answer, Battery) {
    let (right, after) = plain::step(version, battery, call);
    if !battery.has_floor(version, call) || right.refusal == 10 {
        return (right, after);
    }
    let card = &battery.card;
    let salt = plain::salt(card);
    let mut state = battery.state.clone();
    let mut counted = Vec::new();
    for zone in &mut state.zones {
        let loss = plain::zone_loss(card, *zone, card.timestep * 3600.0, card.losses);
        let lowered = plain::calculate_new_zone_temperature_with_lowest(&salt, *zone, FLOOR, loss);
        let (temperature, count) = update(&salt, card, *zone, loss, lowered);
        *zone = temperature;
        counted.push(count);
    }
    let answer = Answer::plain(sum(&counted) / 3600.0, 1, state).or_23(&battery.state);
    let state = answer.state.clone();
    (answer, Battery { card: *card, state })
}

fn floor_raises(version: u8, battery: &Battery, call: &Call) -> (Answer, Battery) {
    let update = |_: &Salt, _: &Card, _, _, l: Lowered| (l.temperature.max(FLOOR), l.taken);
    floored(version, battery, call, update, plain::sum2)
}

fn floor_whole(version: u8, battery: &Battery, call: &Call) -> (Answer, Battery) {
    let update = |_: &Salt, _: &Card, _, loss, l: Lowered| (l.temperature, loss);
    floored(version, battery, call, update, plain::sum2)
}

fn floor_rest(version: u8, battery: &Battery, call: &Call) -> (Answer, Battery) {
    let update = |_: &Salt, _: &Card, _, loss: f64, l: Lowered| (l.temperature, loss - l.rest);
    floored(version, battery, call, update, plain::sum2)
}

/// Whether the right update ends at the floor, in the place of under it.
fn stops(salt: &Salt, zone: f64, loss: f64) -> bool {
    zone > FLOOR && plain::calculate_new_zone_temperature(salt, zone, loss) < FLOOR
}

fn floor_held(version: u8, battery: &Battery, call: &Call) -> (Answer, Battery) {
    let update = |salt: &Salt, _: &Card, zone, loss, l: Lowered| match stops(salt, zone, loss) {
        true => (FLOOR, plain::calculate_layer_energy_stored(salt, zone, FLOOR)),
        false => (l.temperature, l.taken),
    };
    floored(version, battery, call, update, plain::sum2)
}

fn floor_ref(version: u8, battery: &Battery, call: &Call) -> (Answer, Battery) {
    let update = |salt: &Salt, card: &Card, zone, loss, l: Lowered| match stops(salt, zone, loss) {
        true => {
            let held = plain::calculate_layer_energy_stored(salt, zone, card.reference);
            (FLOOR, plain::min(loss, held))
        }
        false => (l.temperature, l.taken),
    };
    floored(version, battery, call, update, plain::sum2)
}

fn floor_plain_sum(version: u8, battery: &Battery, call: &Call) -> (Answer, Battery) {
    let update = |_: &Salt, _: &Card, _, _, l: Lowered| (l.temperature, l.taken);
    floored(version, battery, call, update, |counted| counted.iter().sum())
}

impl Faulty {
    /// The fault of that name; none for another name.
    pub fn named(name: &str) -> Self {
        let all = IN_ENTRIES.iter().chain(&IN_AUDIT).chain(&IN_BOTH).chain(&IN_OWN).chain(&ENDING);
        let found = all.into_iter().find(|(known, _)| *known == name);
        Faulty { fault: found.map_or(Fault::None, |(_, fault)| *fault) }
    }

    /// The steps of entries and audit.
    pub fn step(&self) -> Step {
        match self.fault {
            Fault::TimeAlways => time_always,
            Fault::TimeProduct => time_product,
            Fault::TypeExchanged => type_exchanged,
            Fault::UnlistedServed => unlisted_served,
            Fault::UnlistedTrial => unlisted_trial,
            Fault::FloorEarly => floor_early,
            Fault::FloorAlways => floor_always,
            Fault::FloorNever => floor_never,
            Fault::FloorInDemand => floor_in_demand,
            Fault::FloorRaises => floor_raises,
            Fault::FloorWhole => floor_whole,
            Fault::FloorRest => floor_rest,
            Fault::FloorHeld => floor_held,
            Fault::FloorRef => floor_ref,
            Fault::FloorPlainSum => floor_plain_sum,
            _ => plain::step,
        }
    }

    /// What the other faults stand before.
    fn independent(&self) -> Independent {
        Independent { step: self.step() }
    }

    /// Reads a byte outside of what is lent.
    fn stray(&self, sheet: &[u8]) {
        let byte = match self.fault {
            Fault::ReadsBehind => sheet.as_ptr().wrapping_add(sheet.len()),
            Fault::ReadsBefore => sheet.as_ptr().wrapping_sub(1),
            _ => return,
        };
        // SAFETY: none, which is the fault.
        unsafe { byte.read_volatile() };
    }

    /// The entry on the caller's own record.
    pub fn advance(&self, version: u8, record: &mut Record, call: &[u8]) -> Shown {
        let mut taken = *record;
        let most = plain::MOST_SERVICES as u8;
        match self.fault {
            // 10 in every version, as for another count of zones.
            Fault::OwnServicesEarly
                if taken.listed().is_none_or(|s| plain::services_refusal(&s)) =>
            {
                taken.count = 0;
            }
            Fault::OwnServices33 => taken.services = taken.services.min(most),
            Fault::OwnFloorEarly if taken.floor > 1 => taken.count = 0,
            Fault::OwnFloor2 if taken.floor == 2 => taken.floor = 1,
            _ => {}
        }
        let step = match self.fault {
            Fault::OwnFloorTaken if taken.floor == 1 => floor_taken,
            _ => self.step(),
        };
        let shown = own::advance(step, version, &mut taken, call);
        if shown.refusal == 0 {
            (record.zones, record.totals) = (taken.zones, taken.totals);
            match self.fault {
                Fault::OwnServicesStored => record.services = 0,
                Fault::OwnFloorStored => record.floor = 0,
                _ => {}
            }
        }
        shown
    }

    /// The call as a faulty reader takes it.
    fn misread(&self, version: u8, call: &[u8]) -> Vec<u8> {
        let mut misread = call.to_vec();
        let commit = if lists_services(version) { 3 } else { 2 };
        if call.first() == Some(&1) && call.len() == commit + 27 {
            match self.fault {
                Fault::Flag if call[commit] == 2 => misread[commit] = 1,
                Fault::AbsentBytes if call[commit + 18] == 0 => misread[commit + 19..].fill(0),
                _ => {}
            }
        }
        misread
    }

    /// The services that a faulty reader finds nothing wrong with in the place of these.
    fn mended(&self, services: &Services) -> Services {
        let mut list = services.listed().to_vec();
        match self.fault {
            Fault::Services33 if list.len() == 33 => list.truncate(32),
            Fault::EqualNumbers => list.dedup_by_key(|service| service.number),
            Fault::NumberUnder4 => list.retain(|service| service.number > 3),
            Fault::AnyClass => list.iter_mut().for_each(|Service { class, .. }| match class {
                0 => *class = 1,
                4 => *class = 3,
                _ => {}
            }),
            _ => {}
        }
        Services::new(&list)
    }

    /// The card that a faulty reader takes in the place of this one, where it accepts one that is
    /// refused, or the other way round.
    fn misread_card<'a>(&self, version: u8, card: &'a [u8]) -> Cow<'a, [u8]> {
        if !lists_services(version) || !is_known(version) {
            return Cow::Borrowed(card);
        }
        if self.fault == Fault::ServicesLength {
            return Cow::Owned([card, &[0]].concat());
        }
        if self.fault == Fault::FlagFirst && has_floor_flag(version) && card.len() > CARD_BYTES {
            // Its bytes behind the fields, with the first of them at the end.
            let mut taken = card.to_vec();
            taken[CARD_BYTES..].rotate_left(1);
            return Cow::Owned(taken);
        }
        match reading::card(version, card) {
            Some(read) if self.fault == Fault::Flag2 && read.floor == 2 => {
                Cow::Owned(sheet::card_bytes(version, &Card { floor: 1, ..read }))
            }
            Some(read) if plain::card_refusal(&read) == 61 => {
                let services = self.mended(&read.services);
                Cow::Owned(sheet::card_bytes(version, &Card { services, ..read }))
            }
            _ => Cow::Borrowed(card),
        }
    }

    /// The sheet with the card that a faulty reader takes.
    fn misread_sheet<'a>(&self, sheet: &'a [u8]) -> Cow<'a, [u8]> {
        let [version, high, low, lines @ ..] = sheet else { return Cow::Borrowed(sheet) };
        let length = usize::from(u16::from_be_bytes([*high, *low]));
        let Some((card, rest)) = lines.split_at_checked(length) else {
            return Cow::Borrowed(sheet);
        };
        match self.misread_card(*version, card) {
            Cow::Borrowed(_) => Cow::Borrowed(sheet),
            Cow::Owned(other) => {
                let length = (other.len() as u16).to_be_bytes();
                Cow::Owned([&[*version], &length[..], &other, rest].concat())
            }
        }
    }

    /// `open` with the card that a faulty reader takes; the card's own bytes are written.
    fn open_misread(&self, version: u8, card: &[u8], record: &mut [u8], sheet: &mut [u8]) -> u8 {
        let taken = self.misread_card(version, card);
        if *taken == *card {
            return self.independent().open(version, card, record, sheet);
        }
        let mut taken_record = vec![0; sheet::record_length(&taken)];
        let mut opening = vec![0; sheet::opening_length(&taken)];
        match self.independent().open(version, &taken, &mut taken_record, &mut opening) {
            0 if record.len() != sheet::record_length(card) => 10,
            0 if sheet.len() < sheet::opening_length(card) => 11,
            0 => {
                record[..card.len()].copy_from_slice(card);
                record[card.len()..].copy_from_slice(&taken_record[taken.len()..]);
                let length = (card.len() as u16).to_be_bytes();
                let line = [&[version], &length[..], card].concat();
                sheet[..line.len()].copy_from_slice(&line);
                0
            }
            refusal => refusal,
        }
    }

    /// `call` on a record whose card a faulty reader takes for another one.
    fn call_misread(&self, version: u8, record: &mut [u8], call: &[u8], sheet: &mut [u8]) -> u8 {
        let card = match sheet::card_in_front(version, record) {
            Some(card) if lists_services(version) => card.to_vec(),
            _ => return self.independent().call(version, record, call, sheet),
        };
        let taken = self.misread_card(version, &card);
        let mut taken_record = [&taken, &record[card.len()..]].concat();
        let result = self.independent().call(version, &mut taken_record, call, sheet);
        record[card.len()..].copy_from_slice(&taken_record[taken.len()..]);
        result
    }

    /// The verdict as a faulty auditor gives it.
    fn misjudged(&self, sound: Verdict, sheet: &[u8]) -> Verdict {
        match (self.fault, sound) {
            (Fault::PassesAll, Verdict::Refused { line, .. }) => Verdict::Accepted(line),
            (Fault::PassesNone, Verdict::Accepted(_)) => Verdict::refused(43, 1),
            (Fault::Index, Verdict::Refused { refusal, line }) if line > 0 => {
                Verdict::refused(refusal, line - 1)
            }
            (Fault::LastLine, Verdict::Refused { refusal: 43, line })
                if line == lines_by_length(sheet) =>
            {
                Verdict::Accepted(line)
            }
            (Fault::Order, Verdict::Refused { refusal: 42, line }) => Verdict::refused(43, line),
            _ => sound,
        }
    }
}

/// Whether a card is refused with 4 and its services would be with 61.
fn is_twice_refused(version: u8, card: &[u8]) -> bool {
    let read = reading::card(version, card).filter(|card| plain::card_refusal(card) == 4);
    read.is_some_and(|card| plain::services_refusal(&card.services))
}

impl Library for Faulty {
    fn open(&self, version: u8, card: &[u8], record: &mut [u8], sheet: &mut [u8]) -> u8 {
        let independent = self.independent();
        match self.fault {
            Fault::Room if sheet.len() == sheet::opening_length(card) => {
                independent.open(version, card, record, &mut [])
            }
            // Without a record: 10 for an accepted card.
            Fault::VersionLate if !is_known(version) => {
                match independent.open(VERSIONS[0], card, &mut [], &mut []) {
                    10 => 40,
                    refusal => refusal,
                }
            }
            Fault::ServicesEarly if is_known(version) && is_twice_refused(version, card) => 61,
            _ => self.open_misread(version, card, record, sheet),
        }
    }

    fn call(&self, version: u8, record: &mut [u8], call: &[u8], sheet: &mut [u8]) -> u8 {
        self.stray(sheet);
        let needed = sheet::line_length(call, record.first().copied().unwrap_or(0));
        if self.fault == Fault::Room && sheet.len() == needed {
            return self.independent().call(version, record, call, &mut []);
        }
        if self.fault == Fault::RoomFirst && sheet.len() < needed {
            return 11;
        }
        let unknown = self.fault == Fault::VersionLate && !is_known(version);
        if unknown && reading::battery(VERSIONS[0], record).is_none() {
            return 10;
        }
        let result = self.call_misread(version, record, &self.misread(version, call), sheet);
        match self.fault {
            Fault::LineBeforeRoom if result == 11 && sheet.len() > 2 => sheet[2] ^= 1,
            Fault::RefusedRecord if (20..=25).contains(&result) => record[record.len() - 41] ^= 1,
            Fault::BehindLine if ![10, 40].contains(&result) && sheet.len() > needed => {
                sheet[needed] ^= 1
            }
            _ => {}
        }
        result
    }

    fn audit(&self, sheet: &[u8]) -> u64 {
        self.stray(sheet);
        let audit = |sheet: &[u8]| auditor::audit_by(self.step(), &self.misread_sheet(sheet));
        let sound = match self.fault {
            Fault::NoLimit => audit(sheet),
            _ => auditor::limited(sheet, audit),
        };
        self.misjudged(sound, sheet).word()
    }

    fn audit_whole(&self, sheet: &[u8]) -> Fields {
        let audit = |sheet: &[u8]| auditor::audit_by(self.step(), &self.misread_sheet(sheet));
        let sound = match self.fault {
            Fault::WholeLimited => auditor::limited(sheet, audit),
            _ => audit(sheet),
        };
        self.misjudged(sound, sheet).fields()
    }
}

/// How many call lines the sheet's lengths make.
fn lines_by_length(sheet: &[u8]) -> u64 {
    let (mut lines, mut at) = (0u64, 1);
    while at + 2 <= sheet.len() {
        at += 2 + usize::from(u16::from_be_bytes([sheet[at], sheet[at + 1]]));
        lines += 1;
    }
    lines.saturating_sub(1) // without the card's
}
