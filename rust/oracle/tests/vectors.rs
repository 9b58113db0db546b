//! Vector files, stored and, with the published file, new ones, hold what the plain implementation
//! answers too, and an altered one differs in one word.

use oracle::model::{Answer, Battery, Call, Card, Demand, Derived, Hydronic, State, Totals};
use oracle::plain::{self, Charging, Exchanger, Mode, Salt, Substeps};
use oracle::record::{read_all, Record};
#[cfg(published)]
use oracle::vectors;
use std::collections::{BTreeMap, BTreeSet};
use std::fs;
use std::path::{Path, PathBuf};

#[cfg(published)]
const COUNT: u64 = 3000;

#[cfg(published)]
fn folder(name: &str) -> PathBuf {
    PathBuf::from(env!("CARGO_TARGET_TMPDIR")).join(name)
}

/// The words of a record, taken from the front.
struct Words<'a>(&'a [u64]);

impl Words<'_> {
    fn word(&mut self) -> u64 {
        let (first, rest) = self.0.split_first().expect("another word");
        self.0 = rest;
        *first
    }

    fn float(&mut self) -> f64 {
        f64::from_bits(self.word())
    }

    fn floats<const N: usize>(&mut self) -> [f64; N] {
        std::array::from_fn(|_| self.float())
    }

    fn list(&mut self, count: usize) -> Vec<f64> {
        (0..count).map(|_| self.float()).collect()
    }

    fn counted(&mut self) -> Vec<f64> {
        let count = self.word();
        self.list(count as usize)
    }

    fn optional(&mut self) -> Option<f64> {
        let (mark, x) = (self.word(), self.float());
        assert!(mark == 1 || x.to_bits() == 0);
        (mark == 1).then_some(x)
    }

    fn card(&mut self) -> Card {
        let mut card = Card {
            layers: self.word() as u8,
            units: self.word() as u16,
            simultaneous: self.word() as u8,
            budget: self.word() as u16,
            ..oracle::generate::points_card()
        };
        for number in card.numbers_mut() {
            *number = self.float();
        }
        card
    }

    fn salt(&mut self) -> Salt {
        let [lower, upper, below, during, above] = self.floats();
        Salt { lower, upper, below, during, above }
    }

    fn totals(&mut self) -> Totals {
        let [running_hours, pump_hours, direct_hours, charged, charged_electric] = self.floats();
        Totals { running_hours, pump_hours, direct_hours, charged, charged_electric }
    }

    /// The version and the state that a list starts from.
    fn start(&mut self) -> (u8, Battery) {
        let card = self.card();
        let state = State { zones: self.counted(), totals: self.totals() };
        let (version, floor) = (self.word() as u8, self.word() as u8);
        (version, Battery { card: Card { floor, ..card }, state })
    }

    fn call(&mut self) -> Call {
        match self.word() {
            1 => Call::Demand(Demand {
                service_type: self.word() as u16,
                commit: self.word() as u8,
                control_on: self.word() as u8,
                required: self.float(),
                start: self.float(),
                return_temperature: self.optional(),
            }),
            2 => Call::Electric { power: self.float(), target: self.float() },
            3 => Call::Hydronic(Hydronic {
                inlet: self.float(),
                hours: self.float(),
                flow: self.float(),
                target: self.float(),
                limit: self.float(),
                hex_a: self.float(),
                hex_b: self.float(),
                velocity: self.float(),
                diameter: self.float(),
            }),
            4 => Call::StandingLoss,
            5 => Call::CloseTimestep,
            6 => Call::StateOfCharge,
            7 => Call::ChargeEnergyDemand { flow_maximum: self.optional(), target: self.float() },
            kind => panic!("no kind {kind}"),
        }
    }
}

fn derived_words(derived: &Derived) -> [f64; 6] {
    [
        derived.layer_below,
        derived.layer_during,
        derived.layer_above,
        derived.stored_maximum,
        derived.rated_difference,
        derived.diameter_in_metres,
    ]
}

/// Outputs of a substep record; None where it charges to a level that a demand never has.
fn substep(w: &mut Words, out: Record) -> Option<Record> {
    let card = w.card();
    let mut zones = w.counted();
    let mode = w.word();
    let [inlet, seconds, reynolds, flow, power, target, a, b] = w.floats();
    if mode == 2 && power > 0.0 && target > 0.0 {
        return None;
    }
    let exchanger = Exchanger { velocity: 0.0, diameter: 0.0, a, b, flow };
    let mode = match mode {
        0 => Mode::ChargingAlone { power, target },
        1 => Mode::Losses { rated: -power, lowest: None },
        _ => Mode::Normal { exchanger, reynolds, inlet, power },
    };
    // The published file takes a logarithm for each zone with water.
    let logarithms = if matches!(mode, Mode::Normal { .. }) { zones.len() as u64 } else { 0 };
    let mut steps = Substeps { card: &card, done: 0 };
    Some(match steps.run(&mut zones, seconds, mode) {
        Ok(s) => {
            // The published file adds each energy to a 0.
            let mut energies = vec![0.0; zones.len()];
            energies.iter_mut().zip(&s.energies).for_each(|(sum, energy)| *sum += energy);
            out.word(0)
                .floats(&[s.outlet, s.delivered, s.charged])
                .floats(&zones)
                .floats(&energies)
                .word(logarithms)
        }
        Err(refusal) => out.word(refusal.into()).floats(&vec![0.0; 4 + 2 * zones.len()]),
    })
}

/// The plain implementation's outputs; None for a function that it has under no name.
fn by_plain(record: &Record) -> Option<Record> {
    let mut words = Words(&record.words);
    let w = &mut words;
    let out = Record::new(record.function);
    Some(match record.function {
        1 => out.flag(w.float().abs() <= f64::MAX),
        2 => {
            let [p, q, epsilon, max_relative] = w.floats();
            out.flag(plain::nearly_equal(p, q, epsilon, max_relative))
        }
        3 => out.float(plain::max_zero(w.float())),
        4 => out.float(plain::min(w.float(), w.float())),
        5 => {
            let p = w.float();
            out.float(p * p)
        }
        6 => out.float(plain::sum2(&w.counted())),
        7 => out.optional(plain::ln(w.float())),
        8 => out.word(plain::truncate(w.float())),
        20 => {
            let [temperature, reference] = w.floats();
            out.float(plain::calculate_layer_energy_stored(&w.salt(), temperature, reference))
        }
        21 => out.float(plain::soc_to_temp(&w.card(), w.float())),
        22 => out.optional(plain::calc_state_of_charge(&w.card(), &w.counted()).ok()),
        23 => out.float(plain::calculate_zone_energy_required(&w.salt(), w.float(), w.float())),
        24 => out.float(plain::calculate_new_zone_temperature(&w.salt(), w.float(), w.float())),
        25 => {
            let salt = w.salt();
            let [zone, target, q_max, transfer, charged] = w.floats();
            let now = Charging { q_max, charged, transfer };
            let after = plain::process_zone_simultaneous_charging(&salt, zone, target, now);
            out.floats(&[after.q_max, after.charged, after.transfer])
        }
        26 => out.float(plain::viscosity(w.float(), w.float())),
        27 => out.float(plain::reynolds(w.float(), w.float(), w.float())),
        28 => out.optional(plain::heat_transfer(w.float(), w.float(), w.float(), w.float())),
        29 => out.float(plain::outlet(w.float(), w.float(), w.float(), w.float())),
        31 => {
            let card = w.card();
            match plain::card_refusal(&card) {
                0 => out.word(0).floats(&derived_words(&plain::derived(&card))),
                refusal => out.word(refusal.into()).floats(&[0.0; 6]),
            }
        }
        32 => {
            let salt = w.salt();
            let [zone, lowest, energy] = w.floats();
            let after =
                plain::calculate_new_zone_temperature_with_lowest(&salt, zone, lowest, energy);
            out.floats(&[after.temperature, after.taken, after.rest])
        }
        40 => return substep(w, out),
        41 => {
            let (card, zones, flow_maximum) = (w.card(), w.counted(), w.optional());
            let target = w.float();
            let energy = plain::calculate_charge_energy_demand(&card, &zones, flow_maximum, target);
            out.optional(energy.ok())
        }
        _ => return None,
    })
}

/// Compares single functions' records with the plain implementation: how many, by function.
fn compared(files: impl Iterator<Item = PathBuf>) -> BTreeMap<u16, u64> {
    let mut compared = BTreeMap::new();
    for file in files {
        let bytes = fs::read(file).expect("it can be read");
        for record in read_all(&bytes).expect("a vector file") {
            let Some(outputs) = by_plain(&record) else { continue };
            assert!(record.words.ends_with(&outputs.words), "{record:?}\nplain {outputs:?}");
            *compared.entry(record.function).or_insert(0u64) += 1;
        }
    }
    compared
}

fn files(folder: &Path) -> impl Iterator<Item = PathBuf> {
    fs::read_dir(folder).expect("the folder is there").map(|file| file.expect("a file").path())
}

fn stored() -> PathBuf {
    Path::new(env!("CARGO_MANIFEST_DIR")).join("../../crates/vectors/data")
}

/// Of the stored files six are damaged on purpose.
#[test]
fn stored_functions_agree_with_plain() {
    let sound = |file: &PathBuf| {
        let name = file.file_stem().and_then(|name| name.to_str()).expect("a name");
        !["altered", "cut", "energy", "logarithms", "long", "unknown"].contains(&name)
    };
    let compared = compared(files(&stored()).filter(sound));
    for function in (1..=8).chain(20..=29).chain([31, 32, 40, 41]) {
        assert!(compared[&function] >= 350, "function {function}: {}", compared[&function]);
    }
}

#[cfg(published)]
#[test]
fn functions_agree_with_plain() {
    let folder = folder("functions");
    vectors::write(&folder, COUNT, 11, None).expect("the folder is writable");
    let compared = compared(files(&folder));
    for function in (1..=8).chain(20..=29).chain([31, 32, 41]) {
        assert_eq!(compared[&function], COUNT, "function {function}");
    }
    assert!(compared[&40] > COUNT / 2);
}

/// Which way the energy to a level goes.
#[cfg(published)]
fn way(record: &Record) -> &'static str {
    let mut w = Words(&record.words);
    let (card, zones, flow_maximum) = (w.card(), w.counted(), w.optional());
    let target = w.float();
    let (Ok(level), Some(energy)) = (plain::calc_state_of_charge(&card, &zones), w.optional())
    else {
        return "refused";
    };
    let by_level = plain::calculate_charge_energy_demand(&card, &zones, None, target);
    if plain::nearly_equal(level, target, 1e-10, f64::EPSILON) {
        match level < target {
            true => "nearly equal, below",
            false => "nearly equal",
        }
    } else if level > target {
        "above the target"
    } else if flow_maximum.is_none() {
        "no flow maximum"
    } else if energy == 0.0 {
        "flow maximum reached"
    } else if Ok(energy) == by_level {
        "to the target"
    } else {
        "to the flow maximum"
    }
}

/// Which way the update with a lowest temperature goes.
#[cfg(published)]
fn lowered(record: &Record) -> &'static str {
    let mut w = Words(&record.words);
    let salt = w.salt();
    let [zone, lowest, energy, after, taken, rest] = w.floats();
    let ends = plain::calculate_new_zone_temperature(&salt, zone, energy);
    let held = plain::calculate_layer_energy_stored(&salt, zone, lowest);
    if zone <= lowest {
        assert_eq!((after, taken, rest), (zone, 0.0, energy));
        match zone == lowest {
            true => "at the lowest",
            false => "under the lowest",
        }
    } else if ends >= lowest {
        assert_eq!((after, taken, rest), (ends, energy, 0.0));
        match (energy < 0.0, energy > held) {
            (true, _) => "warmer",
            (_, true) => "more than held",
            _ => "above the lowest",
        }
    } else {
        assert_eq!((after, taken, rest), (lowest, energy.min(held), energy - taken));
        match energy < held {
            true => "stopped, less than held",
            false => "stopped",
        }
    }
}

#[cfg(published)]
#[test]
fn the_update_with_a_lowest_temperature_goes_every_way() {
    let folder = folder("lowest");
    vectors::write(&folder, COUNT, 16, Some(&["lowest"])).expect("the folder is writable");
    let bytes = fs::read(folder.join("lowest.vec")).expect("the file is there");
    let mut ways = BTreeMap::new();
    for record in read_all(&bytes).expect("a vector file") {
        assert!(record.words.iter().all(|word| !f64::from_bits(*word).is_nan()));
        *ways.entry(lowered(&record)).or_insert(0u64) += 1;
    }
    assert_eq!(ways.len(), 7, "{ways:?}");
    assert!(ways.values().all(|count| *count > COUNT / 200), "{ways:?}");
}

#[cfg(published)]
#[test]
fn the_energy_to_a_level_goes_every_way() {
    let folder = folder("levels");
    let only = Some(&["charge_energy_demand"][..]);
    vectors::write(&folder, COUNT, 15, only).expect("the folder is writable");
    let bytes = fs::read(folder.join("charge_energy_demand.vec")).expect("the file is there");
    let mut ways = BTreeMap::new();
    for record in read_all(&bytes).expect("a vector file") {
        *ways.entry(way(&record)).or_insert(0u64) += 1;
    }
    assert_eq!(ways.len(), 8, "{ways:?}");
    assert!(ways.values().all(|count| *count > COUNT / 40), "{ways:?}");
}

/// A list's answers by the plain implementation, from its own state: how many, by refusal; and the
/// versions and floors of lists.
fn listed(folder: &Path) -> (BTreeMap<u8, u64>, BTreeSet<(u8, u8)>) {
    let bytes = fs::read(folder.join("lists.vec")).expect("the file is there");
    let mut list: Option<(u8, Battery)> = None;
    let mut refusals = BTreeMap::new();
    let (mut versions, mut times) = (BTreeSet::new(), BTreeSet::new());
    for record in read_all(&bytes).expect("a vector file") {
        let mut words = Words(&record.words);
        if record.function == 50 {
            list = Some(words.start());
            assert!(words.0.is_empty());
            continue;
        }
        let (version, before) = list.expect("a start record comes first");
        let call = words.call();
        let (answer, after) = plain::step(version, &before, &call);
        assert_eq!(words.0, Record::new(51).answer(&answer).words, "{before:?} {call:?}");
        *refusals.entry(answer.refusal).or_insert(0u64) += 1;
        versions.insert((version, before.card.floor));
        if matches!(call, Call::Hydronic(_)) {
            times.insert((version, answer.time > 0.0));
        }
        list = Some((version, after));
    }
    assert_eq!(refusals.keys().copied().collect::<Vec<_>>(), [0, 20, 21, 22, 23, 24, 25]);
    // None in version 1, some in the others.
    for (version, _) in &versions {
        assert!(times.contains(&(*version, false)));
        assert_eq!(times.contains(&(*version, true)), *version > 1);
    }
    (refusals, versions)
}

/// The versions with the floor flags that their lists have.
const FLOORS: [(u8, u8); 5] = [(1, 0), (2, 0), (3, 0), (4, 0), (4, 1)];

#[test]
fn stored_lists_agree_with_plain() {
    let (refusals, versions) = listed(&stored());
    assert_eq!(refusals.values().sum::<u64>(), 2000);
    assert_eq!(versions, FLOORS.into());
}

#[cfg(published)]
#[test]
fn lists_agree_with_plain() {
    let folder = folder("lists");
    vectors::write(&folder, COUNT, 12, Some(&["lists"])).expect("the folder is writable");
    let (refusals, versions) = listed(&folder);
    assert_eq!(refusals.values().sum::<u64>(), COUNT);
    assert_eq!(versions, FLOORS.into());
}

#[cfg(published)]
#[test]
fn an_altered_file_differs_in_one_output() {
    let folder = folder("altered");
    vectors::write(&folder, 10, 13, Some(&["ln", "lists"])).expect("the folder is writable");
    let (from, to) = (folder.join("ln.vec"), folder.join("altered.vec"));
    vectors::alter(&from, &to, 7, 0).expect("the record is there");
    let read = |path| read_all(&fs::read(path).expect("it can be read")).expect("a vector file");
    let (before, after) = (read(&from), read(&to));
    for (at, (one, other)) in before.iter().zip(&after).enumerate() {
        assert_eq!(one != other, at == 7);
    }
    assert_eq!(before[7].words[..2], after[7].words[..2]);
    vectors::alter(&from, &to, 7, 1).expect("the word is there");
    let back = read(&to);
    assert_ne!(before[7].words[1], back[7].words[1]);
    assert_eq!(before[7].words[2], back[7].words[2]);
    assert!(vectors::alter(&from, &to, 7, 3).is_err());
    assert!(vectors::alter(&from, &to, 10, 0).is_err());
    assert!(vectors::alter(&folder.join("lists.vec"), &to, 0, 0).is_err());
}

#[cfg(published)]
#[test]
fn a_file_is_the_same_whichever_others_are_written() {
    let (all, one) = (folder("all"), folder("one"));
    vectors::write(&all, 20, 14, None).expect("the folder is writable");
    vectors::write(&one, 20, 14, Some(&["outlet"])).expect("the folder is writable");
    let read = |folder: &PathBuf| fs::read(folder.join("outlet.vec")).expect("the file is there");
    assert_eq!(read(&all), read(&one));
    assert!(vectors::write(&one, 1, 1, Some(&["none"])).is_err());
}

/// An answer that ran no demand shows no outlet: the absent value has zero bytes.
#[test]
fn an_absent_value_is_zero() {
    let battery = Battery::fresh(&oracle::generate::points_card());
    let answer = Answer::plain(0.0, 0, battery.state);
    assert_eq!(Record::new(51).answer(&answer).words[..6], [0; 6]);
}
