//! Vector files: inputs and expected outputs of single functions and of whole lists of calls.
//! Functions of the published file are answered by the judge, what it doesn't have by the plain
//! implementation.

mod stand_in_records;
mod zone_records;

use crate::generate;
use crate::judge;
use crate::model::{Card, Services, VERSIONS};
use crate::random::Random;
use crate::record::{self, Record, START};
use std::fs;
use std::path::Path;

type Make = fn(&mut Random) -> Record;

/// What a file has.
enum Content {
    /// One record after another of one function.
    Records(Make),
    /// Lists of calls.
    Lists,
}

use Content::{Lists, Records};

/// A file's place settles its random numbers, so a new file is the last one.
const FILES: [(&str, Content); 24] = [
    ("finite", Records(stand_in_records::finite)),
    ("nearly_equal", Records(stand_in_records::nearly_equal)),
    ("max_zero", Records(stand_in_records::max_zero)),
    ("min", Records(stand_in_records::min)),
    ("square", Records(stand_in_records::square)),
    ("sum2", Records(stand_in_records::sum2)),
    ("ln", Records(stand_in_records::ln)),
    ("truncate", Records(stand_in_records::truncate)),
    ("layer_energy", Records(zone_records::layer_energy)),
    ("soc_to_temp", Records(zone_records::soc_to_temp)),
    ("state_of_charge", Records(zone_records::state_of_charge)),
    ("energy_required", Records(zone_records::energy_required)),
    ("new_temperature", Records(zone_records::new_temperature)),
    ("simultaneous", Records(zone_records::simultaneous)),
    ("viscosity", Records(zone_records::viscosity)),
    ("reynolds", Records(zone_records::reynolds)),
    ("heat_transfer", Records(zone_records::heat_transfer)),
    ("outlet", Records(zone_records::outlet)),
    ("zone_properties", Records(zone_records::zone_properties)),
    ("card", Records(zone_records::card)),
    ("substep", Records(zone_records::substep)),
    ("lists", Lists),
    ("charge_energy_demand", Records(zone_records::charge_energy_demand)),
    ("lowest", Records(zone_records::lowest)),
];

/// Bytes of `count` records of one function.
fn function_file(make: Make, count: u64, mut random: Random) -> Vec<u8> {
    let mut bytes = Vec::new();
    for _ in 0..count {
        make(&mut random).write(&mut bytes);
    }
    bytes
}

/// Bytes of lists with `count` calls in all, each list of one version after its start record. Cards
/// list no services, and types are 0 to 3 in every version: VECTORS.md's words have no others.
fn lists_file(count: u64, mut random: Random) -> Vec<u8> {
    let mut bytes = Vec::new();
    let mut left = count;
    while left > 0 {
        let version = generate::version(&mut random);
        let card = generate::card_of(&mut random, version);
        let card = Card { services: Services::default(), ..card };
        let mut battery = generate::battery(&mut random, &card);
        Record::new(START)
            .battery(&battery)
            .word(u64::from(version))
            .word(u64::from(card.floor))
            .write(&mut bytes);
        let calls = generate::list_length(&mut random).min(left);
        for _ in 0..calls {
            let call = generate::next_call(&mut random, VERSIONS[0], &battery);
            let (answer, after) = judge::step(version, &battery, &call);
            Record::new(51).call(&call).answer(&answer).write(&mut bytes);
            battery = after;
        }
        left -= calls;
    }
    bytes
}

/// The same file for the same seed, whichever others are written.
fn random_for(seed: u64, file: usize) -> Random {
    Random::new(Random::new(seed).word().wrapping_add(file as u64))
}

/// Writes the files, or only those named.
pub fn write(folder: &Path, count: u64, seed: u64, only: Option<&[&str]>) -> Result<(), String> {
    let known = |name: &&str| FILES.iter().any(|(file, _)| file == name);
    if let Some(name) = only.into_iter().flatten().find(|name| !known(name)) {
        return Err(format!("no vector file is called {name}"));
    }
    fs::create_dir_all(folder).map_err(|error| format!("{}: {error}", folder.display()))?;
    for (at, (name, content)) in FILES.iter().enumerate() {
        if only.is_none_or(|names| names.contains(name)) {
            let random = random_for(seed, at);
            let bytes = match content {
                Records(make) => function_file(*make, count, random),
                Lists => lists_file(count, random),
            };
            save(folder, name, bytes, count)?;
        }
    }
    Ok(())
}

fn save(folder: &Path, name: &str, bytes: Vec<u8>, count: u64) -> Result<(), String> {
    let path = folder.join(name).with_extension("vec");
    println!("{name}: {count} records, {} bytes", bytes.len());
    fs::write(&path, bytes).map_err(|error| format!("{}: {error}", path.display()))
}

/// Copies a vector file with one bit of an output of a record changed: the last, or `back` words
/// before it. Records are counted from 0; one without outputs cannot be chosen.
pub fn alter(from: &Path, to: &Path, record: usize, back: usize) -> Result<(), String> {
    let bytes = fs::read(from).map_err(|error| format!("{}: {error}", from.display()))?;
    let mut records = record::read_all(&bytes).ok_or("not a vector file")?;
    let chosen = records.get_mut(record).ok_or("the file has no such record")?;
    if chosen.function == START {
        return Err("this record has no output".to_string());
    }
    let word = chosen.words.iter_mut().rev().nth(back).ok_or("the record is shorter")?;
    // Another NaN would be no other answer.
    *word ^= if *word == record::NAN { 1 << 62 } else { 1 };
    let mut altered = Vec::new();
    for record in &records {
        record.write(&mut altered);
    }
    fs::write(to, altered).map_err(|error| format!("{}: {error}", to.display()))
}
