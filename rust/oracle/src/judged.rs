//! The commands that need the judge.

use oracle::arguments::{show, Arguments};
use oracle::library::Independent;
use oracle::{compare, cross, judge, plain, vectors};
use std::path::Path;

pub fn cross(arguments: &Arguments) -> Result<(), String> {
    let counts = cross::run(arguments.number("--count", 100_000)?, arguments.number("--seed", 1)?);
    println!("{counts}");
    match counts.disagreements {
        0 => Ok(()),
        n => Err(format!("judge and plain disagree on {n} calls")),
    }
}

/// The independent entries by the plain steps against the same by the judge's.
pub fn entries(arguments: &Arguments) -> Result<(), String> {
    let (count, seed) = (arguments.number("--count", 200_000)?, arguments.number("--seed", 1)?);
    show(&compare::entries(&Independent { step: judge::step }, plain::step, count, seed))
}

/// The independent auditor by the plain steps against the same by the judge's.
pub fn audit(arguments: &Arguments) -> Result<(), String> {
    let (count, seed) = (arguments.number("--count", 20_000)?, arguments.number("--seed", 1)?);
    show(&compare::audit(&Independent { step: judge::step }, plain::step, count, seed))
}

pub fn write_vectors(arguments: &Arguments, folder: &str) -> Result<(), String> {
    let only: Option<Vec<&str>> =
        arguments.option("--only").map(|names| names.split(',').collect());
    let count = arguments.number("--count", 1000)?;
    let seed = arguments.number("--seed", 1)?;
    vectors::write(Path::new(folder), count, seed, only.as_deref())
}

pub fn alter(from: &str, to: &str, record: &str, back: &str) -> Result<(), String> {
    let record = record.parse().map_err(|_| format!("no record number: {record}"))?;
    let back = back.parse().map_err(|_| format!("no number of words: {back}"))?;
    vectors::alter(Path::new(from), Path::new(to), record, back)
}
