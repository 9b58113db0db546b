//! Compares the C entries of libheat_battery.a with the oracle's independent ones.

use entries::Linked;
use oracle::arguments::{ended, show, Arguments};
use oracle::{compare, plain};
use std::process::ExitCode;

const USAGE: &str = "usage:
  entries entries [--count N] [--seed S] [--steps plain|judge|best]
  entries audit [--count N] [--seed S] [--steps plain|judge|best]";

fn run() -> Result<(), String> {
    let arguments = Arguments::read(std::env::args().skip(1))?;
    let seed = arguments.number("--seed", 1)?;
    let step = arguments.steps(plain::step)?;
    match arguments.words()[..] {
        ["entries"] => {
            let count = arguments.number("--count", 200_000)?;
            show(&compare::entries(&Linked, step, count, seed))
        }
        ["audit"] => {
            let count = arguments.number("--count", 20_000)?;
            show(&compare::audit(&Linked, step, count, seed))
        }
        _ => Err(USAGE.to_string()),
    }
}

fn main() -> ExitCode {
    ended(run())
}
