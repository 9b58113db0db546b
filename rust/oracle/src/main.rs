//! The oracle's commands.

#[cfg(published)]
mod judged;

use oracle::arguments::{ended, Arguments};
use oracle::{cases, sheets};
use std::path::Path;
use std::process::ExitCode;

const USAGE: &str = "usage:
  oracle sheets OUTDIR
  oracle cases FILE [--count N] [--seed S]
with the published file also:
  oracle cross [--count N] [--seed S]
  oracle entries [--count N] [--seed S]
  oracle audit [--count N] [--seed S]
  oracle vectors OUTDIR [--count N] [--seed S] [--only NAME,NAME]
  oracle alter IN OUT K [BACK]";

fn run() -> Result<(), String> {
    let arguments = Arguments::read(std::env::args().skip(1))?;
    match arguments.words()[..] {
        ["cases", file] => {
            let count = arguments.number("--count", 100_000)?;
            cases::write(Path::new(file), count, arguments.number("--seed", 1)?)
        }
        ["sheets", folder] => sheets::write(Path::new(folder)),
        #[cfg(published)]
        ["cross"] => judged::cross(&arguments),
        #[cfg(published)]
        ["entries"] => judged::entries(&arguments),
        #[cfg(published)]
        ["audit"] => judged::audit(&arguments),
        #[cfg(published)]
        ["vectors", folder] => judged::write_vectors(&arguments, folder),
        #[cfg(published)]
        ["alter", from, to, record] => judged::alter(from, to, record, "0"),
        #[cfg(published)]
        ["alter", from, to, record, back] => judged::alter(from, to, record, back),
        _ => Err(USAGE.to_string()),
    }
}

fn main() -> ExitCode {
    ended(run())
}
