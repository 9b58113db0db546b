//! How a command ends when it doesn't end well.

use crate::output::note;
use std::process::ExitCode;

pub enum Failure {
    /// The words of the command line: status 2.
    Usage(String),
    /// A file, or what stands in it: status 2.
    File(String),
    /// A card, a call or a sheet is refused: status 1.
    Refused(String),
    /// A demand isn't met and --unmet-fails stands there: status 3.
    Unmet(String),
}

impl Failure {
    /// Says what happened and gives the exit status.
    pub fn report(&self) -> ExitCode {
        let (words, status) = match self {
            Failure::Refused(words) => (words, 1),
            Failure::Usage(words) | Failure::File(words) => (words, 2),
            Failure::Unmet(words) => (words, 3),
        };
        note(&format!("heat-battery: {words}"));
        ExitCode::from(status)
    }
}
