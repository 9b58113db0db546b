//! The command `heat-battery`: cards and calls as text, sheets to look at, audit and draw.

mod arguments;
mod audit;
mod axis;
mod card;
mod convert;
mod course;
mod failure;
mod files;
mod help;
mod holds;
mod json;
mod legend;
mod output;
mod picture;
mod plot;
mod progress;
mod refusals;
mod run;
mod show;
mod svg;

use arguments::{Arguments, Flag, END};
use failure::Failure;
use heat_battery::text::hint;
use output::print;
use std::ffi::OsString;
use std::process::ExitCode;

/// A subcommand: its words, its places, its options and what it does.
struct Command {
    name: &'static [&'static str],
    places: &'static [&'static str],
    flags: &'static [Flag],
    run: fn(&Arguments) -> Result<(), Failure>,
    help: &'static str,
}

const COMMANDS: [Command; 8] = [
    Command {
        name: &["card", "check"],
        places: &["FILE"],
        flags: &[],
        run: card::check,
        help: help::CARD_CHECK,
    },
    Command {
        name: &["card", "template"],
        places: &[],
        flags: &[],
        run: card::template,
        help: help::CARD_TEMPLATE,
    },
    Command {
        name: &["run"],
        places: &["CARD", "CALLS"],
        flags: &[
            Flag::value("-o"),
            Flag::value("--version"),
            Flag::bare("--stop"),
            Flag::value("--most"),
            Flag::bare("--unmet-fails"),
        ],
        run: run::run,
        help: help::RUN,
    },
    Command {
        name: &["show"],
        places: &["SHEET"],
        flags: &[Flag::bare("--json"), Flag::bare("--unmet-fails")],
        run: show::show,
        help: help::SHOW,
    },
    Command {
        name: &["audit"],
        places: &["SHEET"],
        flags: &[Flag::bare("--explain"), Flag::value("--card"), Flag::value("--lines")],
        run: audit::audit,
        help: help::AUDIT,
    },
    Command {
        name: &["plot"],
        places: &["SHEET"],
        flags: &[Flag::value("-o"), Flag::value("--from"), Flag::value("--to")],
        run: plot::plot,
        help: help::PLOT,
    },
    Command {
        name: &["convert"],
        places: &["SHEET"],
        flags: &[Flag::value("-o"), Flag::value("--only")],
        run: convert::convert,
        help: help::CONVERT,
    },
    Command {
        name: &["refusals"],
        places: &[],
        flags: &[],
        run: refusals::refusals,
        help: help::REFUSALS,
    },
];

/// Whether the words begin with the command's name.
fn is_named(words: &[OsString], command: &Command) -> bool {
    words.len() >= command.name.len()
        && words.iter().zip(command.name).all(|(word, name)| word == name)
}

fn is_help(word: &OsString) -> bool {
    word == "--help" || word == "-h"
}

fn start(words: &[OsString]) -> Result<(), Failure> {
    let Some(command) = COMMANDS.iter().find(|command| is_named(words, command)) else {
        return without_command(words);
    };
    let rest = words.get(command.name.len()..).unwrap_or_default();
    if rest.iter().take_while(|word| *word != END).any(is_help) {
        return print(command.help);
    }
    let arguments = Arguments::read(rest, command.places, command.flags).map_err(|words| {
        let name = command.name.join(" ");
        Failure::Usage(format!("{words}; see heat-battery {name} --help"))
    })?;
    (command.run)(&arguments)
}

fn without_command(words: &[OsString]) -> Result<(), Failure> {
    let word = |at: usize| words.get(at).map(|word| word.to_string_lossy());
    match (word(0).as_deref(), word(1).as_deref()) {
        (None, _) => Err(Failure::Usage("no command; see heat-battery --help".into())),
        (Some("-h" | "--help" | "help"), _) => print(help::ALL),
        (Some("-V" | "--version"), _) => {
            print(&format!("heat-battery {}\n", env!("CARGO_PKG_VERSION")))
        }
        (Some("card"), Some("-h" | "--help")) => print(help::CARD),
        (Some("card"), None) => {
            Err(Failure::Usage("card: check or template? See heat-battery card --help".into()))
        }
        (Some("card"), Some(second)) => Err(no_command(second, 1)),
        (Some(first), _) => Err(no_command(first, 0)),
    }
}

/// A word that isn't the first or the second of a command; the nearest that is.
fn no_command(word: &str, at: usize) -> Failure {
    let names: Vec<String> = COMMANDS.iter().map(|command| command.name.join(" ")).collect();
    let there = COMMANDS.iter().filter_map(|command| command.name.get(at).copied());
    let meant = match hint(word, there) {
        none if none.is_empty() => format!("; the commands are {}", names.join(", ")),
        meant => meant,
    };
    Failure::Usage(format!("no such command: {}{meant}", word.escape_debug()))
}

fn main() -> ExitCode {
    let words: Vec<OsString> = std::env::args_os().skip(1).collect();
    match start(&words) {
        Ok(()) => ExitCode::SUCCESS,
        Err(failure) => failure.report(),
    }
}
