//! A command's words and options.

use crate::compare::Report;
use crate::entries::{self, Step};
use std::process::ExitCode;

/// Words that are no options, and options with their values.
pub struct Arguments {
    words: Vec<String>,
    options: Vec<(String, String)>,
}

impl Arguments {
    pub fn read(mut arguments: impl Iterator<Item = String>) -> Result<Self, String> {
        let mut read = Arguments { words: Vec::new(), options: Vec::new() };
        while let Some(word) = arguments.next() {
            if word.starts_with("--") {
                let value = arguments.next().ok_or(format!("{word} needs a value"))?;
                read.options.push((word, value));
            } else {
                read.words.push(word);
            }
        }
        Ok(read)
    }

    pub fn words(&self) -> Vec<&str> {
        self.words.iter().map(String::as_str).collect()
    }

    pub fn option(&self, name: &str) -> Option<&str> {
        self.options.iter().find(|(option, _)| option == name).map(|(_, value)| value.as_str())
    }

    pub fn number(&self, name: &str, default: u64) -> Result<u64, String> {
        match self.option(name) {
            None => Ok(default),
            Some(value) => value.parse().map_err(|_| format!("{name} needs a number, not {value}")),
        }
    }

    /// `--steps plain`, `--steps judge`, or `--steps best`: the judge's where it is there.
    pub fn steps(&self, default: Step) -> Result<Step, String> {
        match self.option("--steps") {
            None => Ok(default),
            Some(name) => {
                let words = "--steps takes plain, best or, with the published file, judge";
                entries::steps(name).ok_or(format!("{words}, not {name}"))
            }
        }
    }
}

/// Prints a comparison's counts; an error where it is not clean.
pub fn show(report: &Report) -> Result<(), String> {
    println!("{report}");
    match report.is_clean() {
        true => Ok(()),
        false => Err("the comparison failed".to_string()),
    }
}

/// How a command ends: an error is printed.
pub fn ended(result: Result<(), String>) -> ExitCode {
    match result {
        Ok(()) => ExitCode::SUCCESS,
        Err(message) => {
            eprintln!("{message}");
            ExitCode::FAILURE
        }
    }
}
