//! The words after a command: places in order, options by name.

use heat_battery::text::hint;
use std::ffi::{OsStr, OsString};
use std::os::unix::ffi::OsStrExt;

/// An option, with or without a value.
#[derive(Clone, Copy)]
pub struct Flag {
    name: &'static str,
    has_value: bool,
}

impl Flag {
    pub const fn bare(name: &'static str) -> Flag {
        Flag { name, has_value: false }
    }

    pub const fn value(name: &'static str) -> Flag {
        Flag { name, has_value: true }
    }
}

pub struct Arguments {
    places: Vec<OsString>,
    flags: Vec<(&'static str, OsString)>,
}

/// Behind this word every word is a place.
pub const END: &str = "--";

impl Arguments {
    /// The error in words.
    pub fn read(
        words: &[OsString],
        places: &[&'static str],
        flags: &[Flag],
    ) -> Result<Arguments, String> {
        let mut read = Arguments { places: Vec::new(), flags: Vec::new() };
        let mut words = words.iter();
        while let Some(word) = words.next() {
            let (name, value) = split(word);
            match flags.iter().find(|flag| name == flag.name) {
                Some(flag) => read.add_flag(flag, value, &mut words)?,
                None if word == END => read.places.extend(words.by_ref().cloned()),
                None if looks_like_flag(word) => return Err(no_option(name, flags)),
                None => read.places.push(word.clone()),
            }
        }
        match (read.places.len(), places.get(read.places.len())) {
            (_, Some(missing)) => Err(format!("{missing} is missing")),
            (count, None) if count > places.len() => Err("too many words".into()),
            _ => Ok(read),
        }
    }

    /// Adds an option with the value after its '=', or with the next word.
    fn add_flag<'a>(
        &mut self,
        flag: &Flag,
        value: Option<&OsStr>,
        words: &mut impl Iterator<Item = &'a OsString>,
    ) -> Result<(), String> {
        let name = flag.name;
        if self.flag(name).is_some() {
            return Err(format!("{name} stands twice"));
        }
        let value = match (flag.has_value, value) {
            (true, Some(value)) => value.into(),
            (true, None) => words.next().ok_or(format!("{name} needs a value"))?.clone(),
            (false, Some(_)) => return Err(format!("{name} takes no value")),
            (false, None) => OsString::new(),
        };
        self.flags.push((name, value));
        Ok(())
    }

    /// The place of a number; empty where there is none.
    pub fn place(&self, at: usize) -> &OsStr {
        self.places.get(at).map_or(OsStr::new(""), OsString::as_os_str)
    }

    /// An option's value, empty for one without.
    pub fn flag(&self, name: &str) -> Option<&OsStr> {
        let found = self.flags.iter().find(|(known, _)| *known == name);
        found.map(|(_, value)| value.as_os_str())
    }

    pub fn has(&self, name: &str) -> bool {
        self.flag(name).is_some()
    }

    /// An option's value as a whole number; the error in words.
    pub fn whole(&self, name: &str) -> Result<Option<u64>, String> {
        let Some(value) = self.flag(name) else { return Ok(None) };
        let number = value.to_str().and_then(|value| value.parse().ok());
        number.map(Some).ok_or(format!("{name} needs a whole number"))
    }
}

/// '--name=value' as its two parts; any other word as it is.
fn split(word: &OsStr) -> (&OsStr, Option<&OsStr>) {
    let bytes = word.as_bytes();
    let equals = bytes.iter().position(|byte| *byte == b'=').filter(|_| bytes.starts_with(b"--"));
    match equals.map(|at| bytes.split_at(at)) {
        Some((name, value)) => (OsStr::from_bytes(name), value.get(1..).map(OsStr::from_bytes)),
        None => (word, None),
    }
}

/// A lone '-' is standard input or output.
fn looks_like_flag(word: &OsStr) -> bool {
    word.to_string_lossy().starts_with('-') && word != "-"
}

fn no_option(name: &OsStr, flags: &[Flag]) -> String {
    let name = name.to_string_lossy();
    format!("no option {name}{}", hint(&name, flags.iter().map(|flag| flag.name)))
}
