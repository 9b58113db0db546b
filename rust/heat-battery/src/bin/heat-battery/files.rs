//! Files read up to a limit.

use crate::failure::Failure;
use heat_battery::{looks, read, Card, Damage, Line, Looks, Refusal, Version};
use std::ffi::OsStr;
use std::fmt::Display;
use std::fs::{self, File};
use std::io::{self, Read};
use std::path::Path;

/// The most bytes of a file that is read; a year of half-hours has some ten million.
const MOST: usize = 128 << 20;

/// '-' is standard input and output.
pub fn is_standard(path: &OsStr) -> bool {
    path == "-"
}

/// A file's name for messages.
pub fn name(path: &OsStr) -> String {
    match is_standard(path) {
        true => "standard input".into(),
        false => path.to_string_lossy().escape_debug().to_string(),
    }
}

/// What a file can't be read or written for.
pub fn trouble(path: &OsStr, words: impl Display) -> Failure {
    Failure::File(format!("{}: {words}", name(path)))
}

/// What a file is refused for.
pub fn refused(path: &OsStr, words: impl Display) -> Failure {
    Failure::Refused(format!("{}: {words}", name(path)))
}

fn bytes(path: &OsStr) -> Result<Vec<u8>, Failure> {
    let mut bytes = Vec::new();
    let limit = MOST as u64 + 1;
    let taken = match is_standard(path) {
        true => io::stdin().lock().take(limit).read_to_end(&mut bytes),
        false if Path::new(path).is_dir() => return Err(trouble(path, "is a folder")),
        false => File::open(path).and_then(|file| file.take(limit).read_to_end(&mut bytes)),
    };
    taken.map_err(|error| trouble(path, error))?;
    match bytes.len() > MOST {
        true => Err(trouble(path, format!("has more than {MOST} bytes, too many to read"))),
        false => Ok(bytes),
    }
}

pub fn sheet(path: &OsStr) -> Result<Vec<u8>, Failure> {
    bytes(path)
}

/// A text that should look like something: an error where it looks like something else.
pub fn text(path: &OsStr, expected: Looks) -> Result<String, Failure> {
    let bytes = bytes(path)?;
    match looks(&bytes) {
        Some(other) if other != expected => {
            Err(trouble(path, format!("this is {other}, not {expected}")))
        }
        _ => String::from_utf8(bytes).map_err(|_| trouble(path, "is no text (UTF-8)")),
    }
}

/// Whether a file looks like something; not asked of standard input, which is read once.
pub fn looks_like(path: &OsStr, expected: Looks) -> bool {
    let is_file = !is_standard(path) && Path::new(path).is_file();
    is_file && bytes(path).is_ok_and(|bytes| looks(&bytes) == Some(expected))
}

/// An error where output would go to a file that is read.
pub fn test_apart(read: &[&OsStr], written: &OsStr) -> Result<(), Failure> {
    match read.iter().any(|path| is_same(path, written)) {
        true => Err(Failure::Usage(format!("{} would be overwritten", name(written)))),
        false => Ok(()),
    }
}

/// Whether two paths are of one file.
fn is_same(one: &OsStr, other: &OsStr) -> bool {
    match (fs::canonicalize(one), fs::canonicalize(other)) {
        (Ok(one), Ok(other)) => one == other,
        _ => false,
    }
}

/// A sheet as far as it can be read.
pub struct Parts {
    pub version: Version,
    pub card: Card,
    /// Up to the first damage.
    pub lines: Vec<Line>,
    pub damage: Option<Damage>,
}

pub fn parts(path: &OsStr, bytes: &[u8]) -> Result<Parts, Failure> {
    let (version, card, lines) = read(bytes)
        .map_err(|damage| refused(path, format!("{damage}{}", no_sheet(damage.refusal, bytes))))?;
    let mut parts = Parts { version, card, lines: Vec::new(), damage: None };
    for line in lines {
        match line {
            Ok(line) => parts.lines.push(line),
            Err(damage) => parts.damage = Some(damage),
        }
    }
    Ok(parts)
}

/// The end of a message on bytes that are refused for their first one: what they are instead of
/// a sheet.
pub fn no_sheet(refusal: Refusal, bytes: &[u8]) -> String {
    match looks(bytes).filter(|_| refusal == Refusal::NoVersion) {
        Some(other) => format!("; this is {other}, not a sheet"),
        None => String::new(),
    }
}
