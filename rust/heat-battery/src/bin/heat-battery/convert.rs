//! `convert`: a sheet's card and calls as text.

use crate::arguments::Arguments;
use crate::card::count;
use crate::failure::Failure;
use crate::files::{self, Parts};
use crate::output::{note, write_all};
use heat_battery::{differences, read, text, Line, Sheet, Version};
use std::ffi::{OsStr, OsString};

pub fn convert(arguments: &Arguments) -> Result<(), Failure> {
    let path = arguments.place(0);
    let target = Target::read(arguments)?;
    for out in target.files() {
        files::test_apart(&[path], &out)?;
    }
    let bytes = files::sheet(path)?;
    let parts = files::parts(path, &bytes)?;
    if let Some(damage) = parts.damage {
        return Err(files::refused(path, damage));
    }
    target.write(&parts.card.to_string(), &listed(&parts))?;
    compare(path, &bytes, &parts.lines, &again(&parts))?;
    if parts.version != Version::NEWEST {
        let version = parts.version;
        let name = files::name(path);
        note(&format!("{name}: of version {version}; run --version {version} gives it again"));
    }
    Ok(())
}

/// The calls under the version, which `run` has to be told.
fn listed(parts: &Parts) -> String {
    let calls = text::list(parts.lines.iter().map(|line| line.call));
    format!("# Of a sheet of version {}.\n{calls}", parts.version)
}

/// What is written where.
enum Target<'a> {
    Both(&'a OsStr),
    Card(&'a OsStr),
    Calls(&'a OsStr),
}

impl<'a> Target<'a> {
    fn read(arguments: &'a Arguments) -> Result<Target<'a>, Failure> {
        let out = arguments.flag("-o").unwrap_or(OsStr::new("-"));
        let usage = |words: &str| Err(Failure::Usage(format!("convert: {words}")));
        match arguments.flag("--only").map(OsStr::to_str) {
            Some(Some("card")) => Ok(Target::Card(out)),
            Some(Some("calls")) => Ok(Target::Calls(out)),
            Some(_) => usage("--only card or --only calls"),
            None if files::is_standard(out) => {
                usage("one text goes to standard output: --only card, --only calls, or -o NAME")
            }
            None => Ok(Target::Both(out)),
        }
    }

    /// The files that are written, the card's before the calls'.
    fn files(&self) -> Vec<OsString> {
        match self {
            Target::Card(out) | Target::Calls(out) => vec![out.into()],
            Target::Both(name) => vec![with_ending(name, ".card"), with_ending(name, ".calls")],
        }
    }

    fn write(&self, card: &str, calls: &str) -> Result<(), Failure> {
        let texts = match self {
            Target::Card(_) => vec![card],
            Target::Calls(_) => vec![calls],
            Target::Both(_) => vec![card, calls],
        };
        let files = self.files();
        let written =
            files.iter().map(OsString::as_os_str).zip(texts.iter().map(|text| text.as_bytes()));
        write_all(&written.collect::<Vec<_>>())
    }
}

fn with_ending(name: &OsStr, ending: &str) -> OsString {
    let mut path = name.to_os_string();
    path.push(ending);
    path
}

/// The sheet that running the calls in its version gives.
fn again(parts: &Parts) -> Vec<u8> {
    let Ok(mut sheet) = Sheet::open_as(parts.version, &parts.card) else { return Vec::new() };
    for line in &parts.lines {
        // A refusal is a line, or leaves a shorter sheet.
        let _ = sheet.answer(&line.call);
    }
    sheet.into_bytes()
}

/// Whether the answers are the engine's, by f64 equality as the audit has it.
fn compare(path: &OsStr, bytes: &[u8], lines: &[Line], again: &[u8]) -> Result<(), Failure> {
    let given: Vec<Line> =
        read(again).into_iter().flat_map(|(_, _, lines)| lines).map_while(Result::ok).collect();
    let agree = |(shown, given): (&Line, &Line)| {
        differences(&shown.call, &shown.answer, &given.answer).is_empty()
    };
    if given.len() != lines.len() || !lines.iter().zip(&given).all(agree) {
        let words = "its answers aren't the engine's; run will give another sheet";
        return Err(files::refused(path, words));
    }
    let zeros = bytes.iter().zip(again).filter(|(one, other)| one != other).count();
    if zeros > 0 {
        let zeros = count(zeros as u64, "zero");
        note(&format!("{}: run will give the other sign of {zeros}", files::name(path)));
    }
    Ok(())
}
