//! `audit`: the verdict, which card it is of, and what lies behind it.

use crate::arguments::Arguments;
use crate::card::{accepted, count, floor_words, listed, unlisted};
use crate::failure::Failure;
use crate::files;
use crate::output::print;
use heat_battery::{
    explain, is_too_long, read, Call, Card, Difference, Explanation, Refusal, Value, Verdict,
    Version, MOST_AUDITED,
};
use std::ffi::OsStr;
use std::fmt::Write;

pub fn audit(arguments: &Arguments) -> Result<(), Failure> {
    let path = arguments.place(0);
    let expected = Expected::read(arguments)?;
    let bytes = files::sheet(path)?;
    let verdict = heat_battery::audit(&bytes);
    let card = read(&bytes).ok().map(|(_, card, _)| card);
    let mut text = format!("{verdict}\n");
    if let Some(card) = &card {
        let _ = writeln!(text, "card {}", card.fingerprint());
    }
    if arguments.has("--explain") {
        text.push_str(&words(verdict, &bytes, card.as_ref()));
    }
    if is_too_long(&bytes) {
        text.push_str(&program_words(bytes.len()));
    }
    print(&text)?;
    match (verdict, card) {
        (Verdict::Accepted(lines), Some(card)) => expected.compare(path, &card, lines),
        (Verdict::Accepted(_), None) => Err(files::refused(path, "its card can't be read")),
        (Verdict::Refused { refusal, .. }, _) => {
            Err(files::refused(path, format!("{refusal}{}", files::no_sheet(refusal, &bytes))))
        }
    }
}

/// Where the laboratory's program would answer 44.
fn program_words(length: usize) -> String {
    let said = "the laboratory's audit program would answer 'refused 44 line 0'";
    format!("{said}: it reads at most {MOST_AUDITED} bytes, and this sheet has {length}\n")
}

/// What the caller expects of an accepted sheet.
struct Expected<'a> {
    card: Option<(&'a OsStr, Card)>,
    lines: Option<u64>,
}

impl<'a> Expected<'a> {
    fn read(arguments: &'a Arguments) -> Result<Expected<'a>, Failure> {
        let lines = arguments.whole("--lines").map_err(Failure::Usage)?;
        let Some(path) = arguments.flag("--card") else {
            return Ok(Expected { card: None, lines });
        };
        if files::is_standard(path) && files::is_standard(arguments.place(0)) {
            return Err(Failure::Usage("audit: only one of SHEET and CARD can be '-'".into()));
        }
        Ok(Expected { card: Some((path, accepted(path)?)), lines })
    }

    fn compare(&self, path: &OsStr, card: &Card, lines: u64) -> Result<(), Failure> {
        let mut others = Vec::new();
        if let Some((name, expected)) = &self.card {
            others.extend(other_card(card, expected, &files::name(name)));
        }
        if let Some(expected) = self.lines.filter(|expected| *expected != lines) {
            others.push(format!("{}, not the {expected} expected", count(lines, "call line")));
        }
        match others.is_empty() {
            true => Ok(()),
            false => Err(files::refused(path, others.join("\n"))),
        }
    }
}

/// Where a sheet's card isn't the one expected: both fingerprints and every field that differs.
fn other_card(card: &Card, expected: &Card, name: &str) -> Option<String> {
    let bytes = |card: &Card| card.to_bytes(Version::NEWEST);
    if bytes(card) == bytes(expected) {
        return None;
    }
    let (ours, theirs) = (card.fingerprint(), expected.fingerprint());
    let mut words = format!("its card {ours} is not that of {name}, {theirs}");
    let values = card.values().into_iter().zip(expected.values());
    let floors = (&Card::FLOOR, (Value::Flag(card.floor), Value::Flag(expected.floor)));
    for (field, (ours, theirs)) in Card::FIELDS.iter().zip(values).chain([floors]) {
        let [ours, theirs] = [ours, theirs].map(|value| value.to_string());
        if ours != theirs {
            let _ = write!(words, "\n  {}: the sheet says {ours}, the card {theirs}", field.name);
        }
    }
    let [ours, theirs] = [card, expected].map(|card| listed(&card.services));
    if ours != theirs {
        let _ = write!(words, "\n  services: the sheet lists {ours}, the card {theirs}");
    }
    Some(words)
}

/// An accepted sheet needs no second look.
fn words(verdict: Verdict, bytes: &[u8], card: Option<&Card>) -> String {
    if let Verdict::Accepted(_) = verdict {
        return "every call line agrees with the steps\n".into();
    }
    match explain(bytes) {
        Explanation::Agreement => String::new(),
        Explanation::Damage(damage) => format!("line {}: {}\n", damage.line, damage.words),
        Explanation::Differences { line, call, fields } => {
            let mut text = differences(line, &call, &fields);
            let is_refused = |field: &Difference| field.field == "refusal" && field.given == "21";
            let unlisted = card.and_then(|card| unlisted(card, &call, Refusal::NoService));
            if let Some(words) = unlisted.filter(|_| fields.iter().any(is_refused)) {
                let _ = writeln!(text, "  {words}");
            }
            if call == Call::StandingLoss && card.is_some_and(|card| card.floor) {
                let _ = writeln!(text, "  the card has a floor: {}", floor_words());
            }
            text
        }
    }
}

fn differences(line: u64, call: &Call, fields: &[Difference]) -> String {
    let mut text = format!("line {line} is {call}\n");
    for Difference { field, shown, given } in fields {
        let _ = writeln!(text, "  {field}: the sheet says {shown}, the steps give {given}");
    }
    text
}
