//! `run`: a list of calls, made and written as a sheet.

use crate::arguments::Arguments;
use crate::card::{accepted, count, floor_words, listed, unlisted};
use crate::failure::Failure;
use crate::files;
use crate::output::{note, write};
use crate::progress::Progress;
use heat_battery::text::{self, ListedCall};
use heat_battery::{shortfall, Call, Card, Looks, Refusal, Sheet, Unmet, Version, MOST_AUDITED};
use std::ffi::OsStr;

pub fn run(arguments: &Arguments) -> Result<(), Failure> {
    let (card_path, calls_path) = (arguments.place(0), arguments.place(1));
    let out = arguments.flag("-o").ok_or(Failure::Usage("run: -o SHEET is missing".into()))?;
    let version = version(arguments)?;
    let most = arguments.whole("--most").map_err(Failure::Usage)?;
    let most = most.map_or(usize::MAX, |most| usize::try_from(most).unwrap_or(usize::MAX));
    test_paths(card_path, calls_path, out)?;
    let card = accepted(card_path)?;
    let calls = text::calls(&files::text(calls_path, Looks::Calls)?)
        .map_err(|slips| files::trouble(calls_path, format!("no list of calls:\n{slips}")))?;
    test_version(version, card_path, &card, calls_path, &calls)?;
    let sheet = Sheet::open_within(version, &card, most)
        .map_err(|refusal| Failure::Refused(format!("no sheet: {refusal}")))?;
    let mut list = List::new(sheet, files::name(calls_path), calls.len());
    list.make(&calls, arguments.has("--stop"));
    write(out, list.sheet.as_bytes())?;
    list.close(calls.len(), arguments.has("--unmet-fails"))
}

/// The version asked for, or the newest.
fn version(arguments: &Arguments) -> Result<Version, Failure> {
    let Some(value) = arguments.flag("--version") else { return Ok(Version::NEWEST) };
    let number = value.to_str().and_then(|value| value.parse().ok());
    number.and_then(Version::from_number).ok_or_else(|| {
        let value = value.to_string_lossy().escape_debug().to_string();
        let known = Version::known();
        Failure::Usage(format!("run: --version {value} is no known version of a sheet ({known})"))
    })
}

/// An error where the card or a call has what no sheet of the version can have.
fn test_version(
    version: Version,
    card_path: &OsStr,
    card: &Card,
    calls_path: &OsStr,
    calls: &[ListedCall],
) -> Result<(), Failure> {
    if card.floor && !version.has_floor() {
        let later = format!("of version {} and later", Version::Four);
        let words = format!("a sheet of version {version} has none, it is {later}");
        return Err(files::refused(card_path, format!("has a floor ({}); {words}", floor_words())));
    }
    let later = format!("of version {} and later", Version::Three);
    if !card.services.is_empty() && !version.has_services() {
        let services = listed(&card.services);
        let words = format!("a sheet of version {version} has none, they are {later}");
        return Err(files::refused(card_path, format!("lists services ({services}); {words}")));
    }
    for ListedCall { line, call } in calls {
        match call {
            Call::Demand { service, .. } if !call.stands_in(version) => {
                let words =
                    format!("a sheet of version {version} has none above 3, they are {later}");
                let start = format!("line {line} is for service {service}");
                return Err(files::refused(calls_path, format!("{start}; {words}")));
            }
            _ => {}
        }
    }
    Ok(())
}

fn test_paths(card: &OsStr, calls: &OsStr, out: &OsStr) -> Result<(), Failure> {
    if files::is_standard(card) && files::is_standard(calls) {
        return Err(Failure::Usage("run: only one of CARD and CALLS can be '-'".into()));
    }
    files::test_apart(&[card, calls], out)?;
    if files::looks_like(card, Looks::Calls) && files::looks_like(calls, Looks::Card) {
        let [card, calls] = [card, calls].map(files::name);
        let words = format!("{card} is a list of calls and {calls} a card");
        return Err(Failure::Usage(format!("run: CARD and CALLS are swapped: {words}")));
    }
    Ok(())
}

/// The most refused calls that are reported; the others are counted.
const MOST_REPORTS: usize = 20;

struct List {
    sheet: Sheet,
    /// Of the calls' file.
    name: String,
    refused: usize,
    unmet: Unmet,
    progress: Progress,
}

impl List {
    fn new(sheet: Sheet, name: String, calls: usize) -> List {
        let unmet = Unmet::default();
        List { sheet, name, refused: 0, unmet, progress: Progress::new(calls) }
    }

    /// Makes the calls up to one that has no room or, if asked to stop, up to a refused one.
    fn make(&mut self, calls: &[ListedCall], stop: bool) {
        for (at, listed) in calls.iter().enumerate() {
            self.progress.show(at);
            let Some(refusal) = self.call(listed) else { continue };
            self.refused += 1;
            if self.refused <= MOST_REPORTS {
                self.report(at + 1, listed, refusal);
            }
            if refusal == Refusal::NoRoom {
                let left = count((calls.len() - at - 1) as u64, "call");
                note(&format!("the sheet is full; not made besides: {left}"));
            }
            if stop || refusal == Refusal::NoRoom {
                break;
            }
        }
        self.progress.end();
        if let Some(more @ 1..) = self.refused.checked_sub(MOST_REPORTS) {
            note(&format!("and {} refused", count(more as u64, "more call")));
        }
    }

    /// Makes a call; the refusal, as a line or not.
    fn call(&mut self, listed: &ListedCall) -> Option<Refusal> {
        match self.sheet.answer(&listed.call) {
            Ok(answer) => {
                self.unmet.add(shortfall(&listed.call, &answer));
                answer.refusal
            }
            Err(refusal) => Some(refusal),
        }
    }

    /// The number of the call, its line in the text, the refusal, and where it stands.
    fn report(&mut self, number: usize, listed: &ListedCall, refusal: Refusal) {
        self.progress.end();
        let place = match refusal.is_line() {
            true => format!("line {} of the sheet", self.sheet.len()),
            false => "no line on the sheet".into(),
        };
        let kind = listed.call.kind().name();
        let start = format!("{} line {}, call {number} ({kind})", self.name, listed.line);
        note(&format!("{start}: refused {refusal}; {place}"));
        if refusal == Refusal::BadCall {
            let (version, card) = (self.sheet.version(), self.sheet.battery().card());
            for fault in listed.call.faults(version, card) {
                note(&format!("  {fault}"));
            }
        }
        if let Some(words) = unlisted(self.sheet.battery().card(), &listed.call, refusal) {
            note(&format!("  {words}"));
        }
    }

    fn close(&self, calls: usize, unmet_fails: bool) -> Result<(), Failure> {
        let bytes = self.sheet.as_bytes().len();
        let [calls, lines, length] =
            [(calls as u64, "call"), (self.sheet.len(), "line"), (bytes as u64, "byte")]
                .map(|(number, thing)| count(number, thing));
        let version = self.sheet.version();
        let card = self.sheet.battery().card().fingerprint();
        let made = format!("{calls}, {} refused: {lines}, {length}", self.refused);
        note(&format!("{made}, version {version}, card {card}"));
        if !self.unmet.is_none() {
            note(&self.unmet.to_string());
        }
        if bytes > MOST_AUDITED {
            let said = "the laboratory's audit program reads at most";
            note(&format!("{said} {MOST_AUDITED} bytes and would refuse it with 44"));
        }
        match self.refused {
            0 if unmet_fails => unmet_status(&self.name, self.unmet),
            0 => Ok(()),
            count => Err(Failure::Refused(format!("{}: {count} refused", self.name))),
        }
    }
}

/// Unmet demand is a failure.
pub fn unmet_status(name: &str, unmet: Unmet) -> Result<(), Failure> {
    match unmet.is_none() {
        true => Ok(()),
        false => Err(Failure::Unmet(format!("{name}: {unmet}"))),
    }
}
