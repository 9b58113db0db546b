//! A sheet's bytes read as its version, card and lines, by document 01's layout. What is found
//! here explains; the verdict is the auditor's.

use crate::answer::{Answer, Line};
use crate::bytes::Cursor;
use crate::call::Call;
use crate::card::Card;
use crate::field::Fault;
use crate::refusal::Refusal;
use crate::version::Version;
use std::fmt;

/// Where a sheet leaves the layout: refusal 40, 41 or 42.
#[derive(Clone, Debug, PartialEq, Eq)]
pub struct Damage {
    /// The refusal that the auditor gives.
    pub refusal: Refusal,
    /// The line, 0 for the card's.
    pub line: u64,
    /// What is wrong with it.
    pub words: String,
}

impl Damage {
    fn new(refusal: Refusal, line: u64, words: impl Into<String>) -> Damage {
        Damage { refusal, line, words: words.into() }
    }
}

impl fmt::Display for Damage {
    fn fmt(&self, f: &mut fmt::Formatter<'_>) -> fmt::Result {
        write!(f, "line {}: {} (refusal {})", self.line, self.words, self.refusal.number())
    }
}

impl std::error::Error for Damage {}

/// The version and the card of a sheet, and its lines to be gone through.
///
/// ```
/// use heat_battery::{read, Call, Card, Sheet, Version};
///
/// let mut sheet = Sheet::open(&Card::example()).unwrap();
/// sheet.call(&Call::StandingLoss).unwrap();
/// let (version, card, lines) = read(sheet.as_bytes()).unwrap();
/// assert_eq!((version, card), (Version::NEWEST, Card::example()));
/// for line in lines {
///     assert_eq!(line.unwrap().call, Call::StandingLoss);
/// }
/// ```
pub fn read(sheet: &[u8]) -> Result<(Version, Card, Lines<'_>), Damage> {
    let mut bytes = Cursor(sheet);
    let version =
        first_byte(&mut bytes).map_err(|words| Damage::new(Refusal::NoVersion, 0, words))?;
    let card =
        card_line(version, &mut bytes).map_err(|words| Damage::new(Refusal::BadCard, 0, words))?;
    let lines = Lines { version, card: card.clone(), bytes: bytes.0, index: 0 };
    Ok((version, card, lines))
}

/// The version; the error in words.
fn first_byte(bytes: &mut Cursor) -> Result<Version, String> {
    let first = bytes.byte().ok_or("no bytes at all")?;
    let unknown = || format!("the first byte is {first}, no known version ({})", Version::known());
    Version::from_number(first).ok_or_else(unknown)
}

/// The content of the next line; the error in words.
fn content<'a>(bytes: &mut Cursor<'a>) -> Result<&'a [u8], String> {
    let left = bytes.0.len();
    let length = bytes.short().ok_or(format!("{left} bytes left, too few for a length"))?;
    let after = bytes.0.len();
    let cut = || format!("cut short: its length is {length}, but {after} bytes are left");
    bytes.slice(usize::from(length)).ok_or_else(cut)
}

fn card_line(version: Version, bytes: &mut Cursor) -> Result<Card, String> {
    let words = |fault: &Fault| format!("{fault} (the card's refusal {})", fault.refusal.number());
    let card = Card::read(version, content(bytes)?).map_err(|fault| words(&fault))?;
    match card.faults().first() {
        Some(fault) => Err(words(fault)),
        None => Ok(card),
    }
}

/// The call lines of a sheet; ends after the first damage.
#[derive(Clone, Debug)]
pub struct Lines<'a> {
    version: Version,
    card: Card,
    bytes: &'a [u8],
    index: u64,
}

impl Lines<'_> {
    fn line(&self, content: &[u8]) -> Result<Line, String> {
        let mut bytes = Cursor(content);
        let call = Call::read(self.version, &mut bytes)?;
        let right = call.kind().bytes(self.version) + Answer::bytes(self.card.layers);
        if content.len() != right {
            let kind = call.kind().name();
            return Err(format!("a {kind} line has {right} bytes, this one {}", content.len()));
        }
        if let Some(fault) = call.faults(self.version, &self.card).first() {
            return Err(fault.words.clone());
        }
        let answer = Answer::read(&call, self.card.layers, &mut bytes)?;
        Ok(Line { index: self.index, call, answer })
    }
}

impl Iterator for Lines<'_> {
    type Item = Result<Line, Damage>;

    fn next(&mut self) -> Option<Result<Line, Damage>> {
        if self.bytes.is_empty() {
            return None;
        }
        self.index += 1;
        let mut bytes = Cursor(self.bytes);
        let line = content(&mut bytes).and_then(|content| self.line(content));
        self.bytes = if line.is_ok() { bytes.0 } else { &[] };
        Some(line.map_err(|words| Damage::new(Refusal::BadLine, self.index, words)))
    }
}
