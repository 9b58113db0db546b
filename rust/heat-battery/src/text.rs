//! Cards and calls as plain text.
//!
//! A card has one `name = value` on each line, the fields in any order, and a line `service 12 =
//! space` for each service that it lists, their numbers rising. A line `floor = yes` may be left out:
//! then there is no floor. A list of calls has one call on each
//! line: its kind, then each of its fields as `name=value`, in any order; a service is a name or a
//! number. What follows `#` is a comment. Numbers are written so that they read back exactly, bit for
//! bit.
//!
//! ```
//! use heat_battery::{text, Call, Card, Service, ServiceClass};
//!
//! let card = Card::example();
//! assert_eq!(card.to_string().parse(), Ok(card.clone()));
//! let listed: Card = format!("{card}service 12 = space\n").parse().unwrap();
//! assert_eq!(listed.services, [Service::new(12, ServiceClass::Space)]);
//! let floored: Card = card.to_string().replace("floor = no", "floor = yes").parse().unwrap();
//! assert!(floored.floor && !card.floor);
//!
//! let list = "# night\nelectric power=3 target=1\nclose_timestep\n";
//! let calls = text::calls(list).unwrap();
//! assert_eq!(calls[1].call, Call::CloseTimestep);
//! assert_eq!(calls[1].line, 3);
//! assert_eq!(calls[0].call.to_string(), "electric power=3.0 target=1.0");
//! ```

use crate::call::{Call, Kind};
use crate::card::Card;
use crate::field::Value;
use crate::form::Form;
use crate::listed_services::{meant_service, number_text, ListedServices, WORD};
pub use crate::nearest::{hint, nearest};
use crate::parse::quoted;
use crate::refusal::Refusal;
use crate::service::Service;
pub use crate::slips::{Slip, Slips};
use std::fmt;
use std::str::FromStr;

/// Lines without comments and blanks, each with its number.
pub(crate) fn bare_lines(text: &str) -> impl Iterator<Item = (usize, &str)> {
    let text = text.strip_prefix('\u{feff}').unwrap_or(text);
    let bare = text.lines().map(|line| line.split('#').next().unwrap_or_default().trim());
    bare.enumerate().map(|(at, line)| (at + 1, line)).filter(|(_, line)| !line.is_empty())
}

/// A card and the lines of the text that its fields stand on.
#[derive(Clone, Debug, PartialEq)]
pub struct ListedCard {
    /// The card, of any numbers.
    pub card: Card,
    /// The line of each field, from 1, in the order of [`Card::FIELDS`].
    pub lines: Vec<usize>,
    /// The line of each service, from 1.
    pub services: Vec<usize>,
}

impl ListedCard {
    /// Every reason for which the card is refused, with its line.
    pub fn faults(&self) -> Slips {
        let mut slips = Slips::default();
        for fault in self.card.faults() {
            let at = Card::FIELDS.iter().position(|field| field.name == fault.field);
            let field = at.and_then(|at| self.lines.get(at));
            let line = fault.service.and_then(|at| self.services.get(at)).or(field).copied();
            slips.add(Slip { line, words: fault.words, refusal: Some(fault.refusal) });
        }
        slips
    }
}

/// A card of any numbers, with its lines; [`Card::check`] says whether it is refused.
///
/// ```
/// use heat_battery::{text, Card};
///
/// let listed = text::card(&Card { lower: 60.0, ..Card::example() }.to_string()).unwrap();
/// assert_eq!(
///     listed.faults().to_string(),
///     "line 13: lower is 60.0, above upper, which is 59.0 (refusal 2)"
/// );
/// ```
pub fn card(text: &str) -> Result<ListedCard, Slips> {
    let mut form = Form::new(&Card::FIELDS).with(&Card::FLOOR, Value::Flag(false));
    let mut services = ListedServices::default();
    let mut slips = Slips::default();
    let unread = |line, words| Slip { line, words, refusal: None };
    for (number, line) in bare_lines(text) {
        let Some((name, value)) =
            line.split_once('=').map(|(name, value)| (name.trim(), value.trim()))
        else {
            slips.add(unread(Some(number), format!("{} is no 'name = value'", quoted(line))));
            continue;
        };
        match number_text(name) {
            Some(service) => {
                services.add(number, service, value).into_iter().for_each(|slip| slips.add(slip));
            }
            None => form.fill(number, name, value).unwrap_or_else(|mut slip| {
                slip.words.push_str(meant_service(name));
                slips.add(slip);
            }),
        }
    }
    if let Some(words) = form.missing() {
        slips.add(unread(None, words));
    }
    if !slips.is_empty() {
        for (field, value, line) in form.filled() {
            if let Some(words) = field.fault(&value) {
                slips.add(Slip { line: Some(line), words, refusal: Some(Refusal::CardOutOfRange) });
            }
        }
        services.faults().for_each(|slip| slips.add(slip));
        return Err(slips);
    }
    let lines = form.filled().map(|(_, _, line)| line).take(Card::FIELDS.len()).collect();
    let ListedServices { services, lines: service_lines, .. } = services;
    let card = match form.values().split_last() {
        Some((Value::Flag(floor), fields)) => {
            Card::from_values(fields).map(|card| Card { services, floor: *floor, ..card })
        }
        _ => None,
    };
    card.map(|card| ListedCard { card, lines, services: service_lines }).ok_or(slips)
}

impl FromStr for Card {
    type Err = Slips;

    /// A card of any numbers; [`Card::check`] says whether it is refused.
    fn from_str(text: &str) -> Result<Card, Slips> {
        card(text).map(|listed| listed.card)
    }
}

/// The card as text, with units and ranges in comments.
impl fmt::Display for Card {
    fn fmt(&self, f: &mut fmt::Formatter<'_>) -> fmt::Result {
        writeln!(f, "# A heat battery's card: one name = value on each line.")?;
        writeln!(f, "# lower is not above upper; max is above 20 °C and above reference.")?;
        let floor = (&Card::FLOOR, Value::Flag(self.floor));
        for (field, value) in Card::FIELDS.iter().zip(self.values()).chain([floor]) {
            let setting = format!("{} = {value}", field.name);
            writeln!(f, "{setting:<27} # {}: {}", field.about, field.range())?;
        }
        writeln!(
            f,
            "# Services by number, from version 3 on: at most 32, numbers rising from 4 to 65535,"
        )?;
        writeln!(f, "# each of them regular, space or direct, such as")?;
        writeln!(f, "#   {WORD} 12 = space")?;
        for Service { number, class } in &self.services {
            writeln!(f, "{WORD} {number} = {class}")?;
        }
        Ok(())
    }
}

impl FromStr for Call {
    type Err = Slips;

    fn from_str(text: &str) -> Result<Call, Slips> {
        let listed = calls(text)?;
        let words = match listed.as_slice() {
            [listed] => return Ok(listed.call),
            [] => "no call",
            _ => "more than one call",
        };
        let mut slips = Slips::default();
        slips.add(Slip { line: None, words: words.into(), refusal: None });
        Err(slips)
    }
}

/// The call as a line of text, without its end.
impl fmt::Display for Call {
    fn fmt(&self, f: &mut fmt::Formatter<'_>) -> fmt::Result {
        f.write_str(self.kind().name())?;
        for (field, value) in self.fields() {
            write!(f, " {}={value}", field.name)?;
        }
        Ok(())
    }
}

/// A call of a bare line with its number.
fn call(number: usize, line: &str) -> Result<Call, Slip> {
    let slip = |words| Slip { line: Some(number), words, refusal: None };
    let mut words = line.split_whitespace();
    let name = words.next().unwrap_or_default();
    let kind = Kind::ALL.into_iter().find(|kind| kind.name() == name);
    let kind = kind.ok_or_else(|| slip(no_call(name)))?;
    let mut form = Form::new(kind.fields());
    for word in words {
        let split =
            word.split_once('=').filter(|(name, value)| !name.is_empty() && !value.is_empty());
        let no_field = || slip(format!("{} is no name=value (without blanks)", quoted(word)));
        let (name, value) = split.ok_or_else(no_field)?;
        form.fill(number, name, value)?;
    }
    match form.missing() {
        Some(words) => Err(slip(words)),
        None => Call::from_values(kind, &form.values()).ok_or_else(|| slip("no call".into())),
    }
}

fn no_call(name: &str) -> String {
    let names = Kind::ALL.map(|kind| kind.name());
    let meant = hint(name, names);
    match meant.is_empty() {
        true => format!("{} is no call; the calls are {}", quoted(name), names.join(", ")),
        false => format!("{} is no call{meant}", quoted(name)),
    }
}

/// A call and the line of the text that it stands on.
#[derive(Clone, Copy, Debug, PartialEq)]
pub struct ListedCall {
    /// The line of the text, from 1.
    pub line: usize,
    /// The call; its fields may be out of range.
    pub call: Call,
}

/// The calls of a list.
pub fn calls(text: &str) -> Result<Vec<ListedCall>, Slips> {
    let mut calls = Vec::new();
    let mut slips = Slips::default();
    for (line, bare) in bare_lines(text) {
        match call(line, bare) {
            Ok(call) => calls.push(ListedCall { line, call }),
            Err(slip) => slips.add(slip),
        }
    }
    match slips.is_empty() {
        true => Ok(calls),
        false => Err(slips),
    }
}

/// The calls as text, one on each line.
pub fn list(calls: impl IntoIterator<Item = Call>) -> String {
    let mut text = String::from("# Calls: a kind and its fields on each line.\n");
    for call in calls {
        text.push_str(&call.to_string());
        text.push('\n');
    }
    text
}
