//! The services of a card's text: a line `service 12 = space` for each.

use crate::nearest::{hint, nearest};
use crate::parse::{cut, is_digits, quoted};
use crate::refusal::Refusal;
use crate::service::{Service, ServiceClass};
use crate::slips::Slip;

/// The word before a service's number.
pub(crate) const WORD: &str = "service";

/// Services and the lines that they stand on, in the order of the text.
#[derive(Default)]
pub(crate) struct ListedServices {
    pub services: Vec<Service>,
    pub lines: Vec<usize>,
    /// Lines that name a service, those that can't be taken among them.
    named: usize,
}

/// What stands behind the word, where a name before the '=' begins with it.
pub(crate) fn number_text(name: &str) -> Option<&str> {
    let rest = name.strip_prefix(WORD)?;
    (rest.is_empty() || rest.starts_with(char::is_whitespace)).then(|| rest.trim())
}

/// The end of a message on a name that is no field, where a service was meant; empty elsewhere.
pub(crate) fn meant_service(name: &str) -> &'static str {
    match name.split_whitespace().next().and_then(|word| nearest(word, [WORD])) {
        Some(_) => "; a service is listed as 'service 12 = space'",
        None => "",
    }
}

impl ListedServices {
    /// Takes a service from a line of the text; what is wrong with its number or its class.
    pub fn add(&mut self, line: usize, number: &str, class: &str) -> Vec<Slip> {
        self.named += 1;
        match (read_number(number), read_class(number, class)) {
            (Ok(number), Ok(class)) => {
                self.services.push(Service { number, class });
                self.lines.push(line);
                Vec::new()
            }
            (number, class) => {
                let mut slips: Vec<Slip> = number.err().into_iter().chain(class.err()).collect();
                slips.iter_mut().for_each(|slip| slip.line = Some(line));
                slips
            }
        }
    }

    /// What is wrong with those that were taken and with how many were named, beside the slips of
    /// their own lines.
    pub fn faults(&self) -> impl Iterator<Item = Slip> + '_ {
        let faults = Service::faults(&self.services, self.named).into_iter();
        faults.map(|(at, words)| {
            let line = at.and_then(|at| self.lines.get(at)).copied();
            Slip { line, ..refused(words) }
        })
    }
}

fn refused(words: String) -> Slip {
    Slip { line: None, words, refusal: Some(Refusal::BadServices) }
}

/// A number that two bytes have; above that it is refused, whatever its size.
fn read_number(text: &str) -> Result<u16, Slip> {
    let unread = |words| Slip { line: None, words, refusal: None };
    match text.parse() {
        Ok(number) if is_digits(text) => Ok(number),
        _ if text.is_empty() => Err(unread(format!("a service has a number: '{WORD} 12 = space'"))),
        _ if is_digits(text) => Err(refused(format!("service {} is above 65535", cut(text)))),
        _ => Err(unread(format!("service {} is no whole number from 4 to 65535", quoted(text)))),
    }
}

fn read_class(number: &str, text: &str) -> Result<ServiceClass, Slip> {
    let names = ServiceClass::ALL.map(|class| class.name());
    let found = ServiceClass::ALL.into_iter().find(|class| class.name() == text);
    found.ok_or_else(|| {
        let gap = if number.is_empty() { "" } else { " " };
        let start = format!("{WORD}{gap}{} is {}", cut(number), quoted(text));
        refused(format!("{start}, not regular, space or direct{}", hint(text, names)))
    })
}
