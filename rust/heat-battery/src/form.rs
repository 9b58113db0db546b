//! Fields of a card or a call that are filled from text, one by one and by name.

use crate::field::{Field, Value};
use crate::nearest::hint;
use crate::parse::{quoted, Misread};
use crate::refusal::Refusal;
use crate::slips::Slip;

/// A field's place in a form.
#[derive(Clone, Copy, PartialEq)]
enum Place {
    Empty,
    /// Nothing stands there, and this is meant.
    Default(Value),
    /// Something stood there that is no value.
    Slip,
    /// A value and the line that it stands on.
    Filled(Value, usize),
}

pub(crate) struct Form<'a>(Vec<(&'a Field, Place)>);

/// Longer lists of names are left out of messages.
const MOST_NAMES: usize = 9;

impl<'a> Form<'a> {
    pub fn new(fields: &'a [Field]) -> Form<'a> {
        Form(fields.iter().map(|field| (field, Place::Empty)).collect())
    }

    /// The form with one more field, which may be left out; then it has the value.
    pub fn with(mut self, field: &'a Field, default: Value) -> Form<'a> {
        self.0.push((field, Place::Default(default)));
        self
    }

    /// Fills a field from a line of the text.
    pub fn fill(&mut self, line: usize, name: &str, text: &str) -> Result<(), Slip> {
        let slip = |words, refusal| Slip { line: Some(line), words, refusal };
        let found = self.0.iter_mut().find(|(field, _)| field.name == name);
        let Some((field, place)) = found else { return Err(slip(self.unknown(name), None)) };
        if matches!(place, Place::Slip | Place::Filled(..)) {
            return Err(slip(format!("{name} stands twice"), None));
        }
        *place = Place::Slip;
        match field.parse(text) {
            Ok(value) => *place = Place::Filled(value, line),
            Err(Misread::Words(words)) => return Err(slip(words, None)),
            Err(Misread::Range(words)) => return Err(slip(words, Some(Refusal::CardOutOfRange))),
        }
        Ok(())
    }

    fn unknown(&self, name: &str) -> String {
        let names: Vec<&str> = self.0.iter().map(|(field, _)| field.name).collect();
        let more = match names.len() {
            0 => ": none is expected".into(),
            1..=MOST_NAMES => format!("; the fields are {}", names.join(", ")),
            _ => hint(name, names),
        };
        format!("{} is no field{more}", quoted(name))
    }

    /// What is missing, in words; None where every field has stood.
    pub fn missing(&self) -> Option<String> {
        let empty = self.0.iter().filter(|(_, place)| *place == Place::Empty);
        let names: Vec<String> =
            empty.map(|(field, _)| format!("{} ({})", field.name, field.range())).collect();
        (!names.is_empty()).then(|| format!("missing: {}", names.join(", ")))
    }

    /// Each field that is filled, with its value and its line.
    pub fn filled(&self) -> impl Iterator<Item = (&'a Field, Value, usize)> + '_ {
        self.0.iter().filter_map(|(field, place)| match place {
            Place::Filled(value, line) => Some((*field, *value, *line)),
            Place::Empty | Place::Default(_) | Place::Slip => None,
        })
    }

    /// The values that stand there or are meant, in the order of the fields.
    pub fn values(&self) -> Vec<Value> {
        let value = |place: &Place| match place {
            Place::Filled(value, _) | Place::Default(value) => Some(*value),
            Place::Empty | Place::Slip => None,
        };
        self.0.iter().filter_map(|(_, place)| value(place)).collect()
    }
}
