//! The fields of cards and calls, described once: name, unit, shape and range. Bytes, text,
//! JSON and explanations all follow these descriptions.

use crate::bytes::{Buffer, Cursor};
use crate::ranges::{Range, FLAG};
use crate::refusal::Refusal;
use crate::service::ServiceType;
use crate::version::Version;
use std::fmt;

/// How a field stands in bytes and text.
#[derive(Clone, Copy, Debug, PartialEq, Eq)]
pub enum Shape {
    /// A u8.
    Byte,
    /// A u16.
    Short,
    /// A u8, 0 or 1.
    Flag,
    /// A u8, 0 to 3; from version 3 on a u16.
    Service,
    /// An f64 by its bits.
    Number,
    /// A mark, 0 or 1, and an f64.
    Optional,
}

/// A field's value.
#[derive(Clone, Copy, Debug, PartialEq)]
pub enum Value {
    /// A u8.
    Byte(u8),
    /// A u16.
    Short(u16),
    /// A flag.
    Flag(bool),
    /// A service type.
    Service(ServiceType),
    /// A number.
    Number(f64),
    /// A number or none.
    Optional(Option<f64>),
}

/// A field of a card or a call.
#[derive(Clone, Copy, Debug, PartialEq)]
pub struct Field {
    /// As in Rust, text and JSON.
    pub name: &'static str,
    /// Empty where it has none.
    pub unit: &'static str,
    /// How it stands in bytes and text.
    pub shape: Shape,
    /// The least value.
    pub low: f64,
    /// The greatest value.
    pub high: f64,
    /// What it is.
    pub about: &'static str,
}

/// One reason why a card or a call is refused.
#[derive(Clone, Debug, PartialEq, Eq)]
pub struct Fault {
    /// The field, of two the first that is named; `services` for the list of services.
    pub field: &'static str,
    /// Which of the services, from 0, where it is one of theirs.
    pub service: Option<usize>,
    /// 1 to 4 and 61 for a card, 10 for a call.
    pub refusal: Refusal,
    /// The field, what it is and its range.
    pub words: String,
}

impl Fault {
    pub(crate) fn new(field: &'static str, refusal: Refusal, words: String) -> Fault {
        Fault { field, service: None, refusal, words }
    }
}

impl fmt::Display for Fault {
    fn fmt(&self, f: &mut fmt::Formatter<'_>) -> fmt::Result {
        f.write_str(&self.words)
    }
}

impl Value {
    /// Adds the value as sheets of a version have it; of a service's number only the last byte
    /// before version 3.
    #[inline]
    pub(crate) fn write<const N: usize>(&self, version: Version, bytes: &mut Buffer<N>) {
        match *self {
            Value::Byte(byte) => bytes.put([byte]),
            Value::Short(short) => bytes.put(short.to_be_bytes()),
            Value::Flag(flag) => bytes.put([u8::from(flag)]),
            Value::Service(service) => {
                let [high, low] = service.number().to_be_bytes();
                if version.has_services() {
                    bytes.put([high]);
                }
                bytes.put([low]);
            }
            Value::Number(x) => bytes.put_number(x),
            Value::Optional(x) => {
                bytes.put([u8::from(x.is_some())]);
                bytes.put_number(x.unwrap_or(0.0));
            }
        }
    }

    /// The number of the shape Number.
    pub(crate) fn number(&self) -> Option<f64> {
        match *self {
            Value::Number(x) => Some(x),
            _ => None,
        }
    }

    /// The value as a number, to be held to a range; None where nothing is to be held.
    fn measure(&self) -> Option<f64> {
        match *self {
            Value::Byte(byte) => Some(f64::from(byte)),
            Value::Short(short) => Some(f64::from(short)),
            Value::Flag(_) | Value::Service(_) => None,
            Value::Number(x) => Some(x),
            Value::Optional(x) => x,
        }
    }
}

/// As in text; numbers so that they read back exactly.
impl fmt::Display for Value {
    fn fmt(&self, f: &mut fmt::Formatter<'_>) -> fmt::Result {
        match *self {
            Value::Byte(byte) => write!(f, "{byte}"),
            Value::Short(short) => write!(f, "{short}"),
            Value::Flag(true) => f.write_str("yes"),
            Value::Flag(false) => f.write_str("no"),
            Value::Service(service) => write!(f, "{service}"),
            Value::Number(x) | Value::Optional(Some(x)) => write!(f, "{x:?}"),
            Value::Optional(None) => f.write_str("none"),
        }
    }
}

impl Field {
    pub(crate) const fn new(
        name: &'static str,
        unit: &'static str,
        shape: Shape,
        (low, high): Range,
        about: &'static str,
    ) -> Field {
        Field { name, unit, shape, low, high, about }
    }

    pub(crate) const fn number(
        name: &'static str,
        unit: &'static str,
        range: Range,
        about: &'static str,
    ) -> Field {
        Field::new(name, unit, Shape::Number, range, about)
    }

    pub(crate) const fn optional(
        name: &'static str,
        unit: &'static str,
        range: Range,
        about: &'static str,
    ) -> Field {
        Field::new(name, unit, Shape::Optional, range, about)
    }

    pub(crate) const fn flag(name: &'static str, about: &'static str) -> Field {
        Field::new(name, "", Shape::Flag, FLAG, about)
    }

    /// Its bytes in a card or a call of a version.
    pub const fn bytes(&self, version: Version) -> usize {
        match self.shape {
            Shape::Service if version.has_services() => 2,
            Shape::Byte | Shape::Flag | Shape::Service => 1,
            Shape::Short => 2,
            Shape::Number => 8,
            Shape::Optional => 9,
        }
    }

    /// Its range in words, with the unit.
    pub fn range(&self) -> String {
        match self.shape {
            Shape::Flag => "yes or no".into(),
            Shape::Service => "combi, regular, space, direct or a number up to 65535".into(),
            Shape::Byte | Shape::Short | Shape::Number => self.span(),
            Shape::Optional => format!("{}, or none", self.span()),
        }
    }

    fn span(&self) -> String {
        let gap = if self.unit.is_empty() { "" } else { " " };
        format!("{} to {}{gap}{}", short(self.low), short(self.high), self.unit)
    }

    /// Why a value is refused, in words; None where it is in range.
    pub fn fault(&self, value: &Value) -> Option<String> {
        let x = value.measure()?;
        if self.low <= x && x <= self.high {
            return None;
        }
        Some(self.out_of_range(&value.to_string()))
    }

    pub(crate) fn out_of_range(&self, value: &str) -> String {
        format!("{} is {value}, out of its range {}", self.name, self.range())
    }

    /// Reads the value from bytes; an error in words for another flag, type or mark and for
    /// nonzero bytes under an absent mark.
    pub(crate) fn read(&self, version: Version, bytes: &mut Cursor) -> Result<Value, String> {
        let value = match self.shape {
            Shape::Byte => bytes.byte().map(Value::Byte).ok_or(0),
            Shape::Short => bytes.short().map(Value::Short).ok_or(0),
            Shape::Flag => bytes.byte().ok_or(0).and_then(flag).map(Value::Flag),
            Shape::Service if version.has_services() => {
                bytes.short().map(ServiceType::from_number).map(Value::Service).ok_or(0)
            }
            Shape::Service => bytes.byte().ok_or(0).and_then(named).map(Value::Service),
            Shape::Number => bytes.number().map(Value::Number).ok_or(0),
            Shape::Optional => return self.read_optional(bytes),
        };
        value
            .map_err(|number| format!("{} is the number {number}, not {}", self.name, self.bound()))
    }

    /// What a flag or type may be in bytes.
    fn bound(&self) -> &'static str {
        match self.shape {
            Shape::Service => "0 to 3",
            _ => "0 or 1",
        }
    }

    fn read_optional(&self, bytes: &mut Cursor) -> Result<Value, String> {
        optional(bytes).map(Value::Optional).map_err(|words| format!("{}: {words}", self.name))
    }
}

fn flag(byte: u8) -> Result<bool, u8> {
    match byte {
        0 => Ok(false),
        1 => Ok(true),
        other => Err(other),
    }
}

fn named(byte: u8) -> Result<ServiceType, u8> {
    ServiceType::NAMED.get(usize::from(byte)).copied().ok_or(byte)
}

/// A mark and its number.
pub(crate) fn optional(bytes: &mut Cursor) -> Result<Option<f64>, String> {
    let (Some(mark), Some(number)) = (bytes.byte(), bytes.number()) else {
        return Err("cut short".into());
    };
    match mark {
        0 if number.to_bits() == 0 => Ok(None),
        0 => Err("nonzero bytes under an absent mark".into()),
        1 => Ok(Some(number)),
        other => Err(format!("the mark is {other}, not 0 or 1")),
    }
}

/// A range's end as one would write it.
fn short(x: f64) -> String {
    match x.abs() {
        size if size != 0.0 && !(1e-4..1e6).contains(&size) => format!("{x:e}"),
        _ => format!("{x}"),
    }
}
