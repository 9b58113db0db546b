//! The proved zone engine for heat batteries filled with salt hydrates, called from Rust.
//!
//! The engine, the writer of the run sheet and its auditor are proved against their
//! definitions; this crate lends them bytes and reads the answers. Every figure of an answer
//! comes from the static library libheat_battery.a; only what a demand lacks ([`shortfall`]) and
//! the hours of a sheet's charging loop ([`ChargingLoop`]) are worked out here.
//!
//! - [`Card`] describes a battery, [`Battery`] is one, a [`Call`] asks something of it and an
//!   [`Answer`] has energy, outlet, zones and totals; what was only asked, such as a state of
//!   charge, stands apart from energy. [`Record`] is a battery as a record of
//!   numbers, for long lists of calls.
//! - [`Sheet`] is a battery with the sheet of its calls; [`audit()`] gives the [`Verdict`] on a
//!   sheet, [`explain`] what lies behind it, [`read`] its version, card and lines.
//! - [`Version`] is a sheet's version: the newest unless another is asked for (`open_as`); a sheet
//!   that is read keeps its own.
//! - [`Service`] is one that a card lists by number, from version 3 on, beside the four of
//!   [`ServiceType`] that have names. A card's `floor` stops standing losses at 16 °C, from version 4
//!   on.
//! - [`text`] has cards and lists of calls as plain text, [`ffi`] the C entries as they stand.
//!
//! # Refusals
//!
//! Every [`Refusal`] is an error: `call` gives `Result<Answer, Refusal>`, so that no figure of
//! a refused call can be taken for an answer. A refused call leaves the battery as it was. On
//! a sheet, 20 to 25 stand as a line of their own, as document 01 has it: `answer` in the place
//! of `call` gives what that line shows, an [`Answer`] with the refusal in it. Nothing here
//! panics, whatever the numbers or bytes.
//!
//! # A bath
//!
//! ```
//! use heat_battery::{Battery, Call, Card, Refusal, ServiceType};
//!
//! fn main() -> Result<(), Refusal> {
//!     let mut battery = Battery::open(&Card::example())?;
//!     let bath = Call::Demand {
//!         service: ServiceType::Direct,
//!         commit: true,
//!         control_on: false,
//!         required: 3.5, // kWh
//!         start: 0.0,    // h
//!         return_temperature: Some(10.0),
//!     };
//!     let answer = battery.call(&bath)?;
//!     println!("{} kWh in {} s, last at {:?} °C", answer.energy, answer.time, answer.outlet);
//!     for (at, zone) in battery.zones().iter().enumerate() {
//!         println!("zone {}: {zone} °C", at + 1);
//!     }
//!     Ok(())
//! }
//! ```

#![forbid(unsafe_code)]
#![deny(missing_docs)]

mod answer;
mod audit;
mod battery;
mod bytes;
mod call;
mod card;
mod charging_loop;
mod field;
mod fingerprint;
mod form;
mod listed_services;
mod looks;
mod nearest;
mod parse;
mod ranges;
mod reading;
mod record;
mod refusal;
mod service;
mod sheet;
mod slips;
pub mod text;
mod unmet;
mod version;

pub use answer::{Answer, Line, Totals, Zones, MOST_LAYERS};
pub use audit::{
    audit, differences, explain, is_too_long, Difference, Explanation, Verdict, MOST_AUDITED,
};
pub use battery::Battery;
pub use call::{Call, Kind};
pub use card::Card;
pub use charging_loop::ChargingLoop;
pub use field::{Fault, Field, Shape, Value};
pub use fingerprint::Fingerprint;
pub use heat_battery_sys as ffi;
pub use looks::{looks, Looks};
pub use reading::{read, Damage, Lines};
pub use record::Record;
pub use refusal::Refusal;
pub use service::{Service, ServiceClass, ServiceType};
pub use sheet::Sheet;
pub use unmet::{shortfall, Unmet, LEAST_SHORTFALL};
pub use version::Version;

/// The examples of README.md are tests.
#[cfg(doctest)]
#[doc = include_str!("../README.md")]
struct Readme;
