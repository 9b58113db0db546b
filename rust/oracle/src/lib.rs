//! The oracle: the published heat_battery_pcm.rs with document 01's stand-ins as the judge,
//! a second implementation of steps, entries and auditor written from documents 01 and 02 alone, and
//! generators of lists, vectors, raw inputs and sheets.

pub mod arguments;
pub mod auditor;
pub mod cases;
pub mod compare;
#[cfg(published)]
pub mod cross;
pub mod damage;
pub mod entries;
pub mod faults;
pub mod fields;
pub mod generate;
#[cfg(published)]
pub mod judge;
pub mod lent;
pub mod library;
pub mod own;
pub mod plain;
pub mod random;
pub mod raw;
pub mod reading;
pub mod record;
pub mod sheet;
pub mod sheets;
#[cfg(published)]
pub mod vectors;

pub use published::{model, ranges, stand_ins};
