//! Document 01's ranges that several fields share, both ends included.

pub(crate) type Range = (f64, f64);

/// °C.
pub(crate) const TEMPERATURE: Range = (-50.0, 250.0);
/// kJ/K of all layers.
pub(crate) const CAPACITY: Range = (0.001, 1e6);
/// m/s at 1 l/min.
pub(crate) const VELOCITY: Range = (0.0001, 100.0);
/// Figures a and b of an exchanger.
pub(crate) const EXCHANGER: Range = (-1e6, 1e6);
/// l/min.
pub(crate) const FLOW: Range = (0.001, 1000.0);
/// kW.
pub(crate) const POWER: Range = (0.0, 1000.0);
/// A level of charge.
pub(crate) const LEVEL: Range = (0.0, 1.0);
/// h; a demand's start is held to the card's timestep besides.
pub(crate) const DAY: Range = (0.0, 24.0);
/// The number of a service.
pub(crate) const SERVICE: Range = (0.0, 65535.0);
/// A flag in bytes.
pub(crate) const FLAG: Range = (0.0, 1.0);
