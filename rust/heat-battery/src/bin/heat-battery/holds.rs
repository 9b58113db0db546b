//! What a card's battery holds, and what is odd about the card.

use heat_battery::Card;
use std::fmt;

/// kJ in a kWh.
const KILOJOULES: f64 = 3600.0;
/// Hours in which losses should not empty a battery.
const DAY: f64 = 24.0;
/// A melting capacity that is less than the others, or more than so many times as much, is odd.
const MOST_TIMES: f64 = 1000.0;

/// What one unit holds between empty and full, kWh.
pub struct Holds {
    below: f64,
    during: f64,
    above: f64,
    units: f64,
}

impl Holds {
    pub fn of(card: &Card) -> Holds {
        let Card { reference, max, lower, upper, .. } = *card;
        let part = |capacity: f64, from: f64, to: f64| {
            capacity * (to.min(max) - from.max(reference)).max(0.0) / KILOJOULES
        };
        Holds {
            below: part(card.below, reference, lower),
            during: part(card.during, lower, upper),
            above: part(card.above, upper, max),
            units: f64::from(card.units),
        }
    }

    /// Of one unit.
    fn unit(&self) -> f64 {
        self.below + self.during + self.above
    }
}

impl fmt::Display for Holds {
    fn fmt(&self, f: &mut fmt::Formatter<'_>) -> fmt::Result {
        let Holds { below, during, above, units } = self;
        let unit = self.unit();
        write!(f, "holds {:.2} kWh", unit * units)?;
        if *units > 1.0 {
            write!(f, ", each unit {unit:.2} kWh")?;
        }
        write!(f, ": {below:.2} below, {during:.2} in and {above:.2} above the melting range")
    }
}

/// What the engine accepts, but hardly anybody means.
pub fn warnings(card: &Card) -> Vec<String> {
    let Card { start, max, reference, losses, below, during, above, .. } = *card;
    let mut odd = Vec::new();
    if start > max {
        odd.push(format!("start is {start} °C, above max, which is {max} °C"));
    }
    if start < reference {
        odd.push(format!("start is {start} °C, below reference, which is {reference} °C"));
    }
    let unit = Holds::of(card).unit();
    if losses * DAY >= unit {
        let lost = losses * DAY;
        odd.push(format!(
            "losses of {losses} kW take {lost:.2} kWh a day, and a unit holds {unit:.2} kWh"
        ));
    }
    let largest = below.max(above);
    if during < largest || during > MOST_TIMES * largest {
        odd.push(format!(
            "during is {during} kJ/K, far from below and above, which are {below} and {above} kJ/K"
        ));
    }
    odd
}
