//! The legends beside the panels of a picture.

use crate::course::{Bar, Class, CLASSES};
use crate::picture::{
    is_refused, is_unmet, ramp, Picture, CHARGE, ENERGY, FLOOR, MARK, MARK_FILL, SMALL, ZONES,
};
use crate::svg::Hang;
use heat_battery::Card;

const LEGEND: f64 = 922.0;
const HEAD: &str = "fill=\"#000\" font-size=\"14\" font-weight=\"bold\"";

/// A number with at most two decimals.
fn hundredths(x: f64) -> String {
    format!("{}", (x * 100.0).round() / 100.0)
}

/// The most zones that the legend names.
const MOST_NAMED: usize = 10;

impl Picture<'_> {
    /// The words beside what is drawn in the legend.
    fn words(&mut self, y: f64, words: &str) {
        self.svg.label(LEGEND + 34.0, y, Hang::Start, SMALL, words);
    }

    pub fn zone_legend(&mut self, layers: usize) {
        let mut y = ZONES.0 + 10.0;
        self.svg.label(LEGEND, y, Hang::Start, HEAD, "Zones");
        let shown = layers.min(MOST_NAMED);
        for at in (0..shown).map(|at| at * (layers - 1) / (shown - 1).max(1)) {
            y += 20.0;
            let style = format!("stroke=\"{}\" stroke-width=\"3\"", ramp(at, layers));
            self.svg.line((LEGEND, y - 4.0), (LEGEND + 26.0, y - 4.0), &style);
            let water = match at {
                0 => " (water in)",
                at if at + 1 == layers => " (water out)",
                _ => "",
            };
            self.words(y, &format!("zone {}{water}", at + 1));
        }
        y += 24.0;
        let style = "fill=\"#fde8c8\" stroke=\"#e5c48f\"";
        self.svg.rect((LEGEND, y - 11.0), (26.0, 12.0), style);
        let Card { lower, upper, floor, .. } = self.course.card;
        self.words(y, &format!("melting, {} to {} °C", hundredths(lower), hundredths(upper)));
        if floor {
            y += 22.0;
            self.svg.line((LEGEND, y - 4.0), (LEGEND + 26.0, y - 4.0), FLOOR);
            self.words(y, &format!("floor, {} °C", Card::FLOOR_TEMPERATURE));
        }
        if self.course.lines().any(is_refused) {
            y += 22.0;
            self.svg.cross((LEGEND + 10.0, y - 8.0), 6.0, MARK);
            self.words(y, "refused line");
        }
    }

    pub fn charge_legend(&mut self) {
        let y = CHARGE.0 + 10.0;
        self.svg.label(LEGEND, y, Hang::Start, HEAD, "State of charge");
        let style = "stroke=\"#000\" stroke-width=\"1.6\"";
        self.svg.line((LEGEND, y + 16.0), (LEGEND + 26.0, y + 16.0), style);
        self.words(y + 20.0, "of each line's zones");
        if self.course.asked().next().is_some() {
            self.svg.dot((LEGEND + 13.0, y + 36.0), 2.2, "fill=\"#fff\" stroke=\"#000\"");
            self.words(y + 40.0, "asked for by a call");
        }
    }

    pub fn energy_legend(&mut self, bars: &[Bar]) {
        let mut y = ENERGY.0 + 10.0;
        let is_drawn = |class: &Class| bars.iter().any(|bar| bar.class == class && !bar.is_trial);
        for (head, sign) in [("Heat in (up)", 1.0), ("Heat out (down)", -1.0)] {
            let classes = CLASSES.iter().filter(|class| class.sign == sign && is_drawn(class));
            let classes: Vec<&Class> = classes.collect();
            if classes.is_empty() {
                continue;
            }
            self.svg.label(LEGEND, y, Hang::Start, HEAD, head);
            for class in classes {
                y += 20.0;
                let style = format!("fill=\"{}\"", class.color);
                self.svg.rect((LEGEND, y - 10.0), (26.0, 11.0), &style);
                self.words(y, class.name);
            }
            y += 26.0;
        }
        if bars.iter().any(|bar| bar.is_trial) {
            self.svg.rect((LEGEND, y - 16.0), (26.0, 11.0), "fill=\"#fff\" stroke=\"#444\"");
            self.words(y - 6.0, "trial, nothing given");
            y += 20.0;
        }
        if self.course.lines().any(is_unmet) {
            self.svg.triangle((LEGEND + 9.0, y - 15.0), 8.0, MARK_FILL);
            self.words(y - 6.0, "demand unmet");
        }
    }
}
