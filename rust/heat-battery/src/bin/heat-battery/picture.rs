//! The picture of a sheet's course: three panels over hours or call lines.

use crate::axis::{is_drawable, Axis};
use crate::card::size;
use crate::course::Course;
use crate::show::pump;
use crate::svg::{Hang, Svg};
use heat_battery::{Card, Line, Unmet, Verdict};

const WIDTH: f64 = 1120.0;
const HEIGHT: f64 = 900.0;
const LEFT: f64 = 80.0;
const RIGHT: f64 = 900.0;
pub const ZONES: (f64, f64) = (104.0, 440.0);
pub const CHARGE: (f64, f64) = (474.0, 604.0);
pub const ENERGY: (f64, f64) = (638.0, 838.0);

const FRAME: &str = "fill=\"none\" stroke=\"#333\" stroke-width=\"1\"";
const GRID: &str = "stroke=\"#ddd\" stroke-width=\"1\"";
const CLOSING: &str = "stroke=\"#bbb\" stroke-width=\"0.6\" stroke-dasharray=\"2 3\"";
pub const FLOOR: &str = "stroke=\"#444\" stroke-width=\"1.2\" stroke-dasharray=\"7 4\"";
pub const SMALL: &str = "fill=\"#222\" font-size=\"13\"";
pub const MARK: &str = "stroke=\"#d00\" stroke-width=\"1.5\"";
const AUDIT: &str = "stroke=\"#d00\" stroke-width=\"1.5\" stroke-dasharray=\"5 4\"";
pub const MARK_FILL: &str = "fill=\"#d00\"";

/// From the first zone to the last, dark to light, apart in grey too.
const RAMP: [(f64, f64, f64); 6] = [
    (68.0, 1.0, 84.0),
    (65.0, 68.0, 135.0),
    (42.0, 120.0, 142.0),
    (34.0, 168.0, 132.0),
    (122.0, 200.0, 60.0),
    (217.0, 190.0, 20.0),
];

/// The colour of a zone.
pub fn ramp(at: usize, count: usize) -> String {
    let place = at as f64 / (count.max(2) - 1) as f64 * (RAMP.len() - 1) as f64;
    let below = (place.floor() as usize).min(RAMP.len() - 2);
    let part = place - below as f64;
    let (low, high) = (RAMP[below], RAMP[below + 1]);
    let mix = |low: f64, high: f64| (low + (high - low) * part).round();
    format!("rgb({},{},{})", mix(low.0, high.0), mix(low.1, high.1), mix(low.2, high.2))
}

/// The most closings that are drawn through a panel.
const MOST_CLOSINGS: usize = 100;
/// Labels along the top that are nearer to each other are left out.
const LEAST_GAP: f64 = 44.0;

pub struct Picture<'a> {
    pub course: &'a Course,
    name: &'a str,
    pub svg: Svg,
    across: Axis,
}

/// Whether a line is refused.
pub fn is_refused(line: &Line) -> bool {
    line.answer.refusal.is_some()
}

/// Whether a line's demand is unmet.
pub fn is_unmet(line: &Line) -> bool {
    line.shortfall().is_some()
}

impl<'a> Picture<'a> {
    pub fn new(course: &'a Course, name: &'a str) -> Picture<'a> {
        let (first, last) = (course.first(), course.last());
        let across = match course.is_timed {
            true => Axis::hours(first, last, 12),
            false => Axis::whole(first, last, 12),
        };
        Picture { course, name, svg: Svg::new(WIDTH, HEIGHT, name), across }
    }

    fn x(&self, at: f64) -> f64 {
        LEFT + (RIGHT - LEFT) * self.across.place(at)
    }

    /// Where the left end of something so wide is drawn around a place, inside the frame.
    fn left(&self, at: f64, width: f64) -> f64 {
        (self.x(at) - width / 2.0).clamp(LEFT, RIGHT - width)
    }

    fn y(&self, axis: &Axis, (top, bottom): (f64, f64), value: f64) -> f64 {
        bottom - (bottom - top) * axis.place(value)
    }

    pub fn draw(mut self, verdict: Verdict) -> String {
        self.title(verdict);
        self.zones();
        self.charge();
        self.energy();
        self.refused_by_audit(verdict);
        self.svg.end()
    }

    fn title(&mut self, verdict: Verdict) {
        let course = self.course;
        self.svg.label(LEFT, 30.0, Hang::Start, "font-size=\"18\" font-weight=\"bold\"", self.name);
        let mut lines = match (course.lines().next(), course.lines().next_back()) {
            (Some(first), Some(last)) => format!("call lines {} to {}", first.index, last.index),
            _ => "no call lines".into(),
        };
        if course.together > 1 {
            lines.push_str(&format!(", {} drawn as one", course.together));
        }
        let card = course.card.fingerprint();
        let mut words = format!("{}, {lines}; card {card}; audit: {verdict}", size(&course.card));
        let unmet = Unmet::of(course.lines());
        if !unmet.is_none() {
            words.push_str(&format!("; {unmet}"));
        }
        self.svg.label(LEFT, 50.0, Hang::Start, "fill=\"#333\"", &words);
        if let Some(pump) = pump(course.version, course.lines()) {
            self.svg.label(LEFT, 70.0, Hang::Start, "fill=\"#333\"", &pump.to_string());
        }
    }

    /// Grid, frame, ticks and label of one panel.
    fn panel(&mut self, span: (f64, f64), axis: &Axis, label: &str) {
        let (top, bottom) = span;
        for (value, text) in axis.ticks() {
            let y = self.y(axis, span, value);
            self.svg.line((LEFT, y), (RIGHT, y), GRID);
            self.svg.label(LEFT - 8.0, y + 4.0, Hang::End, SMALL, &text);
        }
        let closings = self.course.closings();
        for at in closings.iter().step_by(closings.len().div_ceil(MOST_CLOSINGS).max(1)) {
            let x = self.x(*at);
            self.svg.line((x, top), (x, bottom), CLOSING);
        }
        for (at, text) in self.across.ticks() {
            let x = self.x(at);
            self.svg.line((x, bottom), (x, bottom + 5.0), "stroke=\"#333\"");
            self.svg.label(x, bottom + 18.0, Hang::Middle, SMALL, &text);
        }
        self.svg.rect((LEFT, top), (RIGHT - LEFT, bottom - top), FRAME);
        self.svg.upright(24.0, (top + bottom) / 2.0, label);
    }

    /// Call lines along the top of a picture over hours.
    fn line_numbers(&mut self) {
        let top = ZONES.0;
        let ends = self.course.lines().next().zip(self.course.lines().next_back());
        let Some((first, last)) = ends.filter(|_| self.course.is_timed) else { return };
        let numbers = Axis::whole(first.index as f64 - 1.0, last.index as f64, 12);
        let mut right = f64::NEG_INFINITY;
        for (number, text) in numbers.ticks() {
            let Some(x) = self.course.place(number as u64).map(|at| self.x(at)) else { continue };
            if x < right + LEAST_GAP {
                continue;
            }
            right = x;
            self.svg.line((x, top - 5.0), (x, top), "stroke=\"#333\"");
            self.svg.label(x, top - 9.0, Hang::Middle, SMALL, &text);
        }
        self.svg.label(RIGHT, top - 26.0, Hang::End, SMALL, "call line");
    }

    fn zones(&mut self) {
        let course = self.course;
        let layers = usize::from(course.card.layers);
        let melting = [course.card.lower, course.card.upper];
        let all = (0..layers).flat_map(|at| course.zone(at).map(|(_, zone)| zone));
        let floor = course.card.floor.then_some(Card::FLOOR_TEMPERATURE);
        let axis = Axis::new(all.chain(melting).chain(floor), 8);
        let high = self.y(&axis, ZONES, course.card.upper);
        let low = self.y(&axis, ZONES, course.card.lower);
        let size = (RIGHT - LEFT, (low - high).max(1.0));
        self.svg.rect((LEFT, high), size, "fill=\"#fde8c8\"");
        self.panel(ZONES, &axis, "zone temperature, °C");
        self.line_numbers();
        if let Some(y) = floor.map(|floor| self.y(&axis, ZONES, floor)) {
            self.svg.line((LEFT, y), (RIGHT, y), FLOOR);
        }
        for at in 0..layers {
            let points: Vec<Option<(f64, f64)>> = course
                .zone(at)
                .map(|(at, zone)| {
                    is_drawable(zone).then(|| (self.x(at), self.y(&axis, ZONES, zone)))
                })
                .collect();
            let style = format!("stroke=\"{}\" stroke-width=\"1.6\"", ramp(at, layers));
            self.svg.path(points.into_iter(), &style);
        }
        for at in course.marks(is_refused) {
            self.svg.cross((self.left(at, 6.0), ZONES.1 - 11.0), 6.0, MARK);
        }
        self.zone_legend(layers);
    }

    fn charge(&mut self) {
        let charges = self.course.charges();
        let known = charges.iter().filter_map(|(_, percent)| *percent);
        let axis = Axis::new(known.chain([0.0, 100.0]), 5);
        self.panel(CHARGE, &axis, "state of charge, %");
        let points: Vec<Option<(f64, f64)>> = charges
            .iter()
            .map(|(at, percent)| {
                let percent = percent.filter(|x| is_drawable(*x))?;
                Some((self.x(*at), self.y(&axis, CHARGE, percent)))
            })
            .collect();
        self.svg.path(points.into_iter(), "stroke=\"#000\" stroke-width=\"1.6\"");
        let inside = |percent: f64| (axis.low..=axis.high).contains(&percent);
        for (at, percent) in self.course.asked().filter(|(_, percent)| inside(*percent)) {
            let at = (self.x(at), self.y(&axis, CHARGE, percent));
            self.svg.dot(at, 2.2, "fill=\"#fff\" stroke=\"#000\"");
        }
        self.charge_legend();
    }

    fn energy(&mut self) {
        let bars = self.course.bars();
        let ends = bars.iter().flat_map(|bar| [bar.base, bar.base + bar.energy]);
        let axis = Axis::new(ends.chain([0.0]), 6);
        self.panel(ENERGY, &axis, "energy, kWh");
        let zero = self.y(&axis, ENERGY, 0.0);
        self.svg.line((LEFT, zero), (RIGHT, zero), "stroke=\"#333\"");
        for bar in &bars {
            let width = ((self.x(bar.to) - self.x(bar.from)) * 0.9).clamp(1.0, 24.0);
            let [base, tip] =
                [bar.base, bar.base + bar.energy].map(|energy| self.y(&axis, ENERGY, energy));
            let corner = (self.left((bar.from + bar.to) / 2.0, width), base.min(tip));
            let color = bar.class.color;
            let style = match bar.is_trial {
                true => format!("fill=\"#fff\" stroke=\"{color}\" stroke-width=\"0.8\""),
                false => format!("fill=\"{color}\""),
            };
            self.svg.rect(corner, (width, (tip - base).abs()), &style);
        }
        for at in self.course.marks(is_unmet) {
            self.svg.triangle((self.left(at, 8.0), ENERGY.1 - 10.0), 8.0, MARK_FILL);
        }
        let middle = (LEFT + RIGHT) / 2.0;
        let words = match self.course.is_timed {
            true => "hours (the calls of a timestep share it in their order)",
            false => "call line",
        };
        self.svg.label(middle, ENERGY.1 + 38.0, Hang::Middle, "", words);
        self.energy_legend(&bars);
    }

    /// The line that the audit refuses, through all panels.
    fn refused_by_audit(&mut self, verdict: Verdict) {
        let Verdict::Refused { refusal, line } = verdict else { return };
        let Some(at) = self.course.place(line) else { return };
        let x = self.left(at, 2.0) + 1.0;
        for (top, bottom) in [ZONES, CHARGE, ENERGY] {
            self.svg.line((x, top), (x, bottom), AUDIT);
        }
        let (gap, hang) = match x < (LEFT + RIGHT) / 2.0 {
            true => (6.0, Hang::Start),
            false => (-6.0, Hang::End),
        };
        let words = format!("line {line}: refused {}", refusal.number());
        self.svg.label(x + gap, ZONES.0 + 16.0, hang, MARK_FILL, &words);
    }
}
