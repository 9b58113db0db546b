//! What a picture of a sheet shows: zones, charges, energies and marks of its lines, over hours
//! or, where no timestep is closed, over the lines.

use crate::axis::is_drawable;
use heat_battery::{Battery, Call, Card, Line, ServiceClass, Version};

/// A line and where it begins and ends across the picture.
struct Placed {
    line: Line,
    from: f64,
    to: f64,
}

/// The course of a sheet from one line to another.
pub struct Course {
    pub version: Version,
    pub card: Card,
    /// Whether the picture goes over hours.
    pub is_timed: bool,
    /// Zones before the first line.
    before: Vec<f64>,
    lines: Vec<Placed>,
    /// How many lines are drawn as one.
    pub together: usize,
}

/// Which way a line's energy goes, and how it is drawn.
#[derive(PartialEq)]
pub struct Class {
    pub name: &'static str,
    pub color: &'static str,
    /// 1 into the battery, -1 out of it.
    pub sign: f64,
}

pub static CLASSES: [Class; 6] = [
    Class { name: "electric charge", color: "#e69f00", sign: 1.0 },
    Class { name: "hydronic charge", color: "#b2182b", sign: 1.0 },
    Class { name: "space heating", color: "#0072b2", sign: -1.0 },
    Class { name: "hot water, regular", color: "#56b4e9", sign: -1.0 },
    Class { name: "hot water, direct", color: "#009e73", sign: -1.0 },
    Class { name: "standing loss", color: "#444444", sign: -1.0 },
];

/// The class of a call that moves heat; a listed service is drawn as what the card says it is.
fn class(card: &Card, call: &Call) -> Option<&'static Class> {
    let [electric, hydronic, space, regular, direct, loss] = &CLASSES;
    match call {
        Call::Electric { .. } => Some(electric),
        Call::Hydronic { .. } => Some(hydronic),
        Call::Demand { service, .. } => Some(match card.class(*service) {
            Some(ServiceClass::Space) => space,
            Some(ServiceClass::Direct) => direct,
            Some(ServiceClass::Regular) | None => regular,
        }),
        Call::StandingLoss => Some(loss),
        Call::CloseTimestep | Call::StateOfCharge | Call::ChargeEnergyDemand { .. } => None,
    }
}

/// The energy of a step's lines of one class, below 0 where it leaves the battery.
pub struct Bar {
    pub from: f64,
    pub to: f64,
    pub class: &'static Class,
    /// Where it stands: on the bars of other classes in its step.
    pub base: f64,
    pub energy: f64,
    pub is_trial: bool,
}

/// The most steps in one picture; lines beyond it are drawn together.
const MOST_STEPS: usize = 5000;

/// Each line with its place. Time goes by in timesteps; the calls of one share it in their order.
fn placed(card: &Card, lines: Vec<Line>, is_timed: bool) -> Vec<Placed> {
    let is_closing = |line: &Line| line.call == Call::CloseTimestep;
    let mut places = Vec::new();
    for (closed, group) in lines.split_inclusive(is_closing).enumerate() {
        let hours =
            |part: usize| (closed as f64 + part as f64 / group.len() as f64) * card.timestep;
        places.extend(group.iter().enumerate().map(|(at, line)| match is_timed {
            true => Placed { line: *line, from: hours(at), to: hours(at + 1) },
            false => Placed { line: *line, from: line.index as f64 - 1.0, to: line.index as f64 },
        }));
    }
    places
}

impl Course {
    /// The lines from one index to another, both among them.
    pub fn new(version: Version, card: Card, lines: Vec<Line>, (from, to): (u64, u64)) -> Course {
        let is_timed = lines.iter().any(|line| line.call == Call::CloseTimestep);
        let mut lines = placed(&card, lines, is_timed);
        let last = lines.iter().take_while(|placed| placed.line.index < from).last();
        let before = last.map_or(vec![card.start; usize::from(card.layers)], |placed| {
            placed.line.answer.zones.to_vec()
        });
        lines.retain(|placed| placed.line.index >= from && placed.line.index <= to);
        let together = lines.len().div_ceil(MOST_STEPS).max(1);
        Course { version, card, is_timed, before, lines, together }
    }

    /// The lines in order.
    pub fn lines(&self) -> impl DoubleEndedIterator<Item = &Line> + ExactSizeIterator {
        self.lines.iter().map(|placed| &placed.line)
    }

    /// Lines that are drawn as one, with their ends and the last among them.
    fn steps(&self) -> impl Iterator<Item = (f64, f64, &[Placed], &Line)> {
        self.lines.chunks(self.together).filter_map(|step| {
            let (first, last) = (step.first()?, step.last()?);
            Some((first.from, last.to, step, &last.line))
        })
    }

    /// Where the picture begins: before its first line.
    pub fn first(&self) -> f64 {
        self.lines.first().map_or(0.0, |placed| placed.from)
    }

    /// Where it ends.
    pub fn last(&self) -> f64 {
        self.lines.last().map_or(1.0, |placed| placed.to)
    }

    /// Where a line stands; the one after the last at the end. None for others.
    pub fn place(&self, index: u64) -> Option<f64> {
        let found = self.lines.iter().find(|placed| placed.line.index == index);
        let is_next = self.lines().next_back().is_some_and(|line| line.index + 1 == index);
        found.map(|placed| (placed.from + placed.to) / 2.0).or(is_next.then(|| self.last()))
    }

    /// The state of charge that the engine gives for a line's zones, in percent.
    fn percent(&self, zones: &[f64]) -> Option<f64> {
        let totals = Default::default();
        let battery = Battery::with_state(self.version, &self.card, zones, &totals).ok()?;
        Some(battery.state_of_charge().ok()? * 100.0)
    }

    /// Place and percent, the start among them.
    pub fn charges(&self) -> Vec<(f64, Option<f64>)> {
        let start = std::iter::once((self.first(), self.percent(&self.before)));
        let steps = self.steps().map(|(_, to, _, line)| (to, self.percent(&line.answer.zones)));
        start.chain(steps).collect()
    }

    /// Place and percent of states of charge that were asked for.
    pub fn asked(&self) -> impl Iterator<Item = (f64, f64)> + '_ {
        self.steps().filter_map(|(_, to, step, _)| {
            let mut charges = step.iter().filter_map(|placed| placed.line.answer.state_of_charge);
            charges.next_back().map(|charge| (to, charge * 100.0))
        })
    }

    /// Place and temperature of a zone, the start among them.
    pub fn zone(&self, at: usize) -> impl Iterator<Item = (f64, f64)> + '_ {
        let start = self.before.get(at).map(|zone| (self.first(), *zone));
        let steps = self.steps();
        let rest =
            steps.filter_map(move |(_, to, _, line)| Some((to, *line.answer.zones.get(at)?)));
        start.into_iter().chain(rest)
    }

    /// The energies of answered lines that move heat or try to.
    pub fn bars(&self) -> Vec<Bar> {
        let mut bars = Vec::new();
        for (from, to, step, _) in self.steps() {
            let mut sums: Vec<Bar> = Vec::new();
            for Placed { line, .. } in step.iter().filter(|one| one.line.answer.refusal.is_none()) {
                let Some(class) = class(&self.card, &line.call) else { continue };
                let energy = line.answer.figure() * class.sign;
                let is_trial = line.call.is_trial();
                let same = |bar: &&mut Bar| bar.class == class && bar.is_trial == is_trial;
                match sums.iter_mut().find(same) {
                    Some(bar) => bar.energy += energy,
                    None => sums.push(Bar { from, to, class, base: 0.0, energy, is_trial }),
                }
            }
            stack(&mut sums);
            bars.extend(sums);
        }
        bars.retain(|bar| is_drawable(bar.base) && is_drawable(bar.base + bar.energy));
        bars
    }

    /// The middle of each step with a line of which something holds.
    pub fn marks<'a>(&'a self, holds: fn(&Line) -> bool) -> impl Iterator<Item = f64> + 'a {
        let marked = move |step: &[Placed]| step.iter().any(|placed| holds(&placed.line));
        self.steps()
            .filter(move |(_, _, step, _)| marked(step))
            .map(|(from, to, _, _)| (from + to) / 2.0)
    }

    /// Where timesteps are closed.
    pub fn closings(&self) -> Vec<f64> {
        let closing = self.lines.iter().filter(|placed| placed.line.call == Call::CloseTimestep);
        closing.map(|placed| placed.to).collect()
    }
}

/// Puts each bar on those before it that go its way; trials stand alone.
fn stack(bars: &mut [Bar]) {
    let (mut up, mut down) = (0.0, 0.0);
    for bar in bars.iter_mut().filter(|bar| !bar.is_trial) {
        let base = if bar.energy >= 0.0 { &mut up } else { &mut down };
        bar.base = *base;
        *base += bar.energy;
    }
}
