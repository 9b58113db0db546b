//! The published Rust, plain C and our engine on the same lists of calls, in one run. Without the
//! published file its two contenders are left out, and the plain Rust stands for the judge.
//!
//!   bench                       every row: substeps per second and ratios; then the audit
//!   bench ROW CONTENDER ROUNDS  that many rounds of one row, for callgrind
//!
//! All in version 1, or in the one that the variable BENCH_VERSION names; the rows with a floor in
//! version 4, without the published file.

mod engine;
mod plain_c;
mod rows;

use engine::{version, version_with, Crate, Day, Engine};
use heat_battery::Version;
use oracle::entries::{self, BEST};
use oracle::model::{Battery, Call, Card, Demand, Hydronic, State, Totals};
use plain_c::PlainC;
use rows::Row;
use std::hint::black_box;
use std::time::{Duration, Instant};

const REPEATS: usize = 200;
const TURN: Duration = Duration::from_millis(2);

/// Of the rows' names.
const WIDTH: usize = 40;

/// What runs a list so many times.
type Runner<'a> = Box<dyn FnMut(usize) -> f64 + 'a>;

fn oracle_battery(start: &[f64], floor: bool) -> Battery {
    let mut card = Card {
        layers: start[0] as u8,
        units: start[1] as u16,
        simultaneous: start[2] as u8,
        budget: start[3] as u16,
        floor: u8::from(floor),
        ..Card::default()
    };
    for (field, number) in card.numbers_mut().into_iter().zip(&start[4..23]) {
        *field = *number;
    }
    let zones = start[28..28 + usize::from(card.layers)].to_vec();
    let totals = Totals {
        running_hours: start[23],
        pump_hours: start[24],
        direct_hours: start[25],
        charged: start[26],
        charged_electric: start[27],
    };
    Battery { card, state: State { zones, totals } }
}

fn oracle_call(call: &[f64; 10]) -> Call {
    let [kind, p, q, r, s, t, u, v, w, x] = *call;
    match kind as u8 {
        1 => Call::Demand(Demand {
            service_type: p as u16,
            commit: q as u8,
            control_on: r as u8,
            required: s,
            start: t,
            return_temperature: (u > 0.0).then_some(v),
        }),
        2 => Call::Electric { power: p, target: q },
        3 => Call::Hydronic(Hydronic {
            inlet: p,
            hours: q,
            flow: r,
            target: s,
            limit: t,
            hex_a: u,
            hex_b: v,
            velocity: w,
            diameter: x,
        }),
        4 => Call::StandingLoss,
        5 => Call::CloseTimestep,
        6 => Call::StateOfCharge,
        _ => Call::ChargeEnergyDemand { flow_maximum: (p > 0.0).then_some(q), target: r },
    }
}

/// The list by the oracle's judge or its plain implementation: the sum and the substeps.
fn oracle_list(
    version: Version,
    step: entries::Step,
    start: &Battery,
    calls: &[Call],
) -> (f64, u64) {
    let (mut sum, mut substeps) = (0.0, 0);
    let mut battery = start.clone();
    for call in calls {
        let (answer, after) = step(version.number(), &battery, call);
        sum = sum + answer.energy + f64::from(answer.refusal);
        substeps += u64::from(answer.substeps);
        battery = after;
    }
    (sum + battery.state.zones[0], substeps)
}

fn oracle_calls(row: &Row) -> Vec<Call> {
    row.calls.iter().map(oracle_call).collect()
}

fn contenders(row: &Row) -> Vec<(&'static str, Runner<'_>)> {
    let (version, battery) = (version_with(row.floor), oracle_battery(&row.start, row.floor));
    let calls = oracle_calls(row);
    let mut engine = Engine::new(version, &battery, &calls);
    let mut wrapped = Crate::new(version, &battery, &calls);
    let mut plain_c = PlainC::new(&row.start, row.floor);
    let plain =
        move || oracle_list(version, oracle::plain::step, black_box(&battery), black_box(&calls)).0;
    let mut all = if row.floor { Vec::new() } else { published(row) };
    all.extend([
        ("plain Rust", rounds_of(plain)),
        ("plain C", rounds_of(move || plain_c.list(black_box(&row.calls)))),
        ("engine", rounds_of(move || black_box(&mut engine).list().0)),
        ("crate", rounds_of(move || black_box(&mut wrapped).list())),
    ]);
    all
}

#[cfg(published)]
fn published(row: &Row) -> Vec<(&'static str, Runner<'_>)> {
    let published = published::AsItStands::new(&row.start);
    let stand_ins = published::WithStandIns::new(&row.start);
    vec![
        ("published", rounds_of(move || published.list(black_box(&row.calls)))),
        ("stand-ins", rounds_of(move || stand_ins.list(black_box(&row.calls)))),
    ]
}

#[cfg(not(published))]
fn published(_: &Row) -> Vec<(&'static str, Runner<'_>)> {
    Vec::new()
}

fn rounds_of<'a>(mut once: impl FnMut() -> f64 + 'a) -> Runner<'a> {
    Box::new(move |rounds| (0..rounds).map(|_| once()).sum())
}

/// Rounds that take about one turn.
fn calibrate(run: &mut Runner<'_>) -> usize {
    let mut rounds = 1;
    loop {
        let begun = Instant::now();
        black_box(run(rounds));
        let taken = begun.elapsed();
        if taken >= TURN / 4 {
            let scale = TURN.as_secs_f64() / taken.as_secs_f64();
            return ((rounds as f64) * scale).ceil() as usize;
        }
        rounds *= 2;
    }
}

/// The least time of a round, for each contender; they take turns.
fn times(all: &mut [(&'static str, Runner<'_>)]) -> Vec<f64> {
    let rounds: Vec<usize> = all.iter_mut().map(|(_, run)| calibrate(run)).collect();
    let mut best = vec![f64::INFINITY; all.len()];
    for _ in 0..REPEATS {
        for (k, (_, run)) in all.iter_mut().enumerate() {
            let begun = Instant::now();
            black_box(run(rounds[k]));
            best[k] = best[k].min(begun.elapsed().as_secs_f64() / rounds[k] as f64);
        }
    }
    best
}

/// The answers are the judge's, bit by bit, and the published file's to 1e-9.
fn check(row: &Row) -> u64 {
    let (version, battery) = (version_with(row.floor), oracle_battery(&row.start, row.floor));
    let calls = oracle_calls(row);
    let (sum, substeps) = oracle_list(version, BEST, &battery, &calls);
    assert_eq!(Engine::new(version, &battery, &calls).list().1, substeps, "{}", row.name);
    for (name, mut run) in contenders(row) {
        let got = run(1);
        let same =
            got.to_bits() == sum.to_bits() || (name == "published" && (got - sum).abs() < 1e-9);
        assert!(same, "{}: {name} gives {got}, the judge {sum}", row.name);
    }
    substeps
}

/// Whose rates are divided by whose in the second table.
const RATIOS: [(&str, &str); 6] = [
    ("engine", "published"),
    ("engine", "stand-ins"),
    ("engine", "plain Rust"),
    ("engine", "plain C"),
    ("crate", "published"),
    ("crate", "plain C"),
];

/// Measures a row and prints its rates under the heads; its line of the second table. A contender that
/// doesn't run the row has a dash.
fn measure(row: &Row, heads: &[&str]) -> String {
    let substeps = check(row);
    let mut all = contenders(row);
    let best = times(&mut all);
    let time = |name: &str| {
        let found = all.iter().zip(&best).find(|((contender, _), _)| *contender == name);
        found.map(|(_, time)| *time)
    };
    print!("{:WIDTH$}{substeps:>8}", row.name);
    for head in heads {
        let rate = time(head).map(|time| format!("{:.0}", substeps as f64 / time));
        print!("{:>14}", rate.unwrap_or("-".into()));
    }
    println!();
    let ratios = RATIOS.map(|(ours, other)| match (time(ours), time(other)) {
        (Some(ours), Some(other)) => format!(" {:.2} |", other / ours),
        _ => " - |".into(),
    });
    format!("| {} | {substeps} |{}", row.name, ratios.concat())
}

/// A row's card and calls from a fresh battery on: the sheet is the judge's, and accepted.
fn day(row: &Row) -> Day {
    let card = oracle_battery(&row.start, false).card;
    let calls = oracle_calls(row);
    let mut day = Day::new(&card, &calls);
    day.write();
    let mut battery = Battery::fresh(&card);
    let mut sheet = oracle::sheet::opening(version().number(), &card);
    for call in &calls {
        let (answer, after) = BEST(version().number(), &battery, call);
        sheet.extend(oracle::sheet::call_line(version().number(), call, &answer));
        battery = after;
    }
    assert!(day.sheet == sheet, "{}: the sheet is not the judge's", row.name);
    assert_eq!(day.audit(), 256 * day.lines() as u64, "{}: the audit", row.name);
    day
}

/// The audit of a row's sheet against the calls that wrote it, and the same calls on the record.
fn measure_audit(row: &Row) {
    let audited = day(row);
    let mut written = day(row);
    let fresh = Battery::fresh(&oracle_battery(&row.start, false).card);
    let mut engine = Engine::new(version(), &fresh, &oracle_calls(row));
    let lines = audited.lines();
    let best = times(&mut [
        ("audit", rounds_of(move || black_box(&audited).audit() as f64)),
        ("calls", rounds_of(move || f64::from(black_box(&mut written).write()))),
        ("engine", rounds_of(move || black_box(&mut engine).list().0)),
    ]);
    let rates: Vec<f64> = best.iter().map(|time| lines as f64 / time).collect();
    println!(
        "\n{:WIDTH$}{:>8}{:>14}{:>14}{:>14}\n{:WIDTH$}{lines:>8}{:>14.0}{:>14.0}{:>14.0}",
        "lines per second",
        "lines",
        "audit",
        "calls",
        "engine",
        row.name,
        rates[0],
        rates[1],
        rates[2],
    );
    println!(
        "the audit's time: {:.2} of the calls on bytes, {:.2} of the calls on the record",
        best[0] / best[1],
        best[0] / best[2]
    );
}

fn main() {
    let words: Vec<String> = std::env::args().skip(1).collect();
    let rows = rows::rows();
    if let [row, contender, rounds] = words.as_slice() {
        let row = rows.iter().find(|r| r.name.starts_with(row.as_str())).expect("a row's name");
        let mut all = contenders(row);
        let (_, run) = all.iter_mut().find(|(name, _)| name == contender).expect("a contender");
        println!("{}", run(rounds.parse().expect("a number of rounds")));
        return;
    }
    let chosen = |row: &&Row| words.first().is_none_or(|name| row.name.starts_with(name.as_str()));
    let rows: Vec<&Row> = rows.iter().filter(chosen).collect();
    print!("{:WIDTH$}{:>8}", "substeps per second", "substeps");
    let names = |row: &&Row| contenders(row).iter().map(|(name, _)| *name).collect();
    let heads: Vec<&str> = rows.iter().map(names).max_by_key(Vec::len).unwrap_or_default();
    for name in &heads {
        print!("{name:>14}");
    }
    println!();
    let lines: Vec<String> = rows.iter().map(|row| measure(row, &heads)).collect();
    let heads = RATIOS.map(|(ours, other)| format!(" {ours} / {other} |"));
    println!("\n| row | substeps |{}\n|{}", heads.concat(), "---|".repeat(2 + RATIOS.len()));
    for line in lines {
        println!("{line}");
    }
    for row in rows.iter().filter(|row| row.name.starts_with("winter day")) {
        measure_audit(row);
    }
}
