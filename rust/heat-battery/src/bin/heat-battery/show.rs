//! `show`: every line of a sheet as a table, or as JSON.

use crate::arguments::Arguments;
use crate::card::unlisted;
use crate::failure::Failure;
use crate::files::{self, Parts};
use crate::json;
use crate::output::print;
use crate::run::unmet_status;
use heat_battery::{
    audit, Answer, Card, ChargingLoop, Damage, Field, Line, Unmet, Value, Verdict, Version,
};
use std::ffi::OsStr;
use std::fmt::Write;

pub fn show(arguments: &Arguments) -> Result<(), Failure> {
    let path = arguments.place(0);
    let bytes = files::sheet(path)?;
    let parts = files::parts(path, &bytes)?;
    let verdict = audit(&bytes);
    let text = match arguments.has("--json") {
        true => json::sheet(&parts, verdict),
        false => table(&parts, verdict),
    };
    print(&text)?;
    verdict_status(path, verdict, parts.damage)?;
    match arguments.has("--unmet-fails") {
        true => unmet_status(&files::name(path), Unmet::of(&parts.lines)),
        false => Ok(()),
    }
}

/// A refused sheet is a failure, with the damage if there is one.
pub fn verdict_status(
    path: &OsStr,
    verdict: Verdict,
    damage: Option<Damage>,
) -> Result<(), Failure> {
    match (verdict, damage) {
        (Verdict::Accepted(_), _) => Ok(()),
        (_, Some(damage)) => Err(files::refused(path, damage)),
        (Verdict::Refused { refusal, line }, None) => {
            Err(files::refused(path, format!("the audit refuses line {line} with {refusal}")))
        }
    }
}

/// Zones on one row of the table.
const ZONES_A_ROW: usize = 8;

const HEAD: &str = "\
line  kind                   energy kWh  shortfall kWh   trial kWh  charge 0-1  to charge kWh  outlet °C     time s  substeps  running h     pump h   direct h  charged kWh  electric kWh
";

fn table(parts: &Parts, verdict: Verdict) -> String {
    let Parts { version, card, lines, .. } = parts;
    let mut text = format!("{card}\n{HEAD}");
    for line in lines {
        add_line(&mut text, card, line);
    }
    let unmet = Unmet::of(lines);
    if !unmet.is_none() {
        let _ = writeln!(text, "\n{unmet}");
    }
    if let Some(pump) = pump(*version, lines) {
        let _ = writeln!(text, "\n{pump}");
    }
    let card = card.fingerprint();
    let _ = writeln!(text, "\nversion {version}\ncard {card}\naudit: {verdict}");
    text
}

/// The charging loop, where the version shows its time and some line has one.
pub fn pump<'a>(
    version: Version,
    lines: impl IntoIterator<Item = &'a Line>,
) -> Option<ChargingLoop> {
    ChargingLoop::of(version, lines).filter(|pump| pump.lines > 0)
}

fn add_line(text: &mut String, card: &Card, line: &Line) {
    let Answer { outlet, time, substeps, zones, totals, refusal, .. } = &line.answer;
    // Only a damaged sheet has an energy on a question's line.
    let is_shown = |energy: &f64| !line.call.is_question() || *energy != 0.0;
    let energy = Some(line.answer.energy).filter(is_shown);
    let or_dash = |x: Option<f64>, decimals| x.map_or("-".into(), |x| rounded(x, decimals));
    let [running, pump, direct, charged, electric] = totals.numbers().map(|x| rounded(x, 5));
    let _ = writeln!(
        text,
        "{:>4}  {:<20} {:>12} {:>14} {:>11} {:>11} {:>14} {:>10} {:>10} {substeps:>9} {running:>10} {pump:>10} {direct:>10} {charged:>12} {electric:>13}",
        line.index,
        line.call.kind().name(),
        or_dash(energy, 6),
        or_dash(line.shortfall(), 6),
        or_dash(line.answer.trial_energy, 6),
        or_dash(line.answer.state_of_charge, 6),
        or_dash(line.answer.charge_energy_demand, 6),
        or_dash(*outlet, 4),
        rounded(*time, 3),
    );
    if let Some(refusal) = refusal {
        let _ = writeln!(text, "      refused {refusal}");
        if let Some(words) = unlisted(card, &line.call, *refusal) {
            let _ = writeln!(text, "      {words}");
        }
    }
    let fields = line.call.fields();
    if !fields.is_empty() {
        let shown = |(field, value): &(&Field, Value)| {
            format!("{}={value}{}", field.name, class_words(card, value))
        };
        let fields: Vec<String> = fields.iter().map(shown).collect();
        let _ = writeln!(text, "      call   {}", fields.join(" "));
    }
    for (row, zones) in zones.chunks(ZONES_A_ROW).enumerate() {
        let zones: String = zones.iter().map(|zone| format!("{:>10}", rounded(*zone, 4))).collect();
        let _ = writeln!(text, "      {:<8} {zones}", zone_names(row));
    }
}

/// What stands behind a service above 3: its class on the card.
fn class_words(card: &Card, value: &Value) -> String {
    match value {
        Value::Service(service) if service.is_numbered() => match card.class(*service) {
            Some(class) => format!(" ({class})"),
            None => " (not listed)".into(),
        },
        _ => String::new(),
    }
}

/// What stands before a row of zones.
fn zone_names(row: usize) -> String {
    match row {
        0 => "zones °C".into(),
        _ => format!("from {}", row * ZONES_A_ROW + 1),
    }
}

/// A number for reading: so many decimals, or an exponent where it is large.
fn rounded(x: f64, decimals: usize) -> String {
    match x.abs() {
        size if size >= 1e6 => format!("{x:.3e}"),
        _ => format!("{x:.decimals$}"),
    }
}
