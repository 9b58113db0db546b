//! A sheet as JSON. Numbers are written so that they read back exactly; one that is not finite,
//! which only a damaged sheet has, is a string.

use crate::files::Parts;
use heat_battery::{Call, Card, ChargingLoop, Line, Service, Totals, Unmet, Value, Verdict};
use std::fmt::Write;

pub fn sheet(parts: &Parts, verdict: Verdict) -> String {
    let Parts { version, card, lines, damage } = parts;
    let mut text = format!(
        "{{\"version\":{version},\n\"card\":{},\n\"fingerprint\":{},\n\"lines\":[",
        card_object(card),
        string(&card.fingerprint().to_string())
    );
    for (at, one) in lines.iter().enumerate() {
        text.push_str(if at == 0 { "\n" } else { ",\n" });
        text.push_str(&line(card, one));
    }
    let _ = writeln!(text, "],\n\"unmet\":{},", unmet_object(&Unmet::of(lines)));
    let pump = ChargingLoop::of(*version, lines).map_or("null".into(), pump_object);
    let _ = writeln!(text, "\"charging_loop\":{pump},");
    if let Some(damage) = damage {
        let _ = writeln!(text, "\"damage\":{},", string(&damage.to_string()));
    }
    let _ = writeln!(text, "\"verdict\":{}}}", string(&verdict.to_string()));
    text
}

fn line(card: &Card, line: &Line) -> String {
    let answer = &line.answer;
    let refusal = answer.refusal.map_or(0, |refusal| refusal.number());
    let name = answer.refusal.map_or("null".into(), |refusal| string(refusal.name()));
    let words = answer.refusal.map_or("null".into(), |refusal| string(refusal.words()));
    let or_null = |x: Option<f64>| x.map_or("null".into(), number);
    let zones: Vec<String> = answer.zones.iter().map(|zone| number(*zone)).collect();
    let members = [
        ("line", line.index.to_string()),
        ("kind", string(line.call.kind().name())),
        ("call", call_object(card, &line.call)),
        ("refusal", refusal.to_string()),
        ("refusal_name", name),
        ("refusal_words", words),
        ("energy", number(answer.energy)),
        ("shortfall", number(line.shortfall().unwrap_or(0.0))),
        ("trial_energy", or_null(answer.trial_energy)),
        ("state_of_charge", or_null(answer.state_of_charge)),
        ("charge_energy_demand", or_null(answer.charge_energy_demand)),
        ("outlet", or_null(answer.outlet)),
        ("time", number(answer.time)),
        ("substeps", answer.substeps.to_string()),
        ("zones", format!("[{}]", zones.join(","))),
        ("totals", totals_object(&answer.totals)),
    ];
    object(members)
}

fn card_object(card: &Card) -> String {
    let fields = Card::FIELDS.iter().map(|field| field.name);
    let services: Vec<String> = card.services.iter().map(service_object).collect();
    let services = format!("[{}]", services.join(","));
    let values = card.values();
    let behind = [("services", services), (Card::FLOOR.name, card.floor.to_string())];
    object(fields.zip(values.iter().map(value)).chain(behind))
}

fn service_object(service: &Service) -> String {
    let Service { number, class } = service;
    object([("number", number.to_string()), ("class", string(class.name()))])
}

/// The call's fields; behind a demand's service the class that it has on the card.
fn call_object(card: &Card, call: &Call) -> String {
    let fields = call.fields();
    object(fields.iter().flat_map(|(field, one)| {
        let class = match one {
            Value::Service(service) => Some(card.class(*service)),
            _ => None,
        };
        let class = class.map(|class| class.map_or("null".into(), |class| string(class.name())));
        [(field.name, value(one))].into_iter().chain(class.map(|class| ("service_class", class)))
    }))
}

fn totals_object(totals: &Totals) -> String {
    let names = Totals::NAMES.iter().map(|(name, _)| *name);
    object(names.zip(totals.numbers().map(number)))
}

fn unmet_object(unmet: &Unmet) -> String {
    object([("lines", unmet.lines.to_string()), ("shortfall", number(unmet.energy))])
}

fn pump_object(pump: ChargingLoop) -> String {
    object([("lines", pump.lines.to_string()), ("hours", number(pump.hours()))])
}

fn object<'a>(members: impl IntoIterator<Item = (&'a str, String)>) -> String {
    let members: Vec<String> =
        members.into_iter().map(|(name, value)| format!("\"{name}\":{value}")).collect();
    format!("{{{}}}", members.join(","))
}

fn value(value: &Value) -> String {
    match *value {
        Value::Byte(_) | Value::Short(_) => value.to_string(),
        Value::Flag(flag) => flag.to_string(),
        Value::Service(service) => service.name().map_or(service.to_string(), string),
        Value::Number(x) | Value::Optional(Some(x)) => number(x),
        Value::Optional(None) => "null".into(),
    }
}

fn number(x: f64) -> String {
    match x.is_finite() {
        true => format!("{x:?}"),
        false => string(&format!("{x:?}")),
    }
}

fn string(text: &str) -> String {
    let mut quoted = String::from('"');
    for c in text.chars() {
        match c {
            '"' | '\\' => quoted.extend(['\\', c]),
            c if c.is_control() => {
                let _ = write!(quoted, "\\u{:04x}", u32::from(c));
            }
            c => quoted.push(c),
        }
    }
    quoted.push('"');
    quoted
}
