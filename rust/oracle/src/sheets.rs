//! Named sheets for stored tests of the audit program, each with the verdict that documents 01 and 02
//! give it.

mod accepted;
mod refused;

use crate::auditor::{self, Verdict};
use crate::entries;
use crate::generate::points_card;
use crate::model::{Call, Card, Demand, Hydronic, Service, Services};
use crate::sheet;
use std::fs;
use std::path::Path;

pub struct Named {
    pub name: String,
    pub bytes: Vec<u8>,
    /// By hand, not by the auditor.
    pub verdict: Verdict,
}

impl Named {
    fn accepted(name: &str, bytes: Vec<u8>, lines: u64) -> Self {
        Named { name: name.to_string(), bytes, verdict: Verdict::Accepted(lines) }
    }

    fn refused(name: &str, bytes: Vec<u8>, refusal: u8, line: u64) -> Self {
        Named { name: name.to_string(), bytes, verdict: Verdict::refused(refusal, line) }
    }
}

pub fn all() -> Vec<Named> {
    let mut sheets = accepted::all();
    sheets.extend(refused::all());
    sheets
}

/// Writes NAME.sheet and NAME.out for every sheet.
pub fn write(folder: &Path) -> Result<(), String> {
    fs::create_dir_all(folder).map_err(|error| format!("{}: {error}", folder.display()))?;
    for Named { name, bytes, verdict } in all() {
        let audited = auditor::audit_limited(&bytes);
        if audited != verdict {
            return Err(format!("{name}: {audited}, but {verdict} is due"));
        }
        println!("{name}: {} bytes, {verdict}", bytes.len());
        save(folder, &format!("{name}.sheet"), &bytes)?;
        save(folder, &format!("{name}.out"), format!("{verdict}\n").as_bytes())?;
    }
    Ok(())
}

fn save(folder: &Path, name: &str, bytes: &[u8]) -> Result<(), String> {
    let path = folder.join(name);
    fs::write(&path, bytes).map_err(|error| format!("{}: {error}", path.display()))
}

// ---- Writing

/// The sheet of a list, and what each call returned.
fn run(version: u8, card: &Card, calls: &[Call]) -> (Vec<u8>, Vec<u8>) {
    let card_bytes = sheet::card_bytes(version, card);
    let mut record = vec![0; sheet::record_length(&card_bytes)];
    let mut bytes = vec![0; sheet::opening_length(&card_bytes)];
    assert_eq!(entries::open(version, &card_bytes, &mut record, &mut bytes), 0);
    let mut results = Vec::new();
    for call in calls {
        let call = sheet::call_bytes(version, call);
        let used = bytes.len();
        bytes.resize(used + sheet::line_length(&call, card.layers), 0);
        results.push(entries::call(version, &mut record, &call, &mut bytes[used..]));
    }
    (bytes, results)
}

/// The sheet of a list that 10 spares, of version 1.
fn written(card: &Card, calls: &[Call]) -> Vec<u8> {
    written_in(1, card, calls)
}

fn written_in(version: u8, card: &Card, calls: &[Call]) -> Vec<u8> {
    let (bytes, results) = run(version, card, calls);
    assert!(!results.contains(&10));
    bytes
}

// ---- Calls

/// One layer at 60 °C, or as many as asked.
fn card(layers: u8) -> Card {
    Card { layers, ..points_card() }
}

/// Services by their numbers and classes.
fn services(listed: &[(u16, u8)]) -> Services {
    let listed: Vec<Service> =
        listed.iter().map(|&(number, class)| Service { number, class }).collect();
    Services::new(&listed)
}

/// So many services: 4, 5, 6 and so on, of the classes in turn.
fn many_services(count: u16) -> Services {
    let listed: Vec<(u16, u8)> = (0..count).map(|i| (4 + i, 1 + (i % 3) as u8)).collect();
    services(&listed)
}

fn demand(required: f64) -> Demand {
    Demand {
        service_type: 1,
        commit: 1,
        control_on: 1,
        required,
        start: 0.0,
        return_temperature: Some(10.0),
    }
}

fn hydronic() -> Hydronic {
    Hydronic {
        inlet: 70.0,
        hours: 0.1,
        flow: 6.0,
        target: 1.0,
        limit: 0.02,
        hex_a: 19.744,
        hex_b: 200.0,
        velocity: 0.1,
        diameter: 0.01,
    }
}

/// A call of each kind, 1 to 7.
fn one_of_each() -> [Call; 7] {
    [
        Call::Demand(demand(0.05)),
        Call::Electric { power: 0.02, target: 0.9 },
        Call::Hydronic(hydronic()),
        Call::StandingLoss,
        Call::CloseTimestep,
        Call::StateOfCharge,
        Call::ChargeEnergyDemand { flow_maximum: None, target: 1.0 },
    ]
}
