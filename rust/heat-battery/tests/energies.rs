//! Energy is heat that moved; what was only asked stands apart.

mod common {
    pub mod command;
    pub mod json;
}

use common::command::{example, run, Folder};
use common::json::{lines, member, number};
use heat_battery::{explain, read, Battery, Call, Card, Explanation, Line, Record, Refusal};
use std::fs;

const DAY: &str = "winter-day.sheet";

fn day() -> Vec<Line> {
    let bytes = fs::read(example(DAY)).unwrap();
    read(&bytes).unwrap().2.map(Result::unwrap).collect()
}

fn hundredths(sum: f64) -> String {
    format!("{sum:.2}")
}

#[test]
fn the_energies_of_a_winter_day_sum_to_31_43() {
    let lines = day();
    assert_eq!(hundredths(lines.iter().map(|line| line.answer.energy).sum()), "31.43");
    // With the trial, the states of charge and the charge energies.
    assert_eq!(hundredths(lines.iter().map(|line| line.answer.figure()).sum()), "91.85");
}

#[test]
fn the_energies_of_a_winter_day_sum_to_31_43_in_json() {
    let shown = run(&["show", "--json", &example(DAY)]).out;
    let lines = lines(&shown);
    assert_eq!(hundredths(lines.iter().map(|line| number(line, "energy")).sum()), "31.43");
    let asked = ["trial_energy", "state_of_charge", "charge_energy_demand"];
    let sums = asked.map(|name| {
        let asked = lines.iter().filter(|line| member(line, name) != "null");
        hundredths(asked.map(|line| number(line, name)).sum())
    });
    assert_eq!(sums, ["2.20", "27.25", "30.97"].map(String::from));
}

/// The words of a line of the table, after its number and kind.
fn columns(table: &str, line: usize) -> Vec<String> {
    let row = table.lines().find(|row| row.trim_start().starts_with(&format!("{line} ")));
    row.unwrap().split_whitespace().skip(2).map(String::from).collect()
}

#[test]
fn show_has_a_column_for_each_question() {
    let shown = run(&["show", &example(DAY)]).out;
    let head = "energy kWh  shortfall kWh   trial kWh  charge 0-1  to charge kWh  outlet °C";
    assert!(shown.contains(head));
    for (line, expected) in [
        (1, ["-", "-", "-", "-", "5.646806"]),
        (2, ["0.700000", "-", "-", "-", "-"]),
        (4, ["-", "-", "-", "0.525754", "-"]),
        (171, ["-", "-", "2.200000", "-", "-"]),
        (172, ["2.200000", "-", "-", "-", "-"]),
    ] {
        assert_eq!(columns(&shown, line)[..5], expected, "line {line}");
    }
}

#[test]
fn batteries_and_records_have_methods_for_the_questions() -> Result<(), Refusal> {
    let mut battery = Battery::open(&Card::example())?;
    let mut record = Record::open(&Card::example())?;
    let charge = battery.state_of_charge()?;
    assert!(charge > 0.4 && charge < 0.5);
    assert_eq!(record.state_of_charge(), Ok(charge));
    let answer = battery.call(&Call::StateOfCharge)?;
    assert_eq!((answer.energy, answer.state_of_charge), (0.0, Some(charge)));
    assert_eq!(record.advance(&Call::StateOfCharge)?, answer);

    let demand = battery.charge_energy_demand(None, 1.0)?;
    assert!(demand > 5.6 && demand < 5.7);
    assert_eq!(record.charge_energy_demand(None, 1.0), Ok(demand));
    let call = Call::ChargeEnergyDemand { flow_maximum: None, target: 1.0 };
    let answer = battery.call(&call)?;
    assert_eq!((answer.energy, answer.charge_energy_demand), (0.0, Some(demand)));
    assert_eq!(record.advance(&call)?, answer);
    assert_eq!(battery.charge_energy_demand(None, 2.0), Err(Refusal::BadCall));
    Ok(())
}

/// A line's figure is what the sheet has, whatever it means.
#[test]
fn a_false_state_of_charge_is_called_by_its_name() {
    let mut bytes = fs::read(example(DAY)).unwrap();
    // Behind the opening and lines 1 to 3 of 17, 16 and 0 bytes of call fields; then length, kind
    // and refusal.
    let line = |fields: usize| 2 + 71 + 8 * 8 + fields;
    let at = 161 + line(17) + line(16) + line(0) + 4;
    bytes[at + 7] ^= 1;
    let Explanation::Differences { line: 4, fields, .. } = explain(&bytes) else {
        panic!("{:?}", explain(&bytes));
    };
    assert_eq!(fields.len(), 1);
    assert_eq!(fields[0].field, "state of charge");
    let sheet = Folder::new("false-charge").write("sheet", &bytes);
    let explained = run(&["audit", "--explain", &sheet]).out;
    assert!(explained.contains("\n  state of charge: the sheet says "), "{explained}");
}
