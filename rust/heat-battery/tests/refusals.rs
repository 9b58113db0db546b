//! One list of names: the crate's and the command's refusals are those of the header and of the proved code.

mod common {
    pub mod command;
}

use common::command::run;
use heat_battery::Refusal;
use std::collections::BTreeMap;
use std::fs;

type Names = BTreeMap<u8, String>;

fn ours() -> Names {
    Refusal::all().map(|one| (one.number(), one.name().to_string())).collect()
}

/// The numbers and names of the lines that `split` takes apart into a name and a number.
fn listed(file: &str, split: impl Fn(&str) -> Option<(String, String)>) -> Names {
    let text = fs::read_to_string(format!("../../{file}")).unwrap();
    let pairs = text.lines().filter_map(split);
    pairs.map(|(name, number)| (number.parse().unwrap(), name)).collect()
}

fn words(line: &str) -> Vec<&str> {
    line.split_whitespace().collect()
}

/// `#define HEAT_BATTERY_NAME NUMBER`; lengths and versions are no refusals.
fn of_header(line: &str) -> Option<(String, String)> {
    let [define, name, number, ..] = words(line)[..] else { return None };
    let name = name.strip_prefix("HEAT_BATTERY_").filter(|_| define == "#define")?;
    let others = ["OLDEST_VERSION", "NEWEST_VERSION", "MOST_LAYERS", "MOST_SERVICES", "ANSWERED"];
    let other = name.contains("_LENGTH") || others.contains(&name);
    (!other).then(|| (name.to_string(), number.to_string()))
}

/// `Name = NUMBER,`, a case of the enum
fn of_code(line: &str) -> Option<(String, String)> {
    let (name, number) = line.trim().strip_suffix(',')?.split_once(" = ")?;
    number.parse::<u8>().ok()?;
    let upper = |(i, c): (usize, char)| match i > 0 && c.is_uppercase() {
        true => format!("_{c}"),
        false => c.to_uppercase().to_string(),
    };
    Some((name.chars().enumerate().map(upper).collect(), number.to_string()))
}

/// `nameInCamelCase = NUMBER`
fn of_definitions(line: &str) -> Option<(String, String)> {
    let [name, "=", number] = words(line)[..] else { return None };
    let upper = |c: char| match c.is_uppercase() {
        true => format!("_{c}"),
        false => c.to_uppercase().to_string(),
    };
    (name != "answered").then(|| (name.chars().map(upper).collect(), number.to_string()))
}

#[test]
fn header_and_code_have_the_names() {
    assert_eq!(listed("include/heat_battery.h", of_header), ours());
    assert_eq!(listed("crates/refusals/src/lib.rt", of_code), ours());
    assert_eq!(listed("crates/refusals/specs/Refusals.antt", of_definitions), ours());
}

#[test]
fn the_command_lists_them() {
    let ended = run(&["refusals"]);
    ended.assert_fine("refusals");
    let rows = ended.out.lines().map(words);
    let shown: Names = rows.map(|row| (row[0].parse().unwrap(), row[1].to_string())).collect();
    assert_eq!(shown, ours());
}
