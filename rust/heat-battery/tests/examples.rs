//! The stored examples and docs/FORMAT.md are as the crate has them.

mod common {
    pub mod command;
}

use common::command::{example, examples, path_text, Folder};
use heat_battery::{audit, read, text, Answer, Battery, Call, Card};
use heat_battery::{Refusal, Sheet, Verdict, Version};
use std::fs;
use std::process::Command;

/// The sheet that the texts of an example give in a version.
fn sheet(version: Version, card: &str, calls: &str) -> Vec<u8> {
    let card: Card = fs::read_to_string(example(card)).unwrap().parse().unwrap();
    let calls = text::calls(&fs::read_to_string(example(calls)).unwrap()).unwrap();
    let mut sheet = Sheet::open_as(version, &card).unwrap();
    for listed in calls {
        sheet.answer(&listed.call).unwrap();
    }
    sheet.into_bytes()
}

fn two_lines() -> Vec<u8> {
    sheet(Version::One, "two-lines.card", "two-lines.calls")
}

fn charging_loop() -> Vec<u8> {
    sheet(Version::Two, "charging-loop.card", "charging-loop.calls")
}

fn services() -> Vec<u8> {
    sheet(Version::Three, "services.card", "services.calls")
}

fn floor() -> Vec<u8> {
    sheet(Version::Four, "floor.card", "floor.calls")
}

#[test]
fn the_two_line_sheet_is_stored() {
    assert!(two_lines() == fs::read(example("two-lines.sheet")).unwrap());
    assert_eq!(audit(&two_lines()), Verdict::Accepted(2));
}

/// A charge that the limit ends with a replayed substep, one that the hours end, one that its
/// outlet does.
#[test]
fn the_charging_loops_sheet_is_stored() {
    let bytes = charging_loop();
    assert!(bytes == fs::read(example("charging-loop.sheet")).unwrap());
    assert_eq!(audit(&bytes), Verdict::Accepted(4));
    let (_, _, lines) = read(&bytes).unwrap();
    let shown: Vec<(u32, f64)> =
        lines.map(|line| line.unwrap().answer).map(|one| (one.substeps, one.time)).collect();
    assert_eq!(shown, [(2, 0.2634034416826004), (1, 20.0), (2, 40.0), (0, 0.0)]);
}

/// A demand for each service of the card, a trial and a demand for one that it doesn't list.
#[test]
fn the_sheet_of_services_is_stored() {
    let bytes = services();
    assert!(bytes == fs::read(example("services.sheet")).unwrap());
    assert_eq!((bytes.len(), audit(&bytes)), (802, Verdict::Accepted(6)));
    let (_, card, lines) = read(&bytes).unwrap();
    let shown: Vec<(Option<Refusal>, bool)> = lines
        .map(|line| line.unwrap())
        .map(|line| (line.answer.refusal, card.unlisted(&line.call).is_some()))
        .collect();
    let (listed, refused) = ((None, false), (Some(Refusal::NoService), true));
    assert_eq!(shown, [listed, listed, listed, (None, true), refused, listed]);
}

/// Five days: two losses above the floor, one that stops there, two that take nothing.
#[test]
fn the_sheet_with_a_floor_is_stored() {
    let bytes = floor();
    assert!(bytes == fs::read(example("floor.sheet")).unwrap());
    assert_eq!((bytes.len(), audit(&bytes)), (1345, Verdict::Accepted(14)));
    let (_, card, lines) = read(&bytes).unwrap();
    assert!(card.floor);
    let lines: Vec<_> = lines.map(|line| line.unwrap()).collect();
    let losses: Vec<_> = lines.iter().filter(|line| line.call == Call::StandingLoss).collect();
    let floor = Card::FLOOR_TEMPERATURE;
    let shown: Vec<(bool, bool)> = losses
        .iter()
        .map(|line| (line.answer.energy > 0.0, line.answer.zones[0] > floor))
        .collect();
    let (above, stopped, nothing) = ((true, true), (true, false), (false, false));
    assert_eq!(shown, [above, above, stopped, nothing, nothing]);
    assert!(losses[2..].iter().all(|line| *line.answer.zones == [floor]));
}

#[test]
fn the_example_card_is_the_template() {
    let text = fs::read_to_string(example("salt-battery.card")).unwrap();
    assert_eq!(text, Card::example().to_string());
}

/// The first Rust program of a page.
fn program(page: &str) -> String {
    let text = fs::read_to_string(examples().join(page)).unwrap();
    let rest = text.split("```rust\n").nth(1).unwrap();
    rest.split("```").next().unwrap().into()
}

/// The program of the repository's page is that of the crate's, which is run as a test.
#[test]
fn the_pages_show_one_program() {
    let shown = program("../README.md");
    assert_eq!(shown, program("../rust/heat-battery/README.md"));
    assert!(shown.lines().count() <= 20);
}

/// The C program of the crate's page fits the header.
#[test]
fn the_pages_c_program_agrees_with_the_header() {
    let page = fs::read_to_string(examples().join("../rust/heat-battery/README.md")).unwrap();
    let program = page.split("```c\n").nth(1).unwrap().split("```").next().unwrap();
    let file = Folder::new("page-c").write("lose.c", program.as_bytes());
    let include = path_text(&examples().join("../include"));
    let words = ["-std=c11", "-Wall", "-Wextra", "-Werror", "-fsyntax-only", "-I", &include, &file];
    let compiled = Command::new("cc").args(words).output().unwrap();
    assert!(compiled.status.success(), "{}", String::from_utf8_lossy(&compiled.stderr));
}

/// The hex columns of the annotated lines in a section of the format page, in order.
fn annotated(section: &str) -> String {
    let page = fs::read_to_string(examples().join("../docs/FORMAT.md")).unwrap();
    let rest = page.split(&format!("\n## {section}\n")).nth(1).unwrap();
    rest.split("\n## ").next().unwrap().lines().filter_map(hex_column).collect()
}

fn hex(bytes: &[u8]) -> String {
    bytes.iter().map(|byte| format!("{byte:02x}")).collect()
}

#[test]
fn the_format_page_shows_the_two_line_sheet() {
    let bytes = two_lines();
    assert_eq!(annotated("An example"), hex(&bytes[..25]) + &hex(&bytes[161..]));
}

/// The first byte and line 1.
#[test]
fn the_format_page_shows_a_hydronic_line_of_version_2() {
    let bytes = charging_loop();
    let line = 161..161 + 2 + 71 + 8 + 72;
    assert_eq!(annotated("A hydronic line of version 2"), hex(&bytes[..1]) + &hex(&bytes[line]));
}

/// The front of line 0, the card's services and line 1.
#[test]
fn the_format_page_shows_a_demand_line_of_version_3() {
    let bytes = services();
    let shown = hex(&bytes[..9]) + &hex(&bytes[161..171 + 2 + 108]);
    assert_eq!(annotated("Services and a demand line of version 3"), shown);
}

/// The front of line 0, the card's service and its flag, and line 5.
#[test]
fn the_format_page_shows_a_standing_loss_of_version_4() {
    let bytes = floor();
    let line_5 = 166 + 4 * 81;
    let shown = [&bytes[..9], &bytes[161..166], &bytes[line_5..line_5 + 81]].map(hex).concat();
    assert_eq!(annotated("The floor and a standing loss of version 4"), shown);
    // What the page says of the same day without a floor.
    let (_, card, lines) = read(&bytes).unwrap();
    let mut battery = Battery::open(&Card { floor: false, ..card }).unwrap();
    let answers: Vec<Answer> =
        lines.take(5).map(|line| battery.call(&line.unwrap().call).unwrap()).collect();
    let page = fs::read_to_string(examples().join("../docs/FORMAT.md")).unwrap();
    let (before, after) = (answers[3].zones[0], answers[4]);
    let (energy, zone) = (after.energy, after.zones[0]);
    let start = format!("The zone is at {before} °C. Without a floor it would lose {energy} kWh");
    assert!(page.contains(&format!("{start} and end at\n{zone} °C;")), "{start}, {zone}");
}

/// The hex digits at the front of an indented line, without blanks.
fn hex_column(line: &str) -> Option<String> {
    let line = line.strip_prefix("    ")?;
    let column: String = line.split("  ").next()?.split(' ').collect();
    column.chars().all(|c| c.is_ascii_hexdigit()).then_some(column)
}

/// 71 + 8 × layers + fields, and the last byte of zone 1, as the page says.
#[test]
fn the_format_page_is_right_about_lengths_and_damage() {
    use heat_battery::Kind;
    let fields = |version| Kind::ALL.map(|kind| kind.bytes(version) - 1);
    assert_eq!(fields(Version::One), [28, 16, 72, 0, 0, 0, 17]);
    assert_eq!(fields(Version::Two), fields(Version::One));
    assert_eq!(fields(Version::Three), [29, 16, 72, 0, 0, 0, 17]);
    assert_eq!(fields(Version::Four), fields(Version::Three));
    let mut bytes = fs::read(example("two-lines.sheet")).unwrap();
    let zone = bytes.len() - 41;
    assert_eq!(bytes[zone], 0x72);
    bytes[zone] = 0x73;
    assert_eq!(audit(&bytes).to_string(), "refused 43 line 2");

    let bytes = charging_loop();
    let other = [&[1], &bytes[1..]].concat();
    assert_eq!(audit(&other).to_string(), "refused 43 line 1");
    // Behind length, call, refusal, energy and outlet.
    let time = 161 + 2 + 73 + 1 + 8 + 9;
    let without = [&bytes[..time], &[0; 8], &bytes[time + 8..]].concat();
    assert_eq!(audit(&without).to_string(), "refused 43 line 1");

    let bytes = services();
    let with = |at: usize, byte: u8| [&bytes[..at], &[byte], &bytes[at + 1..]].concat();
    for (at, byte, verdict) in [
        (164, 0x03, "refused 43 line 1"),
        (164, 0x01, "accepted 6"),
        (163, 0x03, "refused 41 line 0"),
        (161, 0x02, "refused 41 line 0"),
        (175, 0x0d, "refused 43 line 1"),
    ] {
        assert_eq!(audit(&with(at, byte)).to_string(), verdict, "byte {at}");
    }

    let bytes = floor();
    let with = |at: usize, byte: u8| [&bytes[..at], &[byte], &bytes[at + 1..]].concat();
    for (at, byte, verdict) in [
        (165, 0x00, "refused 43 line 5"),
        (165, 0x02, "refused 41 line 0"),
        (161, 0x00, "refused 41 line 0"),
        (0, 0x03, "refused 41 line 0"),
    ] {
        assert_eq!(audit(&with(at, byte)).to_string(), verdict, "byte {at}");
    }
}
