//! Demand that a battery didn't meet is said.

mod common {
    pub mod command;
    pub mod json;
}

use common::command::{example, run, Folder};
use common::json::{is_json, lines, number};
use heat_battery::{shortfall, Battery, Call, Card, Refusal, ServiceType, Unmet};
use std::fs;

const DAY: &str = "winter-day.sheet";

/// Met, too much, a trial of too much, met.
const CALLS: &str = "\
demand service=direct commit=yes control_on=no required=1 start=0 return_temperature=10
demand service=direct commit=yes control_on=no required=8 start=0 return_temperature=10
demand service=direct commit=no control_on=no required=8 start=0 return_temperature=10
close_timestep
electric power=9 target=1
demand service=space commit=yes control_on=no required=0.5 start=0 return_temperature=30
demand service=direct commit=yes control_on=no required=7 start=0 return_temperature=10
close_timestep
";

/// Refused with 20.
const REFUSED: &str =
    "demand service=space commit=yes control_on=no required=2 start=0 return_temperature=none\n";

/// The sheet of a list, and what `run` said.
fn sheet(folder: &Folder, calls: &str, words: &[&str]) -> (String, common::command::Ended) {
    let calls = folder.write("calls", calls.as_bytes());
    let (card, out) = (example("salt-battery.card"), folder.path("sheet"));
    let ended = run(&[&["run", &card, &calls, "-o", &out], words].concat());
    (out, ended)
}

/// What the lines of a sheet lack, in JSON.
fn shortfalls(sheet: &str) -> Vec<f64> {
    let shown = run(&["show", "--json", sheet]).out;
    assert!(is_json(&shown));
    lines(&shown).iter().map(|line| number(line, "shortfall")).collect()
}

#[test]
fn unmet_demand_is_said_after_run_and_shown() {
    let folder = Folder::new("unmet");
    let (sheet, ended) = sheet(&folder, CALLS, &[]);
    ended.assert_fine("run");
    let lacks = shortfalls(&sheet);
    let unmet: Vec<usize> = (0..lacks.len()).filter(|at| lacks[*at] > 0.0).collect();
    assert_eq!(unmet, [1, 6], "{lacks:?}");
    let words = format!("demand unmet: 2 lines, {:.3} kWh", lacks[1] + lacks[6]);
    assert!(ended.err.lines().any(|line| line == words), "{} has no {words}", ended.err);

    let shown = run(&["show", &sheet]).out;
    assert!(shown.contains("  shortfall kWh "));
    let row = shown.lines().find(|row| row.trim_start().starts_with("2  demand")).unwrap();
    assert_eq!(row.split_whitespace().nth(3), Some(format!("{:.6}", lacks[1]).as_str()));
    assert!(shown.contains(&format!("\n{words}\n")));
    let json = run(&["show", "--json", &sheet]).out;
    let sum = format!("\n\"unmet\":{{\"lines\":2,\"shortfall\":{:?}}},\n", lacks[1] + lacks[6]);
    assert!(json.contains(&sum), "{json}");
}

#[test]
fn a_refused_demand_lacks_all_that_was_required() {
    let folder = Folder::new("unmet-refused");
    let (sheet, ended) = sheet(&folder, REFUSED, &["--unmet-fails"]);
    assert_eq!(ended.status, 1, "a refusal goes before unmet demand");
    assert!(ended.err.contains("\ndemand unmet: 1 line, 2.000 kWh\n"), "{}", ended.err);
    assert_eq!(shortfalls(&sheet), [2.0]);
}

#[test]
fn unmet_fails_gives_status_3() {
    let folder = Folder::new("unmet-fails");
    let (sheet, ended) = sheet(&folder, CALLS, &["--unmet-fails"]);
    assert_eq!(ended.status, 3);
    assert!(ended.err.contains("calls: demand unmet: 2 lines, "), "{}", ended.err);
    run(&["audit", &sheet]).assert_fine("the sheet is written");
    assert_eq!(run(&["show", &sheet, "--unmet-fails"]).status, 3);
    run(&["show", &sheet]).assert_fine("show without --unmet-fails");
    for page in [&["--help"][..], &["run", "--help"], &["show", "--help"]] {
        let help = run(page).out.replace('\n', " ");
        assert!(help.contains("; 3 "), "{help}");
    }
}

#[test]
fn a_met_day_says_nothing_of_unmet_demand() {
    let folder = Folder::new("met");
    let (card, calls) = (example("salt-battery.card"), example("winter-day.calls"));
    let ended = run(&["run", &card, &calls, "-o", &folder.path("sheet"), "--unmet-fails"]);
    ended.assert_fine("run");
    assert!(!ended.err.contains("unmet"), "{}", ended.err);
    run(&["show", &example(DAY), "--unmet-fails"]).assert_fine("show");
    assert!(!run(&["show", &example(DAY)]).out.contains("unmet"));
    assert!(!fs::read_to_string(example("winter-day.svg")).unwrap().contains("unmet"));
}

#[test]
fn unmet_demand_is_marked_in_the_plot() {
    let folder = Folder::new("unmet-plot");
    let (sheet, _) = sheet(&folder, CALLS, &[]);
    let svg = folder.path("x.svg");
    run(&["plot", &sheet, "-o", &svg]).assert_fine("plot");
    let drawn = fs::read_to_string(&svg).unwrap();
    // Two marks and one in the legend, which no other mark looks like.
    assert_eq!(drawn.matches("Z\" fill=\"#d00\"/>").count(), 3);
    assert!(drawn.contains(">demand unmet</text>"));
    assert!(drawn.contains("; demand unmet: 2 lines, "));
}

#[test]
fn a_watt_hour_is_no_shortfall() -> Result<(), Refusal> {
    let call = |commit, required| Call::Demand {
        service: ServiceType::Direct,
        commit,
        control_on: false,
        required,
        start: 0.0,
        return_temperature: Some(10.0),
    };
    let mut answer = Battery::open(&Card::example())?.call(&call(true, 1.0))?;
    answer.energy = 1.0;
    for (required, expected) in [(1.0, None), (1.000_9, None), (1.25, Some(0.25)), (-3.0, None)] {
        assert_eq!(shortfall(&call(true, required), &answer), expected, "{required}");
        assert_eq!(shortfall(&call(false, required), &answer), None, "a trial of {required}");
    }
    assert_eq!(shortfall(&Call::StandingLoss, &answer), None);
    let mut unmet = Unmet::default();
    for lack in [Some(0.25), None, Some(0.954)] {
        unmet.add(lack);
    }
    assert_eq!(unmet.to_string(), "demand unmet: 2 lines, 1.204 kWh");
    Ok(())
}
