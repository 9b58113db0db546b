//! Versions and the charging loop's time through the command.

mod common {
    pub mod command;
    pub mod figures;
    pub mod json;
}

use common::command::{example, run, Ended, Folder};
use common::figures::figures;
use common::json::{is_json, lines, member, number};
use heat_battery::Version;
use std::fs;

const LOOP: &str = "charging-loop.sheet";
/// Of the time of the example's first line.
const TIME: usize = 161 + 2 + 73 + 1 + 8 + 9;
const NAME: &str = "time of the charging loop, s (0 in version 1)";

/// The example's calls, run with some words more.
fn ran(folder: &Folder, words: &[&str]) -> (String, Ended) {
    let (card, calls) = (example("charging-loop.card"), example("charging-loop.calls"));
    let out = folder.path("sheet");
    let ended = run(&[&["run", &card, &calls, "-o", &out], words].concat());
    (out, ended)
}

/// The example's sheet in version 1.
fn old(folder: &Folder) -> String {
    let (sheet, ended) = ran(folder, &["--version", "1"]);
    ended.assert_fine("run --version 1");
    sheet
}

// ---- run

#[test]
fn the_figures_come_through_the_command() {
    let folder = Folder::new("figures");
    for figure in figures() {
        let card = folder.write("card", figure.card().to_string().as_bytes());
        let calls = folder.write("calls", figure.wet.call().to_string().as_bytes());
        for version in Version::ALL {
            let time = if version.shows_hydronic_time() { figure.time } else { 0.0 };
            let (version, out) = (version.to_string(), folder.path("sheet"));
            run(&["run", &card, &calls, "--version", &version, "-o", &out]).assert_fine("run");
            let shown = run(&["show", "--json", &out]);
            shown.assert_fine("show");
            let line = lines(&shown.out)[0];
            assert_eq!(member(line, "substeps"), figure.substeps.to_string());
            assert_eq!(member(line, "time"), format!("{time:?}"));
        }
    }
}

#[test]
fn run_writes_the_version_asked_for() {
    let folder = Folder::new("run-version");
    let newest = Version::NEWEST.number();
    for (words, version) in
        [(&["--version", "1"][..], 1), (&["--version=2"], 2), (&[], newest), (&["--version=01"], 1)]
    {
        let (sheet, ended) = ran(&folder, words);
        ended.assert_fine("run");
        assert_eq!(fs::read(&sheet).unwrap()[0], version, "{words:?}");
        assert!(ended.err.contains(&format!(", version {version}, card ")), "{}", ended.err);
        run(&["audit", &sheet]).assert_fine("audit");
    }
    let (sheet, _) = ran(&folder, &["--version", "2"]);
    assert!(fs::read(sheet).unwrap() == fs::read(example(LOOP)).unwrap());
}

#[test]
fn another_version_is_bad_usage() {
    let folder = Folder::new("run-unknown");
    let (known, next) = (Version::known(), (Version::NEWEST.number() + 1).to_string());
    for value in ["0", &next, "256", "-1", "two", ""] {
        let (sheet, ended) = ran(&folder, &["--version", value]);
        assert_eq!(ended.status, 2, "{value}");
        let words = format!("run: --version {value} is no known version of a sheet ({known})");
        assert!(ended.err.contains(&words), "{}", ended.err);
        assert!(fs::metadata(sheet).is_err());
    }
    let (_, ended) = ran(&folder, &["--version"]);
    assert!(ended.status == 2 && ended.err.contains("--version needs a value"), "{}", ended.err);
    let help = run(&["run", "--help"]).out;
    assert!(help.contains(&format!("a sheet of version N ({known})")), "{help}");
}

// ---- show and plot

/// The time column of the lines of a table.
fn times(table: &str) -> Vec<String> {
    let column = table.lines().find_map(|line| line.find("    time s")).unwrap();
    let rows = table.lines().skip_while(|line| !line.contains("    time s")).skip(1);
    let rows = rows.filter(|row| row.starts_with("   ") && !row.starts_with("     "));
    rows.map(|row| row.get(column..column + 10).unwrap().trim().to_string()).collect()
}

#[test]
fn show_has_the_version_and_the_charging_loop() {
    let shown = run(&["show", &example(LOOP)]).out;
    assert_eq!(times(&shown), ["0.263", "20.000", "40.000", "0.000"]);
    assert!(shown.contains("\ncharging loop: 3 lines, 0.01674 h\n"), "{shown}");
    assert!(shown.ends_with("\n\nversion 2\ncard 2ef770a9\naudit: accepted 4\n"), "{shown}");

    let json = run(&["show", "--json", &example(LOOP)]).out;
    assert!(is_json(&json) && json.starts_with("{\"version\":2,\n"), "{json}");
    let times: Vec<f64> = lines(&json).iter().map(|line| number(line, "time")).collect();
    let hours = times.iter().sum::<f64>() / 3600.0;
    let object = format!("\n\"charging_loop\":{{\"lines\":3,\"hours\":{hours:?}}},\n");
    assert!(json.contains(&object), "{json} has no {object}");
}

#[test]
fn version_1_shows_nothing_of_the_charging_loop() {
    let folder = Folder::new("show-old");
    let sheet = old(&folder);
    let shown = run(&["show", &sheet]).out;
    assert_eq!(times(&shown), ["0.000"; 4]);
    assert!(!shown.contains("loop") && shown.contains("\nversion 1\ncard 2ef770a9\n"), "{shown}");
    let json = run(&["show", "--json", &sheet]).out;
    assert!(json.starts_with("{\"version\":1,\n"), "{json}");
    assert!(is_json(&json) && json.contains("\n\"charging_loop\":null,\n"), "{json}");
}

#[test]
fn the_plot_has_the_hours_of_the_lines_that_it_draws() {
    let folder = Folder::new("plot-loop");
    let svg = folder.path("x.svg");
    let drawn = |sheet: &str, words: &[&str]| {
        run(&[&["plot", sheet, "-o", &svg], words].concat()).assert_fine("plot");
        fs::read_to_string(&svg).unwrap()
    };
    let new = example(LOOP);
    assert!(drawn(&new, &[]).contains(">charging loop: 3 lines, 0.01674 h</text>"));
    let part = drawn(&new, &["--from", "2", "--to", "2"]);
    assert!(part.contains(">charging loop: 1 line, 0.00556 h</text>"));
    assert!(!drawn(&new, &["--from", "4"]).contains("loop:"));
    assert!(!drawn(&old(&folder), &[]).contains("loop:"));
}

// ---- audit and convert

#[test]
fn a_wrong_time_is_explained() {
    let folder = Folder::new("wrong-time");
    let [one, two] = [old(&folder), example(LOOP)].map(|path| fs::read(path).unwrap());
    let with = |sheet: &[u8], time: f64| {
        [&sheet[..TIME], &time.to_be_bytes(), &sheet[TIME + 8..]].concat()
    };
    let run_time = 0.2634034416826004;
    for (sheet, shown, given) in
        [(with(&one, run_time), run_time, 0.0), (with(&two, 0.0), 0.0, run_time)]
    {
        let ended = run(&["audit", "--explain", &folder.write("wrong", &sheet)]);
        assert_eq!((ended.status, ended.verdict()), (1, "refused 43 line 1"));
        let words = format!("\n  {NAME}: the sheet says {shown:?}, the steps give {given:?}\n");
        assert!(ended.out.ends_with(&words), "{} has no {words}", ended.out);
        assert!(ended.out.contains("\nline 1 is hydronic inlet=70.0 "), "{}", ended.out);
    }
}

#[test]
fn an_unknown_version_is_said() {
    let folder = Folder::new("unknown-version");
    let mut bytes = fs::read(example(LOOP)).unwrap();
    let known = Version::known();
    for byte in [0, Version::NEWEST.number() + 1] {
        bytes[0] = byte;
        let sheet = folder.write("sheet", &bytes);
        let words = format!("line 0: the first byte is {byte}, no known version ({known})");
        let audited = run(&["audit", "--explain", &sheet]);
        assert_eq!((audited.status, audited.verdict()), (1, "refused 40 line 0"));
        assert_eq!(audited.out.lines().nth(1), Some(words.as_str()));
        let (svg, name) = (folder.path("x.svg"), folder.path("x"));
        for command in [&["show"][..], &["plot", "-o", &svg], &["convert", "-o", &name]] {
            let ended = run(&[command, &[sheet.as_str()]].concat());
            assert_eq!(ended.status, 1);
            assert!(ended.err.contains(&format!("{words} (refusal 40)")), "{}", ended.err);
        }
    }
    let refusals = run(&["refusals"]).out;
    let words =
        "40  NO_VERSION         the version, a sheet's first byte, is missing or not known\n";
    assert!(refusals.contains(words), "{refusals}");
}

#[test]
fn convert_says_which_version_it_was() {
    let folder = Folder::new("convert-version");
    let name = folder.path("x");
    for (sheet, version) in [(old(&folder), "1"), (example(LOOP), "2")] {
        let bytes = fs::read(&sheet).unwrap();
        let ended = run(&["convert", &sheet, "-o", &name]);
        ended.assert_fine("convert");
        let note = format!("run --version {version} gives it again\n");
        assert!(ended.err.ends_with(&note), "{}", ended.err);
        let (card, calls, out) =
            (format!("{name}.card"), format!("{name}.calls"), folder.path("y"));
        let first = format!("# Of a sheet of version {version}.\n");
        assert!(fs::read_to_string(&calls).unwrap().starts_with(&first));
        run(&["run", &card, &calls, "-o", &out, "--version", version]).assert_fine("run");
        assert!(fs::read(&out).unwrap() == bytes);
    }
}
