//! The command on the examples, on refused calls and on bad files.

mod common {
    pub mod command;
    pub mod json;
}

use common::command::{commands, example, run, run_unread, run_with, Folder};
use common::json::is_json;
use heat_battery::{Call, Card, Sheet, Totals, Version};
use std::fs;

const DAY: &str = "winter-day.sheet";
const ALTERED: &str = "winter-day-altered.sheet";
const LINES: usize = 204;

// ---- The examples

#[test]
fn the_winter_day_runs_to_its_sheet() {
    let folder = Folder::new("day");
    let (card, calls) = (example("salt-battery.card"), example("winter-day.calls"));
    let out = folder.path("day.sheet");
    let ended = run(&["run", &card, &calls, "--version", "1", "-o", &out]);
    ended.assert_fine("run");
    assert!(ended.err.contains("204 calls, 0 refused: 204 lines, 29788 bytes"), "{}", ended.err);
    assert!(fs::read(&out).unwrap() == fs::read(example(DAY)).unwrap());
    let audited = run(&["audit", &out]);
    audited.assert_fine("audit");
    assert_eq!(audited.out, "accepted 204\ncard 3ce57cdf\n");
    let explained = run(&["audit", "--explain", &out]).out;
    assert!(explained.starts_with("accepted 204\n"));
    assert!(explained.ends_with("\nevery call line agrees with the steps\n"));
}

#[test]
fn the_winter_days_picture_is_the_one_stored() {
    let out = Folder::new("picture").path("day.svg");
    run(&["plot", &example(DAY), "-o", &out]).assert_fine("plot");
    assert!(fs::read(&out).unwrap() == fs::read(example("winter-day.svg")).unwrap());
}

#[test]
fn show_has_every_line() {
    let shown = run(&["show", &example(DAY)]);
    shown.assert_fine("show");
    assert_eq!(shown.out.matches("\n      zones °C").count(), LINES);
    assert!(shown.out.contains("service=direct commit=yes control_on=no required=2.2"));
    assert!(shown.out.ends_with("\naudit: accepted 204\n"));
    let json = run(&["show", "--json", &example(DAY)]);
    json.assert_fine("show --json");
    assert!(is_json(&json.out));
    assert_eq!(json.out.matches("{\"line\":").count(), LINES);
    assert!(json.out.contains("\"verdict\":\"accepted 204\""));
}

#[test]
fn convert_and_run_give_the_same_bytes() {
    let folder = Folder::new("convert");
    let name = folder.path("day");
    run(&["convert", &example(DAY), "-o", &name]).assert_fine("convert");
    let (card, calls, out) =
        (format!("{name}.card"), format!("{name}.calls"), folder.path("again"));
    run(&["run", &card, &calls, "--version", "1", "-o", &out]).assert_fine("run");
    assert!(fs::read(&out).unwrap() == fs::read(example(DAY)).unwrap());
}

#[test]
fn the_altered_sheet_is_found_out() {
    let [day, altered] = [DAY, ALTERED].map(|name| fs::read(example(name)).unwrap());
    assert_eq!(day.iter().zip(&altered).filter(|(one, other)| one != other).count(), 1);
    let ended = run(&["audit", "--explain", &example(ALTERED)]);
    assert_eq!(ended.status, 1);
    let mut lines = ended.out.lines();
    assert_eq!(lines.next(), Some("refused 43 line 172"));
    assert_eq!(lines.next(), Some("card 3ce57cdf"));
    assert!(lines.next().unwrap().starts_with("line 172 is demand service=direct commit=yes"));
    let zone = lines.next().unwrap();
    assert!(zone.starts_with("  zone 4, °C: the sheet says "), "{zone}");
    assert!(zone.contains(", the steps give "), "{zone}");
    assert_eq!(lines.next(), None);
    let (folder, altered) = (Folder::new("altered"), example(ALTERED));
    let (svg, name) = (folder.path("day.svg"), folder.path("day"));
    for words in [&["show"][..], &["convert", "-o", &name], &["plot", "-o", &svg]] {
        let words = [words, &[altered.as_str()]].concat();
        let ended = run(&words);
        ended.assert_failed(words[0]);
        assert_eq!(ended.status, 1);
    }
}

#[test]
fn the_template_is_accepted() {
    let folder = Folder::new("template");
    let template = run(&["card", "template"]);
    template.assert_fine("card template");
    let checked = run(&["card", "check", &folder.write("card", template.out.as_bytes())]);
    checked.assert_fine("card check");
    assert!(checked.out.starts_with("accepted: 8 layers, 1 unit, melting 57 to 59 °C"));
    assert_eq!(run_with(&["card", "check", "-"], template.out.as_bytes()).status, 0);
    run(&["card", "check", &example("salt-battery.card")]).assert_fine("the example's card");
}

// ---- Refusals

#[test]
fn a_refused_card_is_explained() {
    let folder = Folder::new("refused-card");
    let card = Card { lower: 60.0, max: 15.0, losses: -1.0, ..Card::example() };
    let path = folder.write("card", card.to_string().as_bytes());
    let ended = run(&["card", "check", &path]);
    ended.assert_failed("card check");
    assert_eq!(ended.status, 1);
    for words in [
        "card refused, 1: a card field is not finite or out of range",
        "losses is -1.0, out of its range 0 to 1000 kW (refusal 1)",
        "lower is 60.0, above upper, which is 59.0 (refusal 2)",
        "max is 15.0, not above 20 °C (refusal 3)",
        "max is 15.0, not clearly above reference, which is 40.0 (refusal 4)",
    ] {
        assert!(ended.err.contains(words), "{} has no {words}", ended.err);
    }
    let calls = folder.write("calls", b"standing_loss\n");
    let out = folder.path("sheet");
    assert_eq!(run(&["run", &path, &calls, "-o", &out]).status, 1);
    assert!(fs::metadata(&out).is_err(), "no sheet of a refused card");
}

const REFUSED: &str = "\
state_of_charge

electric power=2 target=1.5
demand service=space commit=yes control_on=no required=1 start=0 return_temperature=none
demand service=combi commit=yes control_on=no required=1 start=0.7 return_temperature=10
demand service=combi commit=yes control_on=no required=1 start=0 return_temperature=10
close_timestep
";

#[test]
fn refused_calls_are_reported_and_the_list_goes_on() {
    let folder = Folder::new("refused");
    let calls = folder.write("calls", REFUSED.as_bytes());
    let (card, out) = (example("salt-battery.card"), folder.path("sheet"));
    let ended = run(&["run", &card, &calls, "-o", &out]);
    assert_eq!(ended.status, 1);
    for words in [
        "line 3, call 2 (electric): refused 10: ",
        "no line on the sheet\n  target is 1.5, out of its range 0 to 1\n",
        "line 4, call 3 (demand): refused 20: required above 1e-10 without a return temperature; \
         line 2 of the sheet",
        "  start is 0.7, out of its range 0 to 0.5 h\n",
        "line 6, call 5 (demand): refused 21: a committed demand of service type combi, or of a \
         number that the card doesn't list; line 3 of the sheet",
        "6 calls, 4 refused: 4 lines, ",
    ] {
        assert!(ended.err.contains(words), "{} has no {words}", ended.err);
    }
    assert_eq!(run(&["audit", &out]).verdict(), "accepted 4");
    assert!(run(&["show", &out]).out.contains("refused 20: required above 1e-10"));
    run(&["plot", &out, "-o", &folder.path("refused.svg")]).assert_fine("plot");

    let stopped = run(&["run", &card, &calls, "-o", &out, "--stop"]);
    assert_eq!(stopped.status, 1);
    assert!(stopped.err.contains("1 refused: 1 line, "), "{}", stopped.err);
    assert_eq!(run(&["audit", &out]).verdict(), "accepted 1");
}

#[test]
fn a_sheet_may_be_held_to_a_length() {
    let folder = Folder::new("most");
    let (card, calls) = (example("salt-battery.card"), example("winter-day.calls"));
    let out = folder.path("sheet");
    let ended = run(&["run", &card, &calls, "-o", &out, "--most", "2000", "--stop"]);
    assert_eq!(ended.status, 1);
    assert!(ended.err.contains("refused 11: fewer free sheet bytes"), "{}", ended.err);
    assert!(fs::read(&out).unwrap().len() <= 2000);
    run(&["audit", &out]).assert_fine("audit");
    let none = run(&["run", &card, &calls, "-o", &out, "--most", "10"]);
    none.assert_failed("no room to open");
}

// ---- Bad usage, bad files

#[test]
fn every_command_has_help() {
    for words in ["card check", "card template", "run", "show", "audit", "plot", "convert", "card"]
    {
        let mut words: Vec<&str> = words.split(' ').collect();
        words.push("--help");
        let ended = run(&words);
        ended.assert_fine(words[0]);
        assert!(ended.out.starts_with("heat-battery card") || ended.out.contains(words[0]));
    }
    assert!(run(&["--help"]).out.contains("heat-battery convert SHEET"));
}

#[test]
fn bad_usage_is_said() {
    let bad: [&[&str]; 16] = [
        &[],
        &["bake"],
        &["card"],
        &["card", "eat"],
        &["card", "check"],
        &["card", "check", "a", "b"],
        &["card", "template", "a"],
        &["run", "a"],
        &["run", "a", "b"],
        &["run", "a", "b", "-o"],
        &["run", "a", "b", "-o", "c", "--most", "x"],
        &["show", "--xml", "a"],
        &["show", "--json", "--json", "a"],
        &["plot", "a"],
        &["plot", "a", "-o", "b", "--from", "-1"],
        &["audit"],
    ];
    for words in bad {
        let ended = run(words);
        ended.assert_failed(&words.join(" "));
        assert_eq!(ended.status, 2, "{words:?}");
    }
}

fn assert_all_fail(folder: &Folder, file: &str) {
    for words in commands(folder, file) {
        let words: Vec<&str> = words.iter().map(String::as_str).collect();
        run(&words).assert_failed(&words.join(" "));
    }
}

#[test]
fn bad_files_are_said() {
    let folder = Folder::new("bad");
    assert_all_fail(&folder, &folder.path("missing"));
    assert_all_fail(&folder, &folder.path("."));
    assert_all_fail(&folder, &folder.path("missing\nname"));
    assert_all_fail(&folder, &folder.write("byte", &[1]));
    assert_all_fail(&folder, &folder.write("garbage", &[0xfe; 500]));
    assert_all_fail(&folder, &folder.write("zeros", &[0; 500]));
    assert_all_fail(&folder, &folder.write("words", b"once upon a time = 1\n"));
    assert_all_fail(&folder, &folder.write("line", &[b'x'; 1 << 20]));
    assert_all_fail(&folder, &folder.huge("huge", 200 << 20));
    // An empty list of calls is a list.
    let empty = folder.write("empty", b"");
    let is_list = |words: &[String]| words[0] == "run" && words[2] == empty;
    for words in commands(&folder, &empty).iter().filter(|words| !is_list(words)) {
        let words: Vec<&str> = words.iter().map(String::as_str).collect();
        run(&words).assert_failed(&words.join(" "));
    }
}

#[test]
fn endless_input_ends() {
    for words in [&["audit"][..], &["show"], &["convert", "--only", "card"]] {
        let ended = run(&[words, &["/dev/zero"]].concat());
        ended.assert_failed(words[0]);
        assert!(ended.err.contains("too many to read"), "{}", ended.err);
    }
}

#[test]
fn bad_outputs_are_said() {
    let folder = Folder::new("outputs");
    let (card, calls) = (example("salt-battery.card"), example("winter-day.calls"));
    let day = example(DAY);
    for out in [folder.path("."), folder.path("missing/x"), "/dev/full".into()] {
        run(&["run", &card, &calls, "-o", &out]).assert_failed(&out);
    }
    fs::create_dir(folder.path("folder.svg")).unwrap();
    for out in [folder.path("folder.svg"), folder.path("missing/x.svg")] {
        run(&["plot", &day, "-o", &out]).assert_failed(&out);
    }
    run(&["convert", &day, "-o", &folder.path("missing/x")]).assert_failed("convert");
    let mine = folder.write("mine.svg", &fs::read(&day).unwrap());
    let over = run(&["plot", &mine, "-o", &mine]);
    over.assert_failed("plot over its sheet");
    assert!(over.err.contains("would be overwritten"));
    let calls = ["convert", "--only", "calls", &day];
    for words in [&["show", &day][..], &calls, &["card", "template"], &["--help"]] {
        let ended = run_unread(words);
        assert!(!ended.err.contains("panicked") && ended.status == 0, "{words:?}: {}", ended.err);
    }
}

// ---- Full sheets

/// As many lines as 65,536 bytes hold.
fn full_sheet(layers: u8) -> Vec<u8> {
    let card = Card { layers, ..Card::example() };
    let mut sheet = Sheet::open_within(Version::NEWEST, &card, 65_536).unwrap();
    while sheet.answer(&Call::StateOfCharge).is_ok() {}
    assert_eq!(sheet.battery().totals(), Totals::default());
    sheet.into_bytes()
}

#[test]
fn full_sheets_are_read_to_their_end() {
    let folder = Folder::new("full");
    for layers in [1, 8, 64] {
        let file = folder.write("sheet", &full_sheet(layers));
        for words in commands(&folder, &file).into_iter().skip(3) {
            let words: Vec<&str> = words.iter().map(String::as_str).collect();
            run(&words).assert_fine(&words.join(" "));
        }
    }
}
