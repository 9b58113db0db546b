//! The floor of standing losses through the command.

mod common {
    pub mod command;
    pub mod json;
}

use common::command::{example, run, run_with, Folder};
use common::json::{is_json, lines, number};
use std::fs;

const SHEET: &str = "floor.sheet";

/// Words that a text has to have.
fn assert_has(text: &str, words: &[&str]) {
    for words in words {
        assert!(text.contains(words), "{text} has no {words}");
    }
}

fn card() -> String {
    fs::read_to_string(example("floor.card")).unwrap()
}

// ---- Cards

#[test]
fn card_check_says_the_floor() {
    let checked = run(&["card", "check", &example("floor.card")]);
    checked.assert_fine("card check");
    let words = "\nservices: 12 space\nfloor: standing losses stop at 16 °C\ncard aa5ed63f\n";
    assert_has(&checked.out, &[words]);
    let without = run_with(&["card", "check", "-"], card().replace("= yes", "= no").as_bytes());
    without.assert_fine("no floor");
    assert!(!without.out.contains("floor") && !without.out.contains("aa5ed63f"));
    // Left out, it is none.
    let absent = run_with(&["card", "check", "-"], card().replace("floor = yes\n", "").as_bytes());
    assert_eq!(absent.out, without.out);
    let help = run(&["card", "check", "--help"]).out;
    assert_has(&help, &["  floor = yes\n", "16 °C", "version 4"]);
}

#[test]
fn the_template_takes_a_floor() {
    let template = run(&["card", "template"]).out;
    let line = "\nfloor = no                  # standing losses stop at 16 °C, from version 4 on: ";
    assert_has(&template, &[line]);
    run_with(&["card", "check", "-"], template.as_bytes()).assert_fine("the template");
    let floored = template.replace("floor = no ", "floor = yes");
    let checked = run_with(&["card", "check", "-"], floored.as_bytes());
    checked.assert_fine("the template with a floor");
    assert_has(&checked.out, &["\nfloor: standing losses stop at 16 °C\n"]);
}

#[test]
fn card_check_says_a_floor_that_is_none() {
    for (floor, words) in [
        ("floor = 2", "line 26: floor is '2', not yes or no\n"),
        ("floor = maybe", "line 26: floor is 'maybe', not yes or no\n"),
        ("floor = yes\nfloor = no", "line 27: floor stands twice\n"),
        ("flooor = yes", "line 26: 'flooor' is no field; did you mean floor?\n"),
    ] {
        let ended =
            run_with(&["card", "check", "-"], card().replace("floor = yes", floor).as_bytes());
        assert_eq!(ended.status, 2, "{floor}");
        assert_has(&ended.err, &[words]);
    }
}

// ---- run

#[test]
fn run_has_the_floor_in_version_4() {
    let folder = Folder::new("floor-run");
    let (card, calls, out) = (example("floor.card"), example("floor.calls"), folder.path("sheet"));
    for words in [&[][..], &["--version", "4"]] {
        let ended = run(&[&["run", &card, &calls, "-o", &out], words].concat());
        ended.assert_fine("run");
        assert_has(
            &ended.err,
            &["14 calls, 0 refused: 14 lines, 1345 bytes, version 4, card aa5ed63f"],
        );
        assert!(fs::read(&out).unwrap() == fs::read(example(SHEET)).unwrap());
    }
}

#[test]
fn older_versions_have_no_floor() {
    let folder = Folder::new("floor-early");
    let (calls, out) = (example("floor.calls"), folder.path("sheet"));
    for version in ["1", "2", "3"] {
        let words = ["run", &example("floor.card"), &calls, "--version", version, "-o", &out];
        let ended = run(&words);
        assert_eq!(ended.status, 1);
        let words = format!(
            "has a floor (standing losses stop at 16 °C); a sheet of version {version} has none, \
             it is of version 4 and later\n"
        );
        assert_has(&ended.err, &[&words]);
        assert!(fs::metadata(&out).is_err(), "nothing is written");
    }
    // Without it, version 3 takes the card.
    let card = folder.write("card", card().replace("floor = yes", "floor = no").as_bytes());
    run(&["run", &card, &calls, "--version", "3", "-o", &out]).assert_fine("no floor");
    assert_has(&run(&["run", "--help"]).out, &["a card with a floor before"]);
}

// ---- show, audit, plot, convert

#[test]
fn show_has_the_floor() {
    let shown = run(&["show", &example(SHEET)]);
    shown.assert_fine("show");
    assert_has(
        &shown.out,
        &[
            "\nfloor = yes ",
            "\nservice 12 = space\n",
            "\nversion 4\ncard aa5ed63f\naudit: accepted 14\n",
        ],
    );
    assert_has(&run(&["show", &example("two-lines.sheet")]).out, &["\nfloor = no "]);

    let json = run(&["show", "--json", &example(SHEET)]).out;
    assert!(is_json(&json), "{json}");
    let services = "\"services\":[{\"number\":12,\"class\":\"space\"}]";
    assert_has(&json, &[&format!("{services},\"floor\":true}},\n")]);
    let shown = lines(&json);
    let lost: Vec<f64> = [0, 2, 4, 6, 8].map(|at| number(shown[at], "energy")).into();
    assert!(lost[..3].iter().all(|energy| *energy > 0.0) && lost[3..] == [0.0, 0.0]);
    assert_has(shown[4], &["\"zones\":[16.0]"]);
}

#[test]
fn audit_compares_and_explains_the_floor() {
    let folder = Folder::new("floor-audit");
    let sheet = example(SHEET);
    run(&["audit", &sheet, "--card", &example("floor.card")]).assert_fine("its own card");
    let other = folder.write("card", card().replace("= yes", "= no").as_bytes());
    let ended = run(&["audit", &sheet, "--card", &other]);
    assert_eq!((ended.status, ended.verdict()), (1, "accepted 14"));
    assert_has(&ended.err, &["\n  floor: the sheet says yes, the card no\n"]);
    assert!(!ended.err.contains("services"), "{}", ended.err);

    let mut bytes = fs::read(&sheet).unwrap();
    assert_eq!(bytes[165], 1);
    bytes[165] = 0;
    let ended = run(&["audit", "--explain", &folder.write("sheet", &bytes)]);
    assert_eq!((ended.status, ended.verdict()), (1, "refused 43 line 5"));
    assert_has(
        &ended.out,
        &["\nline 5 is standing_loss\n", "\n  zone 1, °C: the sheet says 16.0, the steps give 14."],
    );
    assert!(!ended.out.contains("floor"), "{}", ended.out);
    // A loss past the floor on a card that has one.
    let zone = 166 + 4 * 81 + 2 + 1 + 30;
    assert_eq!(bytes[zone..zone + 8], 16.0f64.to_be_bytes());
    let mut past = bytes.clone();
    past[165] = 1;
    past[zone..zone + 8].copy_from_slice(&15.0f64.to_be_bytes());
    let ended = run(&["audit", "--explain", &folder.write("sheet", &past)]);
    assert_eq!((ended.status, ended.verdict()), (1, "refused 43 line 5"));
    let words =
        "\n  zone 1, °C: the sheet says 15.0, the steps give 16.0\n  the card has a floor: \
                 standing losses stop at 16 °C\n";
    assert_has(&ended.out, &[words]);
    bytes[165] = 2;
    let ended = run(&["audit", "--explain", &folder.write("sheet", &bytes)]);
    assert_eq!((ended.status, ended.verdict()), (1, "refused 41 line 0"));
    let words = "\nline 0: floor is the number 2, not 0 or 1 (the card's refusal 1)\n";
    assert_has(&ended.out, &[words]);
}

#[test]
fn the_floor_is_drawn() {
    let folder = Folder::new("floor-plot");
    let svg = folder.path("x.svg");
    run(&["plot", &example(SHEET), "-o", &svg]).assert_fine("plot");
    assert_has(&fs::read_to_string(&svg).unwrap(), &[">floor, 16 °C<"]);
    run(&["plot", &example("services.sheet"), "-o", &svg]).assert_fine("plot");
    assert!(!fs::read_to_string(&svg).unwrap().contains("floor"));
}

#[test]
fn convert_gives_the_floor_again() {
    let folder = Folder::new("floor-convert");
    let (name, out) = (folder.path("x"), folder.path("again"));
    let ended = run(&["convert", &example(SHEET), "-o", &name]);
    ended.assert_fine("convert");
    assert_eq!(ended.err, "", "the newest version needs no note");
    let (card, calls) = (format!("{name}.card"), format!("{name}.calls"));
    assert_has(&fs::read_to_string(&card).unwrap(), &["\nfloor = yes "]);
    assert_has(&fs::read_to_string(&calls).unwrap(), &["# Of a sheet of version 4.\n"]);
    run(&["run", &card, &calls, "-o", &out]).assert_fine("run");
    assert!(fs::read(out).unwrap() == fs::read(example(SHEET)).unwrap());
}

#[test]
fn the_refusal_is_listed() {
    let listed = run(&["refusals"]).out;
    let words = "the card has a floor for standing losses, which sheets have from version 4 on\n";
    let row = listed.lines().find(|row| format!("{row}\n").ends_with(words)).expect("a row");
    assert!(row.trim_start().starts_with("1  CARD_OUT_OF_RANGE "), "{row}");
}
