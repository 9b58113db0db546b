//! Places where `convert`, `run`, `audit`, `show` and cards misled, each with what happens now.

mod common {
    pub mod command;
}

use common::command::{example, run, run_by_shell, run_in, run_unread, run_with, Ended, Folder};
use heat_battery::{
    audit, text, Battery, Call, Card, Refusal, ServiceType, Sheet, Totals, Verdict, Version,
};
use std::fs;
use std::time::{Duration, Instant};

const DAY: &str = "winter-day.sheet";
const ALTERED: &str = "winter-day-altered.sheet";

fn salt() -> String {
    example("salt-battery.card")
}

// ---- convert

#[test]
fn convert_to_a_dash_writes_no_file_of_that_name() {
    let folder = Folder::new("dash");
    let ended = run_in(&folder, &["convert", &example(DAY), "-o", "-"]);
    assert_eq!(ended.status, 2);
    assert!(ended.err.contains("--only card, --only calls, or -o NAME"), "{}", ended.err);
    assert_eq!(folder.names(), Vec::<String>::new());
    let calls = run_in(&folder, &["convert", &example(DAY), "--only", "calls", "-o", "-"]);
    calls.assert_fine("calls to standard output");
    assert_eq!(text::calls(&calls.out).unwrap().len(), 204);
    assert_eq!(folder.names(), Vec::<String>::new());
}

#[test]
fn convert_to_standard_output_gives_what_run_reads() {
    let folder = Folder::new("one-text");
    assert_eq!(run(&["convert", &example(DAY)]).status, 2, "two texts are none");
    let card = run(&["convert", &example(DAY), "--only=card"]);
    card.assert_fine("--only=card");
    let card = folder.write("card", card.out.as_bytes());
    let calls = run(&["convert", &example(DAY), "--only", "calls"]);
    let out = folder.path("sheet");
    let words = ["run", &card, "-", "--version", "1", "-o", &out];
    run_with(&words, calls.out.as_bytes()).assert_fine("run");
    assert!(fs::read(&out).unwrap() == fs::read(example(DAY)).unwrap());
    assert_eq!(run(&["convert", &example(DAY), "--only", "zones"]).status, 2);
    let mine = folder.write("mine.card", &fs::read(&out).unwrap());
    for words in [&["--only", "card", "-o", &mine][..], &["-o", &folder.path("mine")]] {
        let ended = run(&[&["convert", &mine], words].concat());
        assert!(ended.status == 2 && ended.err.contains("would be overwritten"), "{}", ended.err);
    }
}

/// A sheet whose answers agree by f64 equality and not by their bytes.
#[test]
fn convert_agrees_with_the_audit_on_a_sign_of_zero() {
    let folder = Folder::new("zero");
    let mut sheet = Sheet::open(&Card::example()).unwrap();
    sheet.call(&Call::CloseTimestep).unwrap();
    let mut bytes = sheet.into_bytes();
    // The energy, after length, kind and refusal.
    assert_eq!(bytes[163 + 4], 0);
    bytes[163 + 4] = 0x80;
    let (sheet, name) = (folder.write("sheet", &bytes), folder.path("x"));
    run(&["audit", &sheet]).assert_fine("audit");
    let ended = run(&["convert", &sheet, "-o", &name]);
    ended.assert_fine("convert");
    assert!(ended.err.contains("run will give the other sign of 1 zero"), "{}", ended.err);
    bytes[163 + 5] = 1;
    let ended = run(&["convert", &folder.write("sheet", &bytes), "-o", &name]);
    assert_eq!(ended.status, 1, "another number is another sheet");
}

// ---- run

#[test]
fn most_holds_the_sheet_and_says_once_that_it_is_full() {
    let folder = Folder::new("full");
    let calls = folder.write("calls", "standing_loss\n".repeat(5000).as_bytes());
    let out = folder.path("sheet");
    let ended = run(&["run", &salt(), &calls, "-o", &out, "--most", "2000"]);
    assert_eq!(ended.status, 1);
    // 163 bytes, and 137 for each of 13 lines.
    assert_eq!(fs::read(&out).unwrap().len(), 163 + 13 * 137);
    assert!(ended.err.contains("call 14 (standing_loss): refused 11: "), "{}", ended.err);
    assert!(ended.err.contains("the sheet is full; not made besides: 4986 calls\n"));
    assert!(ended.err.lines().count() < 6, "{}", ended.err);
    let help = run(&["run", "--help"]).out;
    assert!(help.contains("--most BYTES   hold the sheet to so many bytes;"), "{help}");
}

#[test]
fn refused_calls_beyond_twenty_are_counted() {
    let folder = Folder::new("refused-many");
    let calls = folder.write("calls", "electric power=-1 target=1\n".repeat(70).as_bytes());
    let ended = run(&["run", &salt(), &calls, "-o", &folder.path("sheet")]);
    assert_eq!(ended.status, 1);
    assert_eq!(ended.err.matches("refused 10: ").count(), 20);
    assert!(ended.err.contains("\nand 50 more calls refused\n"), "{}", ended.err);
    assert!(ended.err.contains("70 calls, 70 refused: 0 lines, "), "{}", ended.err);
}

#[test]
fn refusal_10_speaks_of_the_call() {
    let folder = Folder::new("refusal-10");
    let calls = folder.write("calls", b"electric power=1 target=1.5\n");
    let ended = run(&["run", &salt(), &calls, "-o", &folder.path("sheet")]);
    let words = "refused 10: a call field is not finite or out of range; no line on the sheet\n";
    assert!(ended.err.contains(words), "{}", ended.err);
    // A battery handed in has the same number and its own words.
    let (card, totals) = (Card::example(), Totals::default());
    let bad = Battery::with_state(Version::NEWEST, &card, &[f64::NAN; 8], &totals);
    let refusal = bad.unwrap_err();
    assert_eq!((refusal, refusal.number()), (Refusal::BadBattery, 10));
    assert!(refusal.to_string().starts_with("10: the battery handed in "), "{refusal}");
}

#[test]
fn one_line_is_a_line() {
    let folder = Folder::new("one");
    let calls = folder.write("calls", b"standing_loss\n");
    let ended = run(&["run", &salt(), &calls, "-o", &folder.path("sheet")]);
    assert!(ended.err.starts_with("1 call, 0 refused: 1 line, 300 bytes, "), "{}", ended.err);
}

#[test]
fn swapped_arguments_are_recognised() {
    let folder = Folder::new("swapped");
    let (card, calls, day) = (salt(), example("winter-day.calls"), example(DAY));
    let out = folder.path("sheet");
    let of = |words: &[&str], status: i32, said: &str| {
        let ended = run(words);
        ended.assert_failed(&words.join(" "));
        assert_eq!(ended.status, status, "{}", ended.err);
        assert!(ended.err.contains(said), "{} has no {said}", ended.err);
        assert!(ended.err.lines().count() == 1, "{}", ended.err);
    };
    let swapped =
        format!("CARD and CALLS are swapped: {calls} is a list of calls and {card} a card");
    of(&["run", &calls, &card, "-o", &out], 2, &swapped);
    of(&["run", &day, &calls, "-o", &out], 2, "this is a sheet, not a card");
    of(&["run", &card, &day, "-o", &out], 2, "this is a sheet, not a list of calls");
    of(&["card", "check", &calls], 2, "this is a list of calls, not a card");
    of(&["show", &card], 1, "this is a card, not a sheet");
    of(&["audit", &calls], 1, "this is a list of calls, not a sheet");
    of(&["plot", &calls, "-o", &folder.path("x.svg")], 1, "this is a list of calls, not a sheet");
    assert!(fs::metadata(&out).is_err());
}

// ---- Cards

/// `card check` of the template with one thing replaced.
fn check(folder: &Folder, from: &str, to: &str) -> Ended {
    let card = Card::example().to_string();
    assert_eq!(card.matches(from).count(), 1, "{from}");
    run(&["card", "check", &folder.write("card", card.replace(from, to).as_bytes())])
}

#[test]
fn a_number_out_of_range_has_one_status_whatever_its_size() {
    let folder = Folder::new("sizes");
    for units in ["0", "2000", "70000", "-1", "99999999999999999999999999999999999999999999"] {
        let ended = check(&folder, "units = 1 ", &format!("units = {units} "));
        ended.assert_failed(units);
        assert_eq!(ended.status, 1, "{units}: {}", ended.err);
        for words in [
            "card refused, 1: a card field is not finite or out of range\n".to_string(),
            format!("  line 4: units is {}", units.chars().take(40).collect::<String>()),
            "out of its range 1 to 1000 (refusal 1)\n".into(),
        ] {
            assert!(ended.err.contains(&words), "{} has no {words}", ended.err);
        }
    }
    // Every reason is given, of either size.
    let card = Card { losses: -1.0, ..Card::example() }.to_string();
    let card = folder.write("card", card.replace("units = 1 ", "units = 70000 ").as_bytes());
    let both = run(&["card", "check", &card]);
    assert_eq!(both.status, 1);
    assert!(both.err.contains("line 4: units is 70000, ") && both.err.contains("losses is -1.0, "));
    // What can't be read is no card.
    assert_eq!(check(&folder, "units = 1 ", "units = many ").status, 2);
    let unread = check(&folder, "units = 1 ", "units = 70000 \nvolume = 9 ");
    assert_eq!(unread.status, 2, "{}", unread.err);
}

#[test]
fn a_card_error_has_its_line_and_the_nearest_field() {
    let folder = Folder::new("card-lines");
    let of = |from: &str, to: &str, words: &str| {
        let ended = check(&folder, from, to);
        ended.assert_failed(to);
        assert!(ended.err.contains(words), "{} has no {words}", ended.err);
    };
    of(
        "losses = 0.1 ",
        "losses = -1 ",
        "\n  line 23: losses is -1.0, out of its range 0 to 1000 kW",
    );
    of("lower = 57.0 ", "lower = 60 ", "\n  line 13: lower is 60.0, above upper, which is 59.0");
    of("max = 80.0 ", "max = 15 ", "\n  line 11: max is 15.0, not above 20 °C (refusal 3)");
    of("losses = ", "loses = ", "line 23: 'loses' is no field; did you mean losses?");
    of("max = ", "maxx = ", "line 11: 'maxx' is no field; did you mean max?");
    of("estimated_outlet = ", "estimated outlet = ", "did you mean estimated_outlet?");
}

#[test]
fn errors_in_a_text_beyond_twenty_are_counted() {
    let folder = Folder::new("slips");
    let calls = folder.write("calls", "warm it up\n".repeat(57).as_bytes());
    let ended = run(&["run", &salt(), &calls, "-o", &folder.path("sheet")]);
    assert_eq!(ended.status, 2);
    assert_eq!(ended.err.matches("'warm' is no call").count(), 20);
    assert!(ended.err.ends_with("\nand 37 more\n"), "{}", ended.err);
    let exact = folder.write("calls", "warm it up\n".repeat(20).as_bytes());
    let ended = run(&["run", &salt(), &exact, "-o", &folder.path("sheet")]);
    assert!(!ended.err.contains("more"), "{}", ended.err);
}

// ---- audit and show

#[test]
fn a_refused_sheet_that_nobody_reads_on_is_refused() {
    for words in [&["show"][..], &["show", "--json"], &["audit"], &["audit", "--explain"]] {
        let altered = example(ALTERED);
        let ended = run_unread(&[words, &[altered.as_str()]].concat());
        assert_eq!(ended.status, 1, "{words:?}: {}", ended.err);
        assert!(!ended.err.contains("panicked") && !ended.err.contains("pipe"), "{}", ended.err);
    }
    let ended = run_by_shell("\"$1\" show \"$2\" | head -n 1", &[&example(DAY)]);
    assert!(ended.status == 0 && ended.err.is_empty(), "{}", ended.err);
}

/// The shortest of some runs.
fn shortest(words: &[&str]) -> Duration {
    let time = |_| {
        let start = Instant::now();
        run(words).assert_fine(words[0]);
        start.elapsed()
    };
    (0..5).map(time).min().unwrap()
}

/// Demands that use up a large budget of short substeps, so that an audit takes its time.
fn slow_sheet() -> Vec<u8> {
    let card = Card { layers: 64, substep: 0.1, budget: 65_535, timestep: 24.0, ..Card::example() };
    let trial = Call::Demand {
        service: ServiceType::Space,
        commit: false,
        control_on: false,
        required: 1e6,
        start: 0.0,
        return_temperature: Some(57.5),
    };
    let mut sheet = Sheet::open(&card).unwrap();
    let start = Instant::now();
    while start.elapsed() < Duration::from_millis(250) && sheet.as_bytes().len() < 60_000 {
        sheet.answer(&trial).unwrap();
    }
    let bytes = sheet.into_bytes();
    assert!(matches!(audit(&bytes), Verdict::Accepted(_)));
    bytes
}

#[test]
fn explaining_an_accepted_sheet_takes_no_second_audit() {
    let sheet = Folder::new("slow").write("sheet", &slow_sheet());
    let plain = shortest(&["audit", &sheet]);
    let explained = shortest(&["audit", "--explain", &sheet]);
    assert!(plain > Duration::from_millis(50), "too quick to compare: {plain:?}");
    assert!(explained < plain.mul_f64(1.6), "{explained:?} against {plain:?}");
}
