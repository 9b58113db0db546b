//! Services by number through the command.

mod common {
    pub mod command;
    pub mod json;
}

use common::command::{example, run, run_with, Ended, Folder};
use common::json::{is_json, lines, member};
use std::fs;

const SHEET: &str = "services.sheet";
const LISTED: &str = "12 space, 700 direct, 40000 regular";

/// Words that a text has to have.
fn assert_has(text: &str, words: &[&str]) {
    for words in words {
        assert!(text.contains(words), "{text} has no {words}");
    }
}

/// The example's card with more lines.
fn check(folder: &Folder, more: &str) -> Ended {
    let card = fs::read_to_string(example("two-lines.card")).unwrap();
    run(&["card", "check", &folder.write("card", format!("{card}{more}").as_bytes())])
}

// ---- Cards

#[test]
fn card_check_says_what_is_listed() {
    let checked = run(&["card", "check", &example("services.card")]);
    checked.assert_fine("card check");
    assert_has(&checked.out, &[&format!("\nservices: {LISTED}\ncard ")]);
    assert!(!run(&["card", "check", &example("two-lines.card")]).out.contains("services"));
    let template = run(&["card", "template"]).out;
    assert_has(&template, &["\n#   service 12 = space\n", "regular, space or direct"]);
    run_with(&["card", "check", "-"], template.as_bytes()).assert_fine("the template");
}

#[test]
fn card_check_says_every_fault_of_the_list() {
    let folder = Folder::new("services-faults");
    let ended = check(
        &folder,
        "service 700 = space\nservice 12 = direct\nservice 12 = direct\nservice 3 = bath\n\
         service 70000 = regular\nservice 13 = space\n",
    );
    assert_eq!(ended.status, 1);
    assert_has(
        &ended.err,
        &[
            "card refused, 61: the card lists more than 32 services, a number under 4, ",
            "\n  line 26: service 12 stands behind 700; the numbers have to rise (refusal 61)\n",
            "\n  line 27: service 12 is listed twice (refusal 61)\n",
            "\n  line 28: service 3 is 'bath', not regular, space or direct (refusal 61)\n",
            "\n  line 29: service 70000 is above 65535 (refusal 61)\n",
        ],
    );
    let ended = check(&folder, "service 2 = space\n");
    assert_eq!(ended.status, 1);
    assert_has(&ended.err, &["line 25: service 2 is space; listed numbers are 4 to 65535 "]);
    let many: String = (4..37).map(|number| format!("service {number} = space\n")).collect();
    let ended = check(&folder, &many);
    assert_eq!(ended.status, 1);
    assert_has(&ended.err, &["\n  33 services are listed, at most 32 may be (refusal 61)\n"]);
    check(&folder, many.trim_end_matches("service 36 = space\n")).assert_fine("32");
    // What can't be read is no card.
    let ended = check(&folder, "service twelve = space\nservice = space\n");
    assert_eq!(ended.status, 2);
    assert_has(
        &ended.err,
        &[
            "line 25: service 'twelve' is no whole number from 4 to 65535\n",
            "line 26: a service has a number: 'service 12 = space'\n",
        ],
    );
    let help = run(&["card", "check", "--help"]).out;
    assert_has(&help, &["  service 12 = space\n", "regular, space and direct"]);
}

// ---- run

#[test]
fn run_tells_an_unlisted_number() {
    let folder = Folder::new("services-run");
    let out = folder.path("sheet");
    let (card, calls) = (example("services.card"), example("services.calls"));
    for (words, bytes, version) in [(&[][..], 803, 4), (&["--version", "3"], 802, 3)] {
        let ended = run(&[&["run", &card, &calls, "-o", &out], words].concat());
        assert_eq!(ended.status, 1);
        let refused = format!("\n  service 13 isn't on the card's list: {LISTED}\n");
        assert_has(&ended.err, &["line 7, call 5 (demand): refused 21: ", &refused]);
        let end = format!("6 calls, 1 refused: 6 lines, {bytes} bytes, version {version}, card ");
        assert_has(&ended.err, &[&end]);
    }
    assert!(fs::read(&out).unwrap() == fs::read(example(SHEET)).unwrap());
    // A card without a list.
    let ended = run(&["run", &example("two-lines.card"), &calls, "-o", &out]);
    assert_has(&ended.err, &["\n  service 700 isn't on the card's list: none\n"]);
    run(&["audit", &out, "--lines", "6"]).assert_fine("audit");
}

#[test]
fn older_versions_have_no_services() {
    let folder = Folder::new("services-early");
    let out = folder.path("sheet");
    let (plain, calls) = (example("two-lines.card"), example("services.calls"));
    for version in ["1", "2"] {
        let listing = example("services.card");
        let later = "they are of version 3 and later\n";
        let ended = run(&["run", &listing, &calls, "--version", version, "-o", &out]);
        assert_eq!(ended.status, 1);
        let words =
            format!("lists services ({LISTED}); a sheet of version {version} has none, {later}");
        assert_has(&ended.err, &[&words]);
        let ended = run(&["run", &plain, &calls, "--version", version, "-o", &out]);
        assert_eq!(ended.status, 1);
        let words = format!(
            "line 2 is for service 12; a sheet of version {version} has none above 3, {later}"
        );
        assert_has(&ended.err, &[&words]);
        assert!(fs::metadata(&out).is_err(), "nothing is written");
    }
}

// ---- show, audit, plot, convert

#[test]
fn show_has_numbers_and_classes() {
    let shown = run(&["show", &example(SHEET)]);
    shown.assert_fine("show");
    assert_has(
        &shown.out,
        &[
            "\nservice 12 = space\nservice 700 = direct\nservice 40000 = regular\n",
            "      call   service=12 (space) commit=yes ",
            "      call   service=700 (direct) commit=yes ",
            "      call   service=40000 (regular) commit=yes ",
            "      call   service=13 (not listed) commit=no ",
            "      refused 21: a committed demand of service type combi, or of a number that the card doesn't list\n",
            &format!("      service 13 isn't on the card's list: {LISTED}\n"),
            "\nversion 3\ncard 421f0a52\naudit: accepted 6\n",
        ],
    );
    assert_eq!(shown.out.matches("isn't on the card's list").count(), 1, "not of the trial");
}

#[test]
fn json_has_numbers_and_classes() {
    let json = run(&["show", "--json", &example(SHEET)]).out;
    assert!(is_json(&json), "{json}");
    assert_has(
        &json,
        &["\"services\":[{\"number\":12,\"class\":\"space\"},{\"number\":700,\"class\":\"direct\"},"],
    );
    let shown = lines(&json);
    let pairs = [("12", "\"space\""), ("700", "\"direct\""), ("40000", "\"regular\"")];
    for (line, (service, class)) in shown.iter().zip(pairs) {
        assert_eq!((member(line, "service"), member(line, "service_class")), (service, class));
    }
    assert_eq!((member(shown[3], "service"), member(shown[3], "service_class")), ("13", "null"));
    assert_eq!((member(shown[4], "refusal"), member(shown[4], "service")), ("21", "13"));
    assert!(!shown[5].contains("service"), "{}", shown[5]);
    // Named services, and a card that lists none.
    let json = run(&["show", "--json", &example("two-lines.sheet")]).out;
    assert_has(&json, &["\"services\":[],\"floor\":false}"]);
    let line = lines(&json)[1];
    assert_eq!(
        (member(line, "service"), member(line, "service_class")),
        ("\"space\"", "\"space\"")
    );
}

#[test]
fn audit_compares_and_explains_services() {
    let folder = Folder::new("services-audit");
    let (sheet, card) = (example(SHEET), example("services.card"));
    run(&["audit", &sheet, "--card", &card]).assert_fine("its own card");
    let other = fs::read_to_string(&card).unwrap().replace("service 700 = direct\n", "");
    let ended = run(&["audit", &sheet, "--card", &folder.write("card", other.as_bytes())]);
    assert_eq!((ended.status, ended.verdict()), (1, "accepted 6"));
    let words =
        format!("\n  services: the sheet lists {LISTED}, the card 12 space, 40000 regular\n");
    assert_has(&ended.err, &[&words]);
    let ended = run(&["audit", &sheet, "--card", &example("two-lines.card")]);
    assert_has(&ended.err, &[&format!("services: the sheet lists {LISTED}, the card none\n")]);

    // Line 1 turned to a number that isn't listed.
    let mut bytes = fs::read(&sheet).unwrap();
    assert_eq!(bytes[175], 12);
    bytes[175] = 13;
    let ended = run(&["audit", "--explain", &folder.write("sheet", &bytes)]);
    assert_eq!((ended.status, ended.verdict()), (1, "refused 43 line 1"));
    assert_has(
        &ended.out,
        &[
            "\nline 1 is demand service=13 commit=yes ",
            "\n  refusal: the sheet says 0, the steps give 21\n",
            &format!("\n  service 13 isn't on the card's list: {LISTED}\n"),
        ],
    );
    // Its list out of order.
    bytes[162..168].copy_from_slice(&[2, 0xbc, 3, 0, 12, 2]);
    let ended = run(&["audit", "--explain", &folder.write("sheet", &bytes)]);
    assert_eq!(ended.verdict(), "refused 41 line 0");
    let words =
        "line 0: service 12 stands behind 700; the numbers have to rise (the card's refusal 61)\n";
    assert_has(&ended.out, &[words]);
}

#[test]
fn services_are_drawn_as_their_classes() {
    let folder = Folder::new("services-plot");
    let svg = folder.path("x.svg");
    run(&["plot", &example(SHEET), "-o", &svg]).assert_fine("plot");
    let drawn = fs::read_to_string(svg).unwrap();
    assert_has(&drawn, &[">space heating<", ">hot water, direct<", ">hot water, regular<"]);
}

#[test]
fn convert_gives_the_services_again() {
    let folder = Folder::new("services-convert");
    let (name, out) = (folder.path("x"), folder.path("again"));
    let ended = run(&["convert", &example(SHEET), "-o", &name]);
    ended.assert_fine("convert");
    assert_has(&ended.err, &["of version 3; run --version 3 gives it again\n"]);
    let (card, calls) = (format!("{name}.card"), format!("{name}.calls"));
    assert_has(
        &fs::read_to_string(&calls).unwrap(),
        &["# Of a sheet of version 3.\n", "demand service=700 "],
    );
    assert_eq!(run(&["run", &card, &calls, "--version", "3", "-o", &out]).status, 1);
    assert!(fs::read(out).unwrap() == fs::read(example(SHEET)).unwrap());
}
