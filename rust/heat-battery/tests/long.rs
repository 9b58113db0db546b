//! Sheets far above the 65,536 bytes that the laboratory's audit program reads.

#[path = "common/command.rs"]
mod command;
#[path = "common/json.rs"]
mod json;

use command::{example, run, run_with, Ended, Folder};
use heat_battery::{audit, explain, ffi, is_too_long, read, Explanation, MOST_AUDITED};
use heat_battery::{Call, Card, Refusal, ServiceType, Sheet, Verdict};
use json::is_json;
use std::fs;

/// Twelve weeks, with five calls in each half-hour.
const HALF_HOURS: u64 = 4_000;
const LINES: u64 = 5 * HALF_HOURS;

/// Heat for the house, a charge at night, the losses, and the end of the half-hour.
fn half_hour(number: u64) -> [Call; 5] {
    let hour = (number / 2) % 24;
    let demand = Call::Demand {
        service: ServiceType::Space,
        commit: true,
        control_on: false,
        required: if hour < 6 { 0.0 } else { 0.3 },
        start: 0.0,
        return_temperature: Some(30.0),
    };
    let power = if hour < 6 { 3.0 } else { 0.0 };
    let charge = Call::Electric { power, target: 1.0 };
    [demand, charge, Call::StandingLoss, Call::StateOfCharge, Call::CloseTimestep]
}

fn long_sheet() -> Vec<u8> {
    let mut sheet = Sheet::open(&Card::example()).expect("an accepted card");
    for call in (0..HALF_HOURS).flat_map(half_hour) {
        sheet.call(&call).expect("an answer");
    }
    assert_eq!(sheet.len(), LINES);
    sheet.into_bytes()
}

/// The sheet with a bit of its last byte flipped, which is in the last line's last total.
fn altered(mut sheet: Vec<u8>) -> Vec<u8> {
    if let Some(last) = sheet.last_mut() {
        *last ^= 1;
    }
    sheet
}

fn refused(refusal: Refusal, line: u64) -> Verdict {
    Verdict::Refused { refusal, line }
}

// ---- The crate

#[test]
fn megabytes_are_audited_to_the_last_line() {
    let sheet = long_sheet();
    assert!(sheet.len() > 2_500_000 && is_too_long(&sheet), "{}", sheet.len());
    assert_eq!(ffi::audit(&sheet), 44);
    assert_eq!(ffi::audit_whole(&sheet), ffi::Verdict { refusal: 0, line: LINES });
    assert_eq!(audit(&sheet), Verdict::Accepted(LINES));
    assert_eq!(explain(&sheet), Explanation::Agreement);

    assert_eq!(audit(&sheet[..sheet.len() - 1]), refused(Refusal::BadLine, LINES));
    let behind = [&sheet[..], &[0]].concat();
    assert_eq!(audit(&behind), refused(Refusal::BadLine, LINES + 1));

    let altered = altered(sheet);
    assert_eq!(audit(&altered), refused(Refusal::Disagrees, LINES));
    let Explanation::Differences { line, call, fields } = explain(&altered) else {
        panic!("no differences")
    };
    assert_eq!((line, call, fields.len()), (LINES, Call::CloseTimestep, 1));
}

/// One line has 81 bytes: 163 + 807 × 81 is the last below the limit.
#[test]
fn the_limit_is_the_programs_to_the_byte() {
    let card = Card { layers: 1, ..Card::example() };
    let mut sheet = Sheet::open(&card).expect("an accepted card");
    while sheet.as_bytes().len() <= MOST_AUDITED {
        assert!(!is_too_long(sheet.as_bytes()));
        assert_eq!(ffi::audit(sheet.as_bytes()), 256 * sheet.len());
        sheet.call(&Call::StandingLoss).expect("an answer");
    }
    assert!(is_too_long(sheet.as_bytes()));
    assert_eq!(ffi::audit(sheet.as_bytes()), 44);
    assert_eq!(audit(sheet.as_bytes()), Verdict::Accepted(sheet.len()));
    for (length, too_long) in [(65_536, false), (65_537, true)] {
        let cut = &sheet.as_bytes()[..length];
        assert_eq!((is_too_long(cut), ffi::audit(cut) == 44), (too_long, too_long));
    }
}

// ---- The command

/// The line that says what the laboratory's program would answer.
fn program_line(length: usize) -> String {
    let said = "the laboratory's audit program would answer 'refused 44 line 0'";
    format!("{said}: it reads at most 65536 bytes, and this sheet has {length}\n")
}

/// The line that says which card it is.
fn card_line(sheet: &[u8]) -> String {
    let (_, card, _) = read(sheet).expect("a card");
    format!("card {}\n", card.fingerprint())
}

fn assert_said(ended: &Ended, status: i32, out: &str) {
    assert_eq!((ended.status, ended.out.as_str()), (status, out), "{}", ended.err);
}

#[test]
fn the_audit_says_what_the_program_would_answer() {
    let folder = Folder::new("long_audit");
    let sheet = long_sheet();
    let (card, program) = (card_line(&sheet), program_line(sheet.len()));
    let accepted = format!("accepted {LINES}\n{card}{program}");
    assert_said(&run(&["audit", &folder.write("sheet", &sheet)]), 0, &accepted);
    assert_said(&run_with(&["audit", "-"], &sheet), 0, &accepted);

    let file = folder.write("altered", &altered(sheet));
    let out = format!("refused 43 line {LINES}\n{card}{program}");
    assert_said(&run(&["audit", &file]), 1, &out);
    let explained = run(&["audit", "--explain", &file]);
    assert_eq!(explained.status, 1);
    let start = format!("refused 43 line {LINES}\n{card}line {LINES} is close_timestep\n  ");
    assert!(explained.out.starts_with(&start) && explained.out.ends_with(&program));
    assert!(explained.out.contains("kWh: the sheet says "), "{}", explained.out);
}

#[test]
fn a_sheet_that_the_program_reads_has_no_such_line() {
    let day = example("winter-day.sheet");
    let card = card_line(&fs::read(&day).expect("the day"));
    assert_said(&run(&["audit", &day]), 0, &format!("accepted 204\n{card}"));
}

#[test]
fn megabytes_are_shown() {
    let folder = Folder::new("long_show");
    let file = folder.write("sheet", &long_sheet());
    let shown = run(&["show", &file]);
    shown.assert_fine("show");
    assert!(shown.out.ends_with(&format!("audit: accepted {LINES}\n")));
    assert!(shown.out.contains(&format!("\n{LINES}  close_timestep")));
    let json = run(&["show", "--json", &file]);
    json.assert_fine("show --json");
    assert!(is_json(&json.out));
}

#[test]
fn a_part_of_megabytes_is_drawn() {
    let folder = Folder::new("long_plot");
    let file = folder.write("sheet", &long_sheet());
    let (out, from) = (folder.path("x.svg"), (LINES - 239).to_string());
    run(&["plot", &file, "-o", &out, "--from", &from]).assert_fine("plot");
    let drawn = fs::read_to_string(out).expect("a picture");
    assert!(drawn.ends_with("</svg>\n") && drawn.contains(&format!("accepted {LINES}")));
}

#[test]
fn megabytes_are_converted_and_come_again() {
    let folder = Folder::new("long_convert");
    let sheet = long_sheet();
    let (file, name) = (folder.write("sheet", &sheet), folder.path("x"));
    run(&["convert", &file, "-o", &name]).assert_fine("convert");
    let (card, calls, out) = (folder.path("x.card"), folder.path("x.calls"), folder.path("again"));
    let again = run(&["run", &card, &calls, "-o", &out]);
    again.assert_fine("run");
    assert!(again.err.contains("would refuse it with 44"), "{}", again.err);
    assert!(fs::read(out).expect("a sheet") == sheet);
}
