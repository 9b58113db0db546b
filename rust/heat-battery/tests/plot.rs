//! Pictures: where they go, which lines they show, and what is marked.

mod common {
    pub mod command;
}

use common::command::{example, run, Folder};
use heat_battery::{Card, Sheet};
use std::fs;

const DAY: &str = "winter-day.sheet";
/// The frame of the panels, across.
const FRAME: (f64, f64) = (80.0, 900.0);

/// The picture of a sheet's lines; its status is 0 or 1.
fn plot(folder: &Folder, sheet: &str, words: &[&str]) -> String {
    let out = folder.path("x.svg");
    let _ = fs::remove_file(&out);
    let ended = run(&[&["plot", sheet, "-o", &out], words].concat());
    assert!(ended.status <= 1, "{}", ended.err);
    fs::read_to_string(out).unwrap()
}

/// The sheet of a list of calls on the example's card.
fn sheet(folder: &Folder, calls: &str) -> String {
    let calls = heat_battery::text::calls(calls).unwrap();
    let mut sheet = Sheet::open(&Card::example()).unwrap();
    for listed in calls {
        sheet.answer(&listed.call).unwrap();
    }
    folder.write("sheet", sheet.as_bytes())
}

/// The shapes of a kind, by an attribute that they have.
fn shapes<'a>(svg: &'a str, tag: &str, mark: &str) -> Vec<&'a str> {
    let is_one = |line: &&str| line.starts_with(tag) && line.contains(mark);
    svg.lines().filter(is_one).collect()
}

fn attribute(shape: &str, name: &str) -> f64 {
    let rest = shape.split(&format!(" {name}=\"")).nth(1).expect(name);
    rest.split('"').next().unwrap().parse().expect(name)
}

#[test]
fn a_picture_goes_to_no_other_file() {
    let folder = Folder::new("plot-names");
    let day = example(DAY);
    for name in ["x.png", "x", "x.svg.gz", "x.card"] {
        let ended = run(&["plot", &day, "-o", &folder.path(name)]);
        ended.assert_failed(name);
        assert_eq!(ended.status, 2);
        assert!(ended.err.contains("doesn't end in .svg"), "{}", ended.err);
    }
    let card = folder.write("card", Card::example().to_string().as_bytes());
    run(&["plot", &day, "-o", &card]).assert_failed("over a card");
    assert_eq!(fs::read_to_string(&card).unwrap(), Card::example().to_string());
    assert_eq!(folder.names(), ["card"]);
    let printed = run(&["plot", &day, "-o", "-"]);
    printed.assert_fine("to standard output");
    assert_eq!(printed.out, fs::read_to_string(example("winter-day.svg")).unwrap());
    run(&["plot", &day, "-o", &folder.path("X.SVG")]).assert_fine("X.SVG");
}

#[test]
fn a_range_without_lines_is_bad_usage() {
    let folder = Folder::new("plot-ranges");
    for range in [&["--from", "9", "--to", "3"][..], &["--from", "205"], &["--to", "0"]] {
        let out = folder.path("x.svg");
        let ended = run(&[&["plot", &example(DAY), "-o", &out], range].concat());
        ended.assert_failed(&range.join(" "));
        assert_eq!(ended.status, 2);
        assert!(fs::metadata(&out).is_err(), "{range:?}");
    }
    let one = plot(&folder, &example(DAY), &["--from", "204", "--to", "204"]);
    assert!(one.contains("call lines 204 to 204"));
    let empty = sheet(&folder, "");
    assert!(plot(&folder, &empty, &[]).contains("no call lines"), "a sheet without lines is one");
}

#[test]
fn over_5000_lines_several_are_drawn_as_one() {
    let folder = Folder::new("plot-long");
    let calls = "electric power=1 target=1\nstanding_loss\nclose_timestep\n".repeat(4000);
    let drawn = plot(&folder, &sheet(&folder, &calls), &[]);
    assert!(drawn.contains("call lines 1 to 12000, 3 drawn as one"));
    // A point for each step and one before them.
    let zone = shapes(&drawn, "<path", "fill=\"none\"")[0];
    assert_eq!(zone.matches('L').count(), 4000);
    let energy = shapes(&drawn, "<rect", "fill=\"#e69f00\"");
    assert_eq!(energy.len(), 4000 + 1, "no charge is left out, and the legend has one");
}

/// Each bar lies in the frame, the last one too.
#[test]
fn bars_lie_inside_the_frame() {
    let folder = Folder::new("plot-frame");
    let few = "electric power=1 target=1\nstanding_loss\n".repeat(3);
    let many = "electric power=1 target=1\nstanding_loss\nclose_timestep\n".repeat(1600);
    for calls in [few.clone(), few + "close_timestep\n", many] {
        let drawn = plot(&folder, &sheet(&folder, &calls), &[]);
        let bars = shapes(&drawn, "<rect", "fill=\"#444444\"");
        assert!(bars.len() > 3);
        for bar in bars.iter().filter(|bar| attribute(bar, "x") < 910.0) {
            let (x, width) = (attribute(bar, "x"), attribute(bar, "width"));
            assert!(x >= FRAME.0 && x + width <= FRAME.1 + 0.01, "{bar}");
        }
    }
}

#[test]
fn the_line_that_the_audit_refuses_is_marked() {
    let folder = Folder::new("plot-refused");
    let altered = example("winter-day-altered.sheet");
    let drawn = plot(&folder, &altered, &[]);
    assert!(drawn.contains(">line 172: refused 43</text>"));
    let marks = shapes(&drawn, "<line", "stroke=\"#d00\"");
    assert_eq!(marks.len(), 3, "one in each panel");
    // Line 172 lies in the half-hour from 20:00.
    let x = attribute(marks[0], "x1");
    let hour = (x - FRAME.0) / (FRAME.1 - FRAME.0) * 24.0;
    assert!(hour > 20.0 && hour < 20.5, "{hour}");
    assert!(!plot(&folder, &altered, &["--to", "100"]).contains("refused 43</text>"));
    assert!(!plot(&folder, &example(DAY), &[]).contains("#d00"));

    // A cut line can't be read, so its mark is at the end.
    let bytes = fs::read(example(DAY)).unwrap();
    let cut = folder.write("cut", &bytes[..bytes.len() - 1]);
    let drawn = plot(&folder, &cut, &[]);
    assert!(drawn.contains(">line 204: refused 42</text>"));
    let x = attribute(shapes(&drawn, "<line", "stroke=\"#d00\"")[0], "x1");
    assert!(x > FRAME.1 - 3.0 && x <= FRAME.1, "{x}");
}

#[test]
fn a_refused_call_is_marked() {
    let folder = Folder::new("plot-refused-call");
    let calls = "standing_loss\n\
        demand service=combi commit=yes control_on=no required=1 start=0 return_temperature=10\n";
    let drawn = plot(&folder, &sheet(&folder, calls), &[]);
    // Two strokes for the line and two in the legend.
    assert_eq!(shapes(&drawn, "<line", "stroke=\"#d00\"").len(), 4);
    assert!(drawn.contains(">refused line</text>"));
}

/// The labels under the panels, left to right.
fn labels(svg: &str, words: &str) -> Vec<String> {
    let foot = shapes(svg, "<text", "y=\"856.0\"");
    assert!(svg.contains(words), "{words}");
    foot.iter().map(|text| text.split(['>', '<']).nth(2).unwrap().to_string()).collect()
}

#[test]
fn a_day_is_drawn_over_its_hours() {
    let folder = Folder::new("plot-hours");
    let drawn = plot(&folder, &example(DAY), &[]);
    let hours: Vec<String> = (0..=12).map(|at| (2 * at).to_string()).collect();
    assert_eq!(labels(&drawn, ">hours (the calls of a timestep share it in their order)<"), hours);
    assert!(drawn.contains(">call line</text>"), "along the top");
    // Charges of one half-hour each lie as far apart as half-hours do.
    let charges = shapes(&drawn, "<rect", "fill=\"#e69f00\"");
    let x: Vec<f64> = charges.iter().map(|bar| attribute(bar, "x")).collect();
    let half_hour = (FRAME.1 - FRAME.0) / 48.0;
    assert!((x[2] - x[1] - half_hour).abs() < 0.02, "{x:?}");

    let untimed = sheet(&folder, &"standing_loss\n".repeat(12));
    let drawn = plot(&folder, &untimed, &[]);
    let lines: Vec<String> = (0..=12).map(|at| at.to_string()).collect();
    assert_eq!(labels(&drawn, ">call line</text>"), lines);
}
