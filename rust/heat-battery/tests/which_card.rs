//! Which card a sheet is of, and how many lines it should have.

mod common {
    pub mod command;
}

use common::command::{example, examples, run, run_with, Folder};
use heat_battery::{Card, Service, ServiceClass, Version};
use std::fs;

const DAY: &str = "winter-day.sheet";
/// CRC-32 of bytes 3 to 160 of the example sheets, of services 3 to 170, of the floor 3 to 165, by
/// another program (zlib).
const FINGERPRINTS: [(&str, &str); 5] = [
    (DAY, "3ce57cdf"),
    ("two-lines.sheet", "49f80dbf"),
    ("charging-loop.sheet", "2ef770a9"),
    ("services.sheet", "421f0a52"),
    ("floor.sheet", "aa5ed63f"),
];

#[test]
fn the_fingerprint_stands_beside_the_verdict() {
    for (sheet, fingerprint) in FINGERPRINTS {
        let audited = run(&["audit", &example(sheet)]).out;
        let lines: Vec<&str> = audited.lines().skip(1).collect();
        assert_eq!(lines, [format!("card {fingerprint}")]);
        let shown = run(&["show", &example(sheet)]).out;
        assert!(shown.contains(&format!("\ncard {fingerprint}\naudit: ")));
        let json = run(&["show", "--json", &example(sheet)]).out;
        assert!(json.contains(&format!("\n\"fingerprint\":\"{fingerprint}\",\n")));
    }
    for (card, fingerprint) in
        [("two-lines.card", "49f80dbf"), ("services.card", "421f0a52"), ("floor.card", "aa5ed63f")]
    {
        let checked = run(&["card", "check", &example(card)]).out;
        assert!(checked.contains(&format!("\ncard {fingerprint}\n")), "{checked}");
    }
    assert_eq!(run_with(&["audit", "-"], &[1]).out, "refused 41 line 0\n", "no card to be read");
}

#[test]
fn the_pages_have_the_fingerprint() {
    let page = fs::read_to_string(examples().join("../docs/FORMAT.md")).unwrap();
    for words in ["`49f80dbf`", "`421f0a52`", "`aa5ed63f`", "CRC-32"] {
        assert!(page.contains(words), "no {words}");
    }
    let page = include_str!("../README.md");
    assert!(page.contains("card 3ce57cdf") && page.contains("CRC-32"));
}

/// Every bit of the card counts.
#[test]
fn another_card_has_another_fingerprint() {
    let card = Card::example();
    let services = vec![Service::new(12, ServiceClass::Space)];
    let card = Card { services, floor: true, ..card };
    let version = Version::NEWEST;
    let bytes = card.to_bytes(version).unwrap();
    for bit in 0..8 * bytes.len() {
        let mut other = bytes.clone();
        other[bit / 8] ^= 1 << (bit % 8);
        let Ok(other) = Card::from_bytes(version, &other) else { continue };
        assert_ne!(other.fingerprint(), card.fingerprint(), "bit {bit}");
    }
}

#[test]
fn audit_compares_with_the_card_expected() {
    let folder = Folder::new("which-card");
    let (day, card) = (example(DAY), example("salt-battery.card"));
    let same = run(&["audit", &day, "--card", &card]);
    same.assert_fine("its own card");
    assert_eq!(same.verdict(), "accepted 204");

    // No answer depends on the budget here, so a sheet with another one is accepted.
    let other = Card { budget: 1001, ..Card::example() };
    let mut bytes = fs::read(&day).unwrap();
    bytes[3..161].copy_from_slice(&other.to_bytes(Version::One).unwrap());
    let sheet = folder.write("sheet", &bytes);
    run(&["audit", &sheet]).assert_fine("an altered card");
    let ended = run(&["audit", &sheet, "--card", &card]);
    ended.assert_failed("another card");
    assert_eq!((ended.status, ended.verdict()), (1, "accepted 204"));
    let fingerprint = other.fingerprint();
    for words in [
        format!("its card {fingerprint} is not that of {card}, 3ce57cdf"),
        "\n  budget: the sheet says 1001, the card 1000\n".into(),
    ] {
        assert!(ended.err.contains(&words), "{} has no {words}", ended.err);
    }
    assert!(!ended.err.contains("losses"), "{}", ended.err);
    run(&["audit", &day, "--card", &day]).assert_failed("a sheet for a card");
    let both = run_with(&["audit", "-", "--card", "-"], b"");
    assert_eq!(both.status, 2);
}

#[test]
fn audit_compares_with_the_lines_expected() {
    let bytes = fs::read(example(DAY)).unwrap();
    // Line 204 closes the last timestep.
    let cut = Folder::new("which-lines").write("sheet", &bytes[..bytes.len() - 137]);
    run(&["audit", &cut]).assert_fine("cut at a line's end");
    let ended = run(&["audit", &cut, "--lines", "204"]);
    ended.assert_failed("a line is missing");
    assert_eq!((ended.status, ended.verdict()), (1, "accepted 203"));
    assert!(ended.err.contains("203 call lines, not the 204 expected"), "{}", ended.err);
    run(&["audit", &cut, "--lines", "203"]).assert_fine("203");
    run(&["audit", &example(DAY), "--lines", "204"]).assert_fine("204");
    assert_eq!(run(&["audit", &cut, "--lines", "many"]).status, 2);
}
