//! The command on damaged and on random sheets of the oracle's.

#[path = "../../heat-battery/tests/common/command.rs"]
mod command;
#[path = "../../heat-battery/tests/common/json.rs"]
mod json;

use command::{commands, run, Folder};
use json::is_json;
use oracle::random::Random;
use oracle::{damage, generate, sheets};
use std::fs;

/// Every command on a sheet ends in words; the audit's status is its verdict's.
fn assert_ends(folder: &Folder, bytes: &[u8], accepted: bool) {
    let file = folder.write("sheet", bytes);
    for words in commands(folder, &file).into_iter().skip(3) {
        let words: Vec<&str> = words.iter().map(String::as_str).collect();
        let ended = run(&words);
        match accepted {
            true => ended.assert_fine(&words.join(" ")),
            false => ended.assert_failed(&words.join(" ")),
        }
        if words[..2] == ["show", "--json"] && !ended.out.is_empty() {
            assert!(is_json(&ended.out), "{}", ended.out);
        }
        if words[0] == "plot" && ended.status == 0 {
            assert_drawn(&fs::read_to_string(folder.path("x.svg")).unwrap());
        }
    }
}

/// No number of the picture is missing or without end.
fn assert_drawn(svg: &str) {
    assert!(svg.ends_with("</svg>\n"));
    for word in ["NaN", "inf"] {
        assert!(!svg.contains(word), "{word}");
    }
}

#[test]
fn damaged_sheets_are_said() {
    let folder = Folder::new("damaged");
    let mut random = Random::new(21);
    for index in 1..12 {
        for sheet in damage::family(&mut random, index).iter().step_by(4) {
            let verdict = oracle::auditor::audit(&sheet.bytes);
            assert_ends(&folder, &sheet.bytes, verdict.refusal() == 0);
        }
    }
    for sheet in sheets::all() {
        let verdict = oracle::auditor::audit(&sheet.bytes);
        assert_ends(&folder, &sheet.bytes, verdict.refusal() == 0);
    }
}

#[test]
fn random_sheets_are_drawn() {
    let folder = Folder::new("drawn");
    let mut random = Random::new(22);
    for _ in 0..60 {
        let version = generate::version(&mut random);
        let card = generate::card_of(&mut random, version);
        let sheet = damage::write(&mut random, version, &card, 20, 60_000).bytes;
        assert_ends(&folder, &sheet, true);
    }
}
