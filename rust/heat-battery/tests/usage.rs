//! The words of a command line.

mod common {
    pub mod command;
}

use common::command::{example, run, run_in, Folder};
use std::fs;

const DAY: &str = "winter-day.sheet";

#[test]
fn version_is_printed() {
    for word in ["--version", "-V"] {
        let ended = run(&[word]);
        ended.assert_fine(word);
        assert_eq!(ended.out, format!("heat-battery {}\n", env!("CARGO_PKG_VERSION")));
    }
}

#[test]
fn options_take_their_value_behind_an_equals_sign() {
    let folder = Folder::new("equals");
    run(&["audit", &example(DAY), "--lines=204"]).assert_fine("--lines=204");
    assert_eq!(run(&["audit", &example(DAY), "--lines=203"]).status, 1);
    let card = format!("--card={}", example("salt-battery.card"));
    run(&["audit", &example(DAY), &card]).assert_fine("--card=CARD");
    let out = folder.path("x.svg");
    run(&["plot", &example(DAY), "--from=3", "--to=9", "-o", &out]).assert_fine("--from=3");
    assert!(fs::read_to_string(&out).unwrap().contains("call lines 3 to 9"));
    for (word, words) in [
        ("--explain=yes", "--explain takes no value"),
        ("--lines=", "--lines needs a whole number"),
    ] {
        let ended = run(&["audit", &example(DAY), word]);
        assert_eq!(ended.status, 2, "{word}");
        assert!(ended.err.contains(words), "{}", ended.err);
    }
}

#[test]
fn behind_two_dashes_every_word_is_a_file() {
    let folder = Folder::new("dashes");
    for name in ["--json", "--help", "-x"] {
        folder.write(name, &fs::read(example(DAY)).unwrap());
        assert_ne!(run_in(&folder, &["audit", name]).verdict(), "accepted 204");
        let ended = run_in(&folder, &["audit", "--lines=204", "--", name]);
        ended.assert_fine(name);
        assert_eq!(ended.verdict(), "accepted 204");
    }
    assert_eq!(run_in(&folder, &["audit", "--"]).status, 2);
}

#[test]
fn the_nearest_command_is_named() {
    for (words, meant) in [
        (&["polt"][..], "no such command: polt; did you mean plot?"),
        (&["aduit", "x"], "no such command: aduit; did you mean audit?"),
        (&["convrt"], "did you mean convert?"),
        (&["card", "chekc"], "no such command: chekc; did you mean check?"),
        (&["card", "tmplate"], "did you mean template?"),
        (&["bake"], "no such command: bake; the commands are card check, card template, run"),
    ] {
        let ended = run(words);
        ended.assert_failed(&words.join(" "));
        assert_eq!(ended.status, 2);
        assert!(ended.err.contains(meant), "{} has no {meant}", ended.err);
    }
    let ended = run(&["audit", "x", "--explian"]);
    assert!(ended.err.contains("no option --explian; did you mean --explain?"), "{}", ended.err);
}
