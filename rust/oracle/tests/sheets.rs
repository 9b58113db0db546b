//! The named sheets: their verdicts, by all steps, and the files.

use oracle::auditor::{self, Verdict};
use oracle::entries::STEPS;
use oracle::sheets;
use std::collections::BTreeSet;
use std::fs;
use std::path::Path;

#[test]
fn verdicts_are_those_stated() {
    for sheet in sheets::all() {
        for step in STEPS {
            let audit = |bytes: &[u8]| auditor::audit_by(step, bytes);
            assert_eq!(auditor::limited(&sheet.bytes, audit), sheet.verdict, "{}", sheet.name);
        }
    }
}

#[test]
fn every_verdict_has_sheets_and_every_name_is_one() {
    let all = sheets::all();
    let names: BTreeSet<&str> = all.iter().map(|sheet| sheet.name.as_str()).collect();
    assert_eq!(names.len(), all.len());
    for refusal in [0, 40, 41, 42, 43, 44] {
        let of_it = all.iter().filter(|sheet| sheet.verdict.refusal() == refusal).count();
        assert!(of_it >= 3, "{refusal}");
    }
    let longest = all.iter().filter(|sheet| sheet.bytes.len() == auditor::MOST_BYTES);
    assert!(longest.into_iter().all(|sheet| matches!(sheet.verdict, Verdict::Accepted(_))));
}

/// The stored ones are named sheets, with their verdicts as the program prints them.
#[test]
fn stored_sheets_are_these() {
    let crates = Path::new(env!("CARGO_MANIFEST_DIR")).join("../../crates");
    let read = |path: &str| fs::read(crates.join(path)).expect("it is stored");
    let text = |path: &str| String::from_utf8(read(path)).expect("text");
    let all = sheets::all();
    let named = |file: &str| {
        let name = file.strip_suffix(".sheet");
        all.iter().find(|sheet| Some(sheet.name.as_str()) == name).expect("a sheet of this name")
    };
    let mut printed = String::new();
    for file in text("audit_cases/args").lines() {
        let sheet = named(file);
        assert!(read(&format!("audit_cases/data/{file}")) == sheet.bytes, "{file}");
        printed += &format!("{file}: {}\n", sheet.verdict);
    }
    assert_eq!(text("audit_cases/stdout"), printed);
    let stored = fs::read_dir(crates.join("audit_cases/data")).expect("a folder").count();
    assert_eq!(stored, printed.lines().count());
    let one = named("all_kinds.sheet");
    assert!(read("audit/stdin") == one.bytes);
    assert_eq!(text("audit/stdout"), format!("{}\n", one.verdict));
}

#[test]
fn files_come_in_pairs() {
    let folder = Path::new(env!("CARGO_TARGET_TMPDIR")).join("sheets");
    sheets::write(&folder).expect("the folder is writable");
    for sheet in sheets::all() {
        let read = |end: &str| fs::read(folder.join(format!("{}.{end}", sheet.name)));
        assert_eq!(read("sheet").expect("written"), sheet.bytes);
        assert_eq!(read("out").expect("written"), format!("{}\n", sheet.verdict).into_bytes());
    }
    let out = fs::read_to_string(folder.join("one_byte.out")).expect("written");
    assert_eq!(out, "refused 41 line 0\n");
}
