//! The link driver and the replay from C with the fake library: they agree, and find a fault put
//! in. A byte read outside of what is lent ends them.

use std::fs;
use std::os::unix::process::ExitStatusExt;
use std::path::{Path, PathBuf};
use std::process::Command;

fn folder() -> PathBuf {
    Path::new(env!("CARGO_TARGET_TMPDIR")).join("link")
}

/// The library's folder is named from the one that cargo is called from.
fn build(package: &str) {
    fs::create_dir_all(folder()).expect("a folder");
    let built = Command::new(env!("CARGO"))
        .args(["build", "-j1", "--release", "--offline", "--quiet", "-p", package])
        .args(["--target-dir", ".", "--manifest-path"])
        .arg(Path::new(env!("CARGO_MANIFEST_DIR")).join("Cargo.toml"))
        .current_dir(folder())
        .env("HEAT_BATTERY_LIB", "release")
        .status();
    assert!(built.expect("cargo runs").success(), "{package}");
}

/// Whether the driver ends well, and the last line that it prints.
fn drive(command: &str, fault: &str) -> (bool, String) {
    let driver = folder().join("release/entries");
    let output = Command::new(driver)
        .args([command, "--count", "5000", "--seed", "3"])
        .env("HEAT_BATTERY_FAULT", fault)
        .output()
        .expect("the driver runs");
    let text = String::from_utf8(output.stdout).expect("text");
    (output.status.success(), text.lines().last().unwrap_or_default().to_string())
}

/// The replay of tests/c, made with the fake library, and cases for it.
fn replay() -> (PathBuf, PathBuf) {
    let (program, cases) = (folder().join("replay"), folder().join("cases"));
    let root = Path::new(env!("CARGO_MANIFEST_DIR")).join("../..");
    let made = Command::new("cc")
        .args(["-std=c11", "-O2", "-I"])
        .args([root.join("include"), root.join("tests/c/replay.c")])
        .arg(folder().join("release/libheat_battery.a"))
        .args(["-lgcc_s", "-lpthread", "-ldl", "-lm", "-o"])
        .arg(&program)
        .status();
    assert!(made.expect("cc runs").success());
    let oracle = env!("CARGO_BIN_EXE_oracle");
    let drawn = Command::new(oracle).arg("cases").arg(&cases).args(["--count", "10000"]).output();
    assert!(drawn.expect("it runs").status.success());
    (program, cases)
}

#[test]
fn the_driver_links_agrees_and_finds_faults() {
    build("fake");
    build("entries");
    for command in ["entries", "audit"] {
        let (well, last) = drive(command, "");
        assert!(well && last.contains(" 0 disagreements, 0 against"), "{last}");
    }
    for (command, fault) in [
        ("entries", "refused-record"),
        ("entries", "version-late"),
        ("entries", "time-product"),
        ("entries", "services-early"),
        ("entries", "equal-numbers"),
        ("entries", "unlisted-trial"),
        ("entries", "flag-2"),
        ("entries", "floor-never"),
        ("entries", "floor-rest"),
        ("audit", "last-line"),
        ("audit", "time-always"),
        ("audit", "services-33"),
        ("audit", "type-exchanged"),
        ("audit", "flag-first"),
        ("audit", "floor-always"),
        ("audit", "floor-plain-sum"),
        ("entries", "reads-behind"),
        ("entries", "reads-before"),
        ("audit", "reads-behind"),
        ("audit", "reads-before"),
    ] {
        let (well, last) = drive(command, fault);
        assert!(!well && !last.contains(" 0 disagreements"), "{fault}: {last}");
    }
    let (program, cases) = replay();
    for fault in [
        "",
        "refused-record",
        "version-late",
        "time-always",
        "any-class",
        "unlisted-served",
        "own-services-early",
        "own-services-33",
        "own-services-stored",
        "floor-ref",
        "own-floor-early",
        "own-floor-taken",
        "own-floor-2",
        "own-floor-stored",
        "reads-behind",
        "reads-before",
    ] {
        let mut run = Command::new(&program);
        let ended = run.arg(&cases).env("HEAT_BATTERY_FAULT", fault).output().expect("it runs");
        assert_eq!(ended.status.success(), fault.is_empty(), "{fault}");
        // A record that is to be refused can't be written.
        let is_ended =
            fault.starts_with("reads") || ["own-services-33", "own-floor-2"].contains(&fault);
        assert_eq!(ended.status.signal().is_some(), is_ended, "{fault}");
    }
}
