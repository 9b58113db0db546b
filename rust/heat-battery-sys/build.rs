//! Finds the libheat_battery.a to link: the repository's prebuilt one; with HEAT_BATTERY_PROVE=1
//! the one that tools/archive.sh proves and makes; or, before both, the one in the folder that
//! HEAT_BATTERY_LIB names, relative to the folder that cargo is called from.

use std::env;
use std::ffi::OsString;
use std::fs::{self, OpenOptions};
use std::io::{BufRead, BufReader, Write};
use std::os::unix::process::parent_id;
use std::path::{Path, PathBuf};
use std::process::{exit, Command, Stdio};
use std::time::Instant;

const ARCHIVE: &str = "libheat_battery.a";
const PLATFORM: [(&str, &str); 2] =
    [("CARGO_CFG_TARGET_ARCH", "x86_64"), ("CARGO_CFG_TARGET_OS", "linux")];

fn stop(words: String) -> ! {
    eprintln!("{words}");
    exit(1)
}

/// A variable that is set, and not to nothing.
fn set(name: &str) -> Option<OsString> {
    println!("cargo:rerun-if-env-changed={name}");
    env::var_os(name).filter(|value| !value.is_empty())
}

/// The folder that cargo was called from; this program runs in its package's.
fn caller() -> PathBuf {
    println!("cargo:rerun-if-env-changed=PWD");
    fs::read_link(format!("/proc/{}/cwd", parent_id())).unwrap_or_default()
}

/// A line to cargo's own standard error, as cargo keeps back what this program prints.
fn say(words: &str) {
    let cargos = OpenOptions::new().append(true).open(format!("/proc/{}/fd/2", parent_id()));
    if let Ok(mut out) = cargos {
        let _ = writeln!(out, "heat-battery-sys: {words}");
    }
}

/// The folder of an archive that is there; another one there is linked anew.
fn watched(folder: PathBuf) -> PathBuf {
    println!("cargo:rerun-if-changed={}", folder.join(ARCHIVE).display());
    folder
}

/// Proves the library and makes its archive in cargo's folder for this crate; that folder.
fn prove(root: &Path) -> PathBuf {
    // All that the proof reads; what the prover writes lies beside it in out/.
    let mut read = vec![root.join("crates.txt"), root.join("tools/archive.sh")];
    for folder in fs::read_dir(root.join("crates")).into_iter().flatten().flatten() {
        let parts = ["src", "specs", "proofs"].map(|part| folder.path().join(part));
        read.extend(parts.into_iter().filter(|part| part.is_dir()));
    }
    for path in read {
        println!("cargo:rerun-if-changed={}", path.display());
    }
    say("HEAT_BATTERY_PROVE is set: proving the library, which takes minutes where nothing is proved yet");
    let begun = Instant::now();
    let folder = PathBuf::from(env::var_os("OUT_DIR").expect("cargo sets it"));
    let mut archive = Command::new(root.join("tools/archive.sh"));
    archive.arg(&folder).stdout(Stdio::piped());
    let mut run = match archive.spawn() {
        Ok(run) => run,
        Err(error) => stop(format!("tools/archive.sh: {error}")),
    };
    let progress = run.stdout.take().into_iter().flat_map(|out| BufReader::new(out).lines());
    for line in progress.map_while(Result::ok) {
        eprintln!("{line}");
        if line.starts_with("rt: ") {
            say(&format!("{:4} s  {line}", begun.elapsed().as_secs()));
        }
    }
    match run.wait() {
        Ok(status) if status.success() => {}
        Ok(status) => stop(format!(
            "tools/archive.sh: {status}. Unset HEAT_BATTERY_PROVE to link the prebuilt archive"
        )),
        Err(error) => stop(format!("tools/archive.sh: {error}")),
    }
    say(&format!("proved and made in {} s", begun.elapsed().as_secs()));
    folder
}

fn main() {
    println!("cargo:rerun-if-changed=build.rs");
    for (name, value) in PLATFORM {
        if env::var(name).is_ok_and(|found| found != value) {
            stop(format!("{ARCHIVE} is for x86-64 Linux; this build is for another platform"));
        }
    }
    let root = Path::new(env!("CARGO_MANIFEST_DIR")).join("../..");
    let (given, proved) = (set("HEAT_BATTERY_LIB"), set("HEAT_BATTERY_PROVE"));
    let folder = match given.map(PathBuf::from) {
        Some(folder) if folder.is_absolute() => watched(folder),
        Some(folder) => watched(caller().join(folder)),
        None if proved.is_some_and(|value| value != "0") => prove(&root),
        None => watched(root.join("prebuilt/x86_64-linux")),
    };
    let archive = folder.join(ARCHIVE);
    if !archive.is_file() {
        stop(format!("no {}", archive.display()));
    }
    println!("cargo:rustc-link-search=native={}", folder.display());
    println!("cargo:rustc-link-lib=static=heat_battery");
}
