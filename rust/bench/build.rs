//! Makes libplain_c.a of plain_c/heat_battery.c with the system's C compiler, or the one that CC
//! names, and passes on whether the published file is there: `cfg(published)`.

use std::env;
use std::path::PathBuf;
use std::process::Command;

const SOURCE: &str = "plain_c/heat_battery.c";

/// As fast as C gets without changing a result.
const FLAGS: [&str; 7] =
    ["-std=c99", "-O3", "-ffp-contract=off", "-march=x86-64", "-fPIE", "-Wall", "-Wextra"];

fn run(command: &mut Command) {
    let status = command.status().unwrap_or_else(|error| panic!("{command:?}: {error}"));
    assert!(status.success(), "{command:?}: {status}");
}

fn main() {
    println!("cargo:rustc-check-cfg=cfg(published)");
    if env::var_os("DEP_PUBLISHED_FOUND").is_some() {
        println!("cargo:rustc-cfg=published");
    }
    let out = PathBuf::from(env::var_os("OUT_DIR").expect("cargo sets it"));
    let (object, archive) = (out.join("plain_c.o"), out.join("libplain_c.a"));
    let compiler = env::var_os("CC").unwrap_or("cc".into());
    run(Command::new(compiler).args(FLAGS).args(["-c", SOURCE, "-o"]).arg(&object));
    run(Command::new("ar").arg("crs").arg(&archive).arg(&object));
    println!("cargo:rerun-if-env-changed=CC");
    println!("cargo:rerun-if-changed={SOURCE}");
    println!("cargo:rerun-if-changed=build.rs");
    println!("cargo:rustc-link-search=native={}", out.display());
    println!("cargo:rustc-link-lib=static=plain_c");
}
