//! Takes the published heat_battery_pcm.rs and writes it to OUT_DIR for each use: document 01's
//! stand-ins put in by counted substitutions, and a child module added. Without the file there is
//! no `cfg(published)`, and a line says what that means.

use std::env;
use std::fs;
use std::path::{Path, PathBuf};
use std::process::exit;

/// File names under which the published file is looked for.
const NAMES: [&str; 2] =
    ["src--src--core--heating_systems--heat_battery_pcm.rs.txt", "heat_battery_pcm.rs"];

struct Substitution {
    why: &'static str,
    from: &'static str,
    to: &'static str,
    count: usize,
}

const STAND_INS: [Substitution; 5] = [
    Substitution {
        why: "max(0.0): p if p > 0, else 0",
        from: ".max(0.0)",
        to: ".max_zero()",
        count: 2,
    },
    Substitution {
        why: "min: the smaller, of two equal ones the first",
        from: ".min(",
        to: ".min_first(",
        count: 6,
    },
    Substitution { why: "powi(2): p times p", from: ".powi(2)", to: ".square()", count: 1 },
    Substitution {
        why: "ln as document 01 writes it",
        from: ".ln()",
        to: ".ln_or_refuse()",
        count: 1,
    },
    Substitution {
        why: "time left through max(0.0) in an electric charge",
        from: "self.time_available(0., timestep);",
        to: "self.time_available(0., timestep).max_zero();",
        count: 1,
    },
];

const COUNTING: [Substitution; 2] = [
    Substitution {
        why: "substeps counted and tested: the judge stands before the substep",
        from: "fn process_heat_battery_zones(",
        to: "fn process_heat_battery_zones_published(",
        count: 1,
    },
    Substitution {
        why: "a replayed substep takes the place of the last one",
        from: "time_step_s * fraction,",
        to: "judge::in_place_of_the_last(time_step_s * fraction),",
        count: 1,
    },
];

/// The published file in the folder that SRC names, else beside the repository.
fn published(manifest: &Path) -> Option<PathBuf> {
    let set = env::var_os("SRC").filter(|folder| !folder.is_empty());
    let folder = set.as_ref().map_or(manifest.join("../../../shared/papers"), PathBuf::from);
    let found = NAMES.iter().map(|name| folder.join(name)).find(|path| path.is_file());
    if found.is_none() && set.is_some() {
        eprintln!("no {} in {}, which SRC names", NAMES[1], folder.display());
        exit(1);
    }
    found
}

fn substitute(mut text: String, all: &[Substitution]) -> String {
    for s in all {
        let found = text.matches(s.from).count();
        assert!(
            found == s.count,
            "substitution '{}': '{}' stands {} times in the published file, {} expected",
            s.why,
            s.from,
            found,
            s.count
        );
        text = text.replace(s.from, s.to);
    }
    text
}

fn main() {
    let manifest = PathBuf::from(env::var_os("CARGO_MANIFEST_DIR").expect("cargo sets it"));
    let out = PathBuf::from(env::var_os("OUT_DIR").expect("cargo sets it"));
    println!("cargo:rustc-check-cfg=cfg(published)");
    println!("cargo:rerun-if-env-changed=SRC");
    println!("cargo:rerun-if-changed=build.rs");
    let Some(source) = published(&manifest) else {
        println!(
            "cargo:warning=skipped: the judge and new vectors, as no {} is at hand; set SRC to the folder with {}",
            NAMES[1],
            include_str!("SOURCE").trim_end()
        );
        return;
    };
    println!("cargo:rerun-if-changed={}", source.display());
    println!("cargo:rustc-cfg=published");
    println!("cargo:found=yes");

    let published = fs::read_to_string(&source).expect("the published file is UTF-8 text");
    let write = |name: &str, text: &str, methods: &str, child: &str| {
        let path = manifest.join("src").join(child).with_extension("rs");
        let added = format!("\n{methods}\n#[path = {path:?}]\npub mod {child};\n");
        fs::write(out.join(name), format!("{text}{added}")).expect("OUT_DIR is writable");
    };
    let with_stand_ins = substitute(published.clone(), &STAND_INS);
    let judged = substitute(with_stand_ins.clone(), &COUNTING);
    write("as_it_stands.rs", &published, "", "driver");
    write("with_stand_ins.rs", &with_stand_ins, "use crate::functions::StandIns as _;", "driver");
    write("judged.rs", &judged, "use crate::stand_ins::StandIns as _;", "judge");
}
