//! Files are written whole or not at all.

mod common {
    pub mod command;
}

use common::command::{example, run, run_by_shell, Folder};
use std::fs;

const DAY: &str = "winter-day.sheet";

fn salt() -> String {
    example("salt-battery.card")
}

/// A limit on the length of files cuts a write short.
#[test]
fn output_is_written_whole_or_not_at_all() {
    let folder = Folder::new("whole");
    let short = |words: &[&str]| {
        let line = "trap '' XFSZ; ulimit -f 4; \"$@\"";
        let ended = run_by_shell(line, words);
        ended.assert_failed(words[0]);
        assert_eq!(ended.status, 2, "{}", ended.err);
    };
    let (calls, day) = (example("winter-day.calls"), example(DAY));
    short(&["run", &salt(), &calls, "-o", &folder.path("sheet")]);
    short(&["plot", &day, "-o", &folder.path("x.svg")]);
    // The card is short enough; it is not written without the calls.
    short(&["convert", &day, "-o", &folder.path("x")]);
    assert_eq!(folder.names(), Vec::<String>::new());
    let old = folder.write("sheet", b"what stood here");
    short(&["run", &salt(), &calls, "-o", &old]);
    assert_eq!(fs::read(&old).unwrap(), b"what stood here");
    assert_eq!(folder.names(), ["sheet"]);
    run(&["run", &salt(), &calls, "--version=1", "-o", &old]).assert_fine("with room");
    assert!(fs::read(&old).unwrap() == fs::read(&day).unwrap());
    assert_eq!(folder.names(), ["sheet"]);
}

/// A link stays one, the rights of a file stay, and a file that may not be written isn't.
#[test]
fn a_file_that_is_replaced_keeps_its_rights_and_its_links() {
    use std::os::unix::fs::{symlink, PermissionsExt};
    let folder = Folder::new("rights");
    let calls = example("winter-day.calls");
    let (file, link) = (folder.write("sheet", b"old"), folder.path("link"));
    symlink(&file, &link).unwrap();
    let set = |mode| fs::set_permissions(&file, fs::Permissions::from_mode(mode)).unwrap();
    set(0o640);
    run(&["run", &salt(), &calls, "--version=1", "-o", &link]).assert_fine("through a link");
    assert!(fs::symlink_metadata(&link).unwrap().is_symlink());
    assert!(fs::read(&file).unwrap() == fs::read(example(DAY)).unwrap());
    assert_eq!(fs::metadata(&file).unwrap().permissions().mode() & 0o777, 0o640);
    set(0o440);
    let ended = run(&["run", &salt(), &calls, "-o", &file]);
    assert_eq!(ended.status, 2);
    assert!(ended.err.contains("may not be written"), "{}", ended.err);
    // The gate's `rt ci` refuses a checkout with a link in it, under target/ too.
    fs::remove_file(&link).unwrap();
}
