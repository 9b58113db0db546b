//! The command run on files in a folder of the test's own.
#![allow(dead_code)]

use std::fs;
use std::io::Write;
use std::path::{Path, PathBuf};
use std::process::{Command, Output, Stdio};
use std::sync::OnceLock;

pub struct Ended {
    pub status: i32,
    pub out: String,
    pub err: String,
}

impl Ended {
    fn new(output: Output) -> Ended {
        Ended {
            status: output.status.code().expect("no signal"),
            out: String::from_utf8_lossy(&output.stdout).into_owned(),
            err: String::from_utf8_lossy(&output.stderr).into_owned(),
        }
    }

    /// It failed in words: 1 or 2, something said, no panic.
    pub fn assert_failed(&self, what: &str) {
        let Ended { status, out, err } = self;
        assert!([1, 2].contains(status), "{what}: status {status}\n{out}\n{err}");
        assert!(err.starts_with("heat-battery: "), "{what}: {err:?}");
        assert!(!err.contains("panicked"), "{what}: {err}");
    }

    /// The first line that it printed.
    pub fn verdict(&self) -> &str {
        self.out.lines().next().unwrap_or_default()
    }

    pub fn assert_fine(&self, what: &str) {
        assert_eq!(self.status, 0, "{what}: {}", self.err);
    }
}

/// The command as cargo made it for this package's tests; for another's it is made here.
fn program() -> &'static Path {
    static MADE: OnceLock<PathBuf> = OnceLock::new();
    MADE.get_or_init(|| match option_env!("CARGO_BIN_EXE_heat-battery") {
        Some(program) => program.into(),
        None => made(&Path::new(env!("CARGO_TARGET_TMPDIR")).join("command")),
    })
}

fn made(folder: &Path) -> PathBuf {
    let built = Command::new(env!("CARGO"))
        .args(["build", "--offline", "--quiet", "-p", "heat-battery", "--target-dir"])
        .arg(folder)
        .current_dir(env!("CARGO_MANIFEST_DIR"))
        .status();
    assert!(built.expect("cargo runs").success());
    folder.join("debug/heat-battery")
}

fn command() -> Command {
    Command::new(program())
}

pub fn run(words: &[&str]) -> Ended {
    Ended::new(command().args(words).stdin(Stdio::null()).output().expect("it runs"))
}

/// From within a folder.
pub fn run_in(folder: &Folder, words: &[&str]) -> Ended {
    let mut command = command();
    let command = command.args(words).current_dir(&folder.0).stdin(Stdio::null());
    Ended::new(command.output().expect("it runs"))
}

/// By a line of the shell, in which $1 is the command and $2 and the following are the words.
pub fn run_by_shell(line: &str, words: &[&str]) -> Ended {
    let mut shell = Command::new("sh");
    let shell = shell.args(["-c", line, "sh"]).arg(program());
    Ended::new(shell.args(words).stdin(Stdio::null()).output().expect("it runs"))
}

/// With bytes on standard input.
pub fn run_with(words: &[&str], input: &[u8]) -> Ended {
    let mut command = command();
    let command = command.args(words).stdin(Stdio::piped());
    let mut child = command.stdout(Stdio::piped()).stderr(Stdio::piped()).spawn().expect("it runs");
    // It may not read all of it.
    let _ = child.stdin.take().expect("a pipe").write_all(input);
    Ended::new(child.wait_with_output().expect("it ends"))
}

/// With nobody reading what it prints.
pub fn run_unread(words: &[&str]) -> Ended {
    let mut command = command();
    let command = command.args(words).stdin(Stdio::null());
    let mut child = command.stdout(Stdio::piped()).stderr(Stdio::piped()).spawn().expect("it runs");
    drop(child.stdout.take());
    Ended::new(child.wait_with_output().expect("it ends"))
}

pub fn examples() -> PathBuf {
    Path::new(env!("CARGO_MANIFEST_DIR")).join("../../examples")
}

pub fn example(name: &str) -> String {
    path_text(&examples().join(name))
}

pub fn path_text(path: &Path) -> String {
    path.to_str().expect("a path in UTF-8").into()
}

/// A folder for one test.
pub struct Folder(PathBuf);

impl Folder {
    pub fn new(name: &str) -> Folder {
        let path = Path::new(env!("CARGO_TARGET_TMPDIR")).join(name);
        let _ = fs::remove_dir_all(&path);
        fs::create_dir_all(&path).expect("a folder");
        Folder(path)
    }

    pub fn path(&self, name: &str) -> String {
        path_text(&self.0.join(name))
    }

    /// The names of its files, in order.
    pub fn names(&self) -> Vec<String> {
        let entries = fs::read_dir(&self.0).expect("a folder");
        let name = |entry: fs::DirEntry| entry.file_name().to_string_lossy().into_owned();
        let mut names: Vec<String> = entries.map(|entry| name(entry.expect("a file"))).collect();
        names.sort();
        names
    }

    pub fn write(&self, name: &str, bytes: &[u8]) -> String {
        let path = self.path(name);
        fs::write(&path, bytes).expect("a file");
        path
    }

    /// A file of zeros that takes no room.
    pub fn huge(&self, name: &str, length: u64) -> String {
        let path = self.path(name);
        fs::File::create(&path).and_then(|file| file.set_len(length)).expect("a file");
        path
    }
}

/// Every command that reads a file, on one file.
pub fn commands(folder: &Folder, file: &str) -> Vec<Vec<String>> {
    let (card, calls) = (example("salt-battery.card"), example("winter-day.calls"));
    let (svg, out, name) = (folder.path("x.svg"), folder.path("x.sheet"), folder.path("x"));
    let words: [&[&str]; 9] = [
        &["card", "check", file],
        &["run", file, &calls, "-o", &out],
        &["run", &card, file, "-o", &out],
        &["show", file],
        &["show", "--json", file],
        &["audit", file],
        &["audit", "--explain", file],
        &["plot", file, "-o", &svg],
        &["convert", file, "-o", &name],
    ];
    words.iter().map(|words| words.iter().map(|word| word.to_string()).collect()).collect()
}
