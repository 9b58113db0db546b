//! Output: files written whole or not at all, standard output, notes.

use crate::failure::Failure;
use crate::files::{is_standard, trouble};
use std::ffi::{OsStr, OsString};
use std::fs::{self, File};
use std::io::{self, ErrorKind, Write};
use std::path::{Path, PathBuf};
use std::process;

/// Writes a file, whole or not at all.
pub fn write(path: &OsStr, bytes: &[u8]) -> Result<(), Failure> {
    write_all(&[(path, bytes)])
}

/// Writes files: nothing stands under any of the names before all of them are written.
pub fn write_all(files: &[(&OsStr, &[u8])]) -> Result<(), Failure> {
    let mut drafts = Vec::new();
    for (path, bytes) in files {
        drafts.extend(draft(path, bytes)?);
    }
    drafts.into_iter().try_for_each(Draft::keep)
}

/// A file that is written under a name of its own until it is kept; else it goes.
struct Draft {
    path: OsString,
    /// Where it will stand: behind a link, the file that the link names.
    place: PathBuf,
    temporary: PathBuf,
}

/// The draft of a file. None where there is nothing to rename: on standard output, and on what is
/// no file, such as a device, bytes are written at once.
fn draft(path: &OsStr, bytes: &[u8]) -> Result<Option<Draft>, Failure> {
    if is_standard(path) {
        return put(bytes).map(|_| None);
    }
    let place = fs::canonicalize(path).unwrap_or(path.into());
    let found = fs::metadata(&place).ok();
    match &found {
        Some(found) if found.is_dir() => return Err(trouble(path, "is a folder")),
        Some(found) if found.permissions().readonly() => {
            return Err(trouble(path, "is there and may not be written"));
        }
        Some(found) if !found.is_file() => {
            return fs::write(path, bytes).map(|_| None).map_err(|error| trouble(path, error));
        }
        _ => {}
    }
    let temporary = temporary(&place).ok_or(trouble(path, "is no name of a file"))?;
    let draft = Draft { path: path.into(), place, temporary };
    draft.fill(bytes, found).map_err(|error| trouble(path, error))?;
    Ok(Some(draft))
}

/// A hidden name beside a file, this process's own.
fn temporary(place: &Path) -> Option<PathBuf> {
    let mut name = OsString::from(".");
    name.push(place.file_name()?);
    name.push(format!(".{}.part", process::id()));
    Some(place.with_file_name(name))
}

impl Draft {
    /// Writes the bytes, with the rights of the file that will be replaced.
    fn fill(&self, bytes: &[u8], replaced: Option<fs::Metadata>) -> io::Result<()> {
        let mut file = File::create_new(&self.temporary)?;
        if let Some(replaced) = replaced {
            file.set_permissions(replaced.permissions())?;
        }
        file.write_all(bytes)?;
        file.sync_data()
    }

    fn keep(self) -> Result<(), Failure> {
        fs::rename(&self.temporary, &self.place).map_err(|error| trouble(&self.path, error))
    }
}

impl Drop for Draft {
    fn drop(&mut self) {
        // Nothing stands there once it was kept.
        let _ = fs::remove_file(&self.temporary);
    }
}

/// Where nobody reads any more, the rest is for nobody.
fn put(bytes: &[u8]) -> Result<(), Failure> {
    let mut out = io::stdout().lock();
    match out.write_all(bytes).and_then(|_| out.flush()) {
        Ok(()) => Ok(()),
        Err(error) if error.kind() == ErrorKind::BrokenPipe => Ok(()),
        Err(error) => Err(Failure::File(format!("standard output: {error}"))),
    }
}

/// Prints to standard output.
pub fn print(text: &str) -> Result<(), Failure> {
    put(text.as_bytes())
}

/// A line on standard error; if that is gone, nobody is told.
pub fn note(words: &str) {
    let _ = writeln!(io::stderr(), "{words}");
}
