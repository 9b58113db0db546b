//! `plot`: zones, state of charge and energies over hours.

use crate::arguments::Arguments;
use crate::card::count;
use crate::course::Course;
use crate::failure::Failure;
use crate::files::{self, Parts};
use crate::output::write;
use crate::picture::Picture;
use crate::show::verdict_status;
use heat_battery::audit;
use std::ffi::OsStr;
use std::path::Path;

pub fn plot(arguments: &Arguments) -> Result<(), Failure> {
    let path = arguments.place(0);
    let out = arguments.flag("-o").ok_or(Failure::Usage("plot: -o FILE.svg is missing".into()))?;
    test_name(path, out)?;
    let range = Range::read(arguments)?;
    let bytes = files::sheet(path)?;
    let Parts { version, card, lines, damage } = files::parts(path, &bytes)?;
    range.test(path, lines.len() as u64)?;
    let verdict = audit(&bytes);
    let course = Course::new(version, card, lines, range.ends());
    let picture = Picture::new(&course, &short_name(path)).draw(verdict);
    write(out, picture.as_bytes())?;
    verdict_status(path, verdict, damage)
}

/// A picture goes to a file that is named as one, or to standard output.
fn test_name(path: &OsStr, out: &OsStr) -> Result<(), Failure> {
    let ending = Path::new(out).extension();
    let is_picture = ending.is_some_and(|ending| ending.eq_ignore_ascii_case("svg"));
    if !is_picture && !files::is_standard(out) {
        let name = out.to_string_lossy().escape_debug().to_string();
        return Err(Failure::Usage(format!("plot writes SVG, and {name} doesn't end in .svg")));
    }
    files::test_apart(&[path], out)
}

/// The lines that were asked for, both ends among them.
struct Range {
    from: Option<u64>,
    to: Option<u64>,
}

impl Range {
    fn read(arguments: &Arguments) -> Result<Range, Failure> {
        let whole = |name| arguments.whole(name).map_err(Failure::Usage);
        Ok(Range { from: whole("--from")?, to: whole("--to")? })
    }

    /// The first line and the last.
    fn ends(&self) -> (u64, u64) {
        (self.from.unwrap_or(1), self.to.unwrap_or(u64::MAX))
    }

    /// An error where it is reversed, or has none of the sheet's lines.
    fn test(&self, path: &OsStr, lines: u64) -> Result<(), Failure> {
        let (from, to) = self.ends();
        if from > to {
            return Err(Failure::Usage(format!("plot: --from {from} is above --to {to}")));
        }
        let is_asked = self.from.is_some() || self.to.is_some();
        if is_asked && (from > lines || to == 0) {
            let words = format!("none of its {} is in the range", count(lines, "call line"));
            return Err(Failure::Usage(format!("{}: {words}", files::name(path))));
        }
        Ok(())
    }
}

/// The file's name without its folder.
fn short_name(path: &OsStr) -> String {
    match Path::new(path).file_name() {
        Some(name) if !files::is_standard(path) => name.to_string_lossy().into_owned(),
        _ => "sheet".into(),
    }
}
