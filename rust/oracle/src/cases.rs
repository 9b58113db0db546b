//! Inputs of the entries and of the audit with what they must give, in a file that a caller in
//! another language replays.
//!
//! A case: which entry (u8: 1 open, 2 call, 3 audit, 4 audit of any length), for 1 and 2 the version
//! (u8), the slices that it is lent, each as its length (u32, big-endian like every number) and its
//! bytes, the result (u64; of 4, line × 256 + refusal), then what `record` and `sheet` hold
//! afterwards. The slices are card, record, sheet; record, call, sheet; sheet; sheet.

use crate::auditor::Fields;
use crate::compare;
use crate::lent::Flush;
use crate::library::{Independent, Library};
use crate::{entries, plain};
use std::cell::RefCell;
use std::fs::File;
use std::io::{self, BufWriter, Write};
use std::path::Path;

const OPEN: u8 = 1;
const CALL: u8 = 2;
const AUDIT: u8 = 3;
const WHOLE: u8 = 4;

/// Entries and audit by the judge's steps, or without it by the plain ones; each use is written down.
struct Recorder {
    entries: Independent,
    file: RefCell<BufWriter<File>>,
    failed: RefCell<Option<io::Error>>,
}

impl Recorder {
    /// `entry` is followed by the version where there is one.
    fn record(&self, entry: &[u8], lent: &[&[u8]], result: u64, after: &[&[u8]]) {
        let write = || -> io::Result<()> {
            let mut file = self.file.borrow_mut();
            file.write_all(entry)?;
            for slice in lent {
                file.write_all(&(slice.len() as u32).to_be_bytes())?;
                file.write_all(slice)?;
            }
            file.write_all(&result.to_be_bytes())?;
            after.iter().try_for_each(|slice| file.write_all(slice))
        };
        if let Err(error) = write() {
            self.failed.borrow_mut().get_or_insert(error);
        }
    }
}

impl Library for Recorder {
    fn open(&self, version: u8, card: &[u8], record: &mut [u8], sheet: &mut [u8]) -> u8 {
        let before = (record.to_vec(), sheet.to_vec());
        let result = self.entries.open(version, card, record, sheet);
        let lent = [card, &before.0, &before.1];
        self.record(&[OPEN, version], &lent, result.into(), &[record, sheet]);
        result
    }

    fn call(&self, version: u8, record: &mut [u8], call: &[u8], sheet: &mut [u8]) -> u8 {
        let before = (record.to_vec(), sheet.to_vec());
        let result = self.entries.call(version, record, call, sheet);
        let lent = [&before.0[..], call, &before.1];
        self.record(&[CALL, version], &lent, result.into(), &[record, sheet]);
        result
    }

    fn audit(&self, sheet: &[u8]) -> u64 {
        let result = self.entries.audit(sheet);
        self.record(&[AUDIT], &[sheet], result, &[]);
        result
    }

    fn audit_whole(&self, sheet: &[u8]) -> Fields {
        let result = self.entries.audit_whole(sheet);
        self.record(&[WHOLE], &[sheet], result.line * 256 + u64::from(result.refusal), &[]);
        result
    }

    /// Each is written down once.
    fn lent(&self) -> &'static [Flush] {
        &[Flush::End]
    }
}

/// Writes at least `count` cases of the entries, and a tenth as many of the audit.
pub fn write(path: &Path, count: u64, seed: u64) -> Result<(), String> {
    let said = |error: io::Error| format!("{}: {error}", path.display());
    let recorder = Recorder {
        entries: Independent { step: entries::BEST },
        file: RefCell::new(BufWriter::new(File::create(path).map_err(said)?)),
        failed: RefCell::new(None),
    };
    let inputs = compare::entries(&recorder, plain::step, count, seed);
    let sheets = compare::audit(&recorder, plain::step, count / 10, seed);
    recorder.file.borrow_mut().flush().map_err(said)?;
    match recorder.failed.into_inner() {
        Some(error) => Err(said(error)),
        None if inputs.is_clean() && sheets.is_clean() => {
            println!("{} entries, {} sheets", inputs.inputs, sheets.inputs);
            Ok(())
        }
        None => Err("judge and plain disagree".to_string()),
    }
}
