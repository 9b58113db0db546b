//! The entries and the audit as a library offers them, for a comparison of two.

use crate::auditor::{self, Fields};
use crate::entries::{self, Step};
use crate::lent::Flush;

pub trait Library {
    fn open(&self, version: u8, card: &[u8], record: &mut [u8], sheet: &mut [u8]) -> u8;
    fn call(&self, version: u8, record: &mut [u8], call: &[u8], sheet: &mut [u8]) -> u8;
    /// The C audit: line × 256 + refusal, or lines × 256.
    fn audit(&self, sheet: &[u8]) -> u64;
    /// The C audit of any length.
    fn audit_whole(&self, sheet: &[u8]) -> Fields;
    /// The ways in which each input is lent.
    fn lent(&self) -> &'static [Flush] {
        &Flush::BOTH
    }
}

/// The independent entries and auditor, by the steps given.
pub struct Independent {
    pub step: Step,
}

impl Library for Independent {
    fn open(&self, version: u8, card: &[u8], record: &mut [u8], sheet: &mut [u8]) -> u8 {
        entries::open(version, card, record, sheet)
    }

    fn call(&self, version: u8, record: &mut [u8], call: &[u8], sheet: &mut [u8]) -> u8 {
        entries::call_by(self.step, version, record, call, sheet)
    }

    fn audit(&self, sheet: &[u8]) -> u64 {
        auditor::limited(sheet, |sheet| auditor::audit_by(self.step, sheet)).word()
    }

    fn audit_whole(&self, sheet: &[u8]) -> Fields {
        auditor::audit_by(self.step, sheet).fields()
    }
}
