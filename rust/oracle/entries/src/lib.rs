//! The C entries of libheat_battery.a as a library to compare.

use oracle::auditor::Fields;
use oracle::library::Library;

pub struct Linked;

impl Library for Linked {
    fn open(&self, version: u8, card: &[u8], record: &mut [u8], sheet: &mut [u8]) -> u8 {
        heat_battery_sys::open(version, card, record, sheet)
    }

    fn call(&self, version: u8, record: &mut [u8], call: &[u8], sheet: &mut [u8]) -> u8 {
        heat_battery_sys::call(version, record, call, sheet)
    }

    fn audit(&self, sheet: &[u8]) -> u64 {
        heat_battery_sys::audit(sheet)
    }

    fn audit_whole(&self, sheet: &[u8]) -> Fields {
        let heat_battery_sys::Verdict { refusal, line } = heat_battery_sys::audit_whole(sheet);
        Fields { refusal, line }
    }
}
