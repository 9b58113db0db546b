//! The C entries of libheat_battery.a as they stand, behind safe functions.
//!
//! They are declared here and nowhere else in Rust. Each entry is proved to read and write nothing
//! but what it is lent, for any bytes and numbers in it. Slices of Rust are apart and of the length
//! they say, which is all that it asks. The crate heat-battery, whose module `ffi` this is, makes
//! its types of these functions; include/heat_battery.h has every version, length and refusal.
//!
//! ```
//! use heat_battery_sys as ffi;
//!
//! let day = std::fs::read("../../examples/winter-day.sheet").unwrap();
//! let card = &day[3..161]; // of eight layers
//! let mut record = [0; 198 + 8 * 8];
//! let mut sheet = [0; 161 + 72 + 8 * 8 + 1];
//! let (opening, line) = sheet.split_at_mut(161);
//! let version = day[0];
//! assert_eq!(ffi::open(0, card, &mut record, opening), 40); // there is no version 0
//! assert_eq!(ffi::open(version, card, &mut record, opening), 0);
//! assert_eq!(ffi::call(version, &mut record, &[9], line), 10); // there is no kind 9
//! assert_eq!(ffi::call(version, &mut record, &[4], line), 0); // standing loss
//! assert_eq!(ffi::audit(&sheet), 256); // accepted, one line
//! assert_eq!(ffi::audit_whole(&sheet), ffi::Verdict { refusal: 0, line: 1 });
//! ```

#![deny(missing_docs)]

use std::mem::{align_of, offset_of, size_of};

/// The most layers.
pub const MOST_LAYERS: usize = 64;

/// The most listed services.
pub const MOST_SERVICES: usize = 32;

/// `struct heat_battery_card`: a card of any numbers.
#[repr(C)]
#[derive(Clone, Copy, Debug, PartialEq)]
pub struct Card {
    /// 1 to 64.
    pub layers: u8,
    /// 1 to 1000.
    pub units: u16,
    /// 0 or 1.
    pub simultaneous: u8,
    /// 1 to 65535.
    pub budget: u16,
    /// Substep to power, in the header's order.
    pub numbers: [f64; 19],
}

/// `struct heat_battery`: the caller's own record, with any numbers.
#[repr(C)]
#[derive(Clone, Copy, Debug, PartialEq)]
pub struct Battery {
    /// The card.
    pub card: Card,
    /// The first `count` zones; the places above may hold anything, and are not written.
    pub zones: [f64; MOST_LAYERS],
    /// The card's layers.
    pub count: u8,
    /// The five totals in the order of a call line.
    pub totals: [f64; 5],
    /// How many services are listed. This and the next two are read from version 3 on; before, they
    /// may hold anything. No call writes them.
    pub services: u8,
    /// The numbers of the first `services` services, rising from 4; the places above may hold
    /// anything.
    pub numbers: [u16; MOST_SERVICES],
    /// Their classes: 1 regular, 2 space, 3 direct.
    pub classes: [u8; MOST_SERVICES],
    /// The card's flag: 1 sets a floor of 16 °C for standing losses, 0 sets none. Read from version 4
    /// on; before, it may hold anything. No call writes it.
    pub floor: u8,
}

/// `struct heat_battery_shown`: what a call answers, as its line would show it.
#[repr(C)]
#[derive(Clone, Copy, Debug, PartialEq)]
pub struct Shown {
    /// 0 for none.
    pub refusal: u8,
    /// 1 where there is an outlet.
    pub mark: u8,
    /// Substeps that were taken.
    pub substeps: u32,
    /// kWh; for a state of charge, 0 to 1.
    pub energy: f64,
    /// °C.
    pub outlet: f64,
    /// s.
    pub time: f64,
}

/// `struct heat_battery_verdict`: what the audit of any length says.
#[repr(C)]
#[derive(Clone, Copy, Debug, PartialEq, Eq)]
pub struct Verdict {
    /// 0 for none.
    pub refusal: u8,
    /// The refused line, or the number of call lines.
    pub line: u64,
}

// The layout that a C compiler for x86-64 gives the header's structs.
const _: () = {
    assert!(size_of::<Card>() == 160 && align_of::<Card>() == 8);
    assert!(offset_of!(Card, layers) == 0 && offset_of!(Card, units) == 2);
    assert!(offset_of!(Card, simultaneous) == 4 && offset_of!(Card, budget) == 6);
    assert!(offset_of!(Card, numbers) == 8);
    assert!(size_of::<Battery>() == 824 && align_of::<Battery>() == 8);
    assert!(offset_of!(Battery, card) == 0 && offset_of!(Battery, zones) == 160);
    assert!(offset_of!(Battery, count) == 672 && offset_of!(Battery, totals) == 680);
    assert!(offset_of!(Battery, services) == 720 && offset_of!(Battery, numbers) == 722);
    assert!(offset_of!(Battery, classes) == 786 && offset_of!(Battery, floor) == 818);
    assert!(size_of::<Shown>() == 32 && align_of::<Shown>() == 8);
    assert!(offset_of!(Shown, refusal) == 0 && offset_of!(Shown, mark) == 1);
    assert!(offset_of!(Shown, substeps) == 4 && offset_of!(Shown, energy) == 8);
    assert!(offset_of!(Shown, outlet) == 16 && offset_of!(Shown, time) == 24);
    assert!(size_of::<Verdict>() == 16 && align_of::<Verdict>() == 8);
    assert!(offset_of!(Verdict, refusal) == 0 && offset_of!(Verdict, line) == 8);
};

mod c {
    use super::{Battery, Shown, Verdict};

    extern "C" {
        pub fn heat_battery_open(
            version: u8,
            card: *const u8,
            card_length: usize,
            record: *mut u8,
            record_length: usize,
            sheet: *mut u8,
            sheet_length: usize,
        ) -> u8;
        pub fn heat_battery_call(
            version: u8,
            record: *mut u8,
            record_length: usize,
            call: *const u8,
            call_length: usize,
            sheet: *mut u8,
            sheet_length: usize,
        ) -> u8;
        pub fn heat_battery_audit(sheet: *const u8, sheet_length: usize) -> u64;
        pub fn heat_battery_audit_whole(sheet: *const u8, sheet_length: usize) -> Verdict;
        pub fn heat_battery_advance(
            version: u8,
            battery: *mut Battery,
            call: *const u8,
            call_length: usize,
        ) -> Shown;
    }
}

/// Opens a battery and a sheet of a version: the refusal, 0 for none.
pub fn open(version: u8, card: &[u8], record: &mut [u8], sheet: &mut [u8]) -> u8 {
    // SAFETY: three slices that are apart, each with its own length.
    unsafe {
        c::heat_battery_open(
            version,
            card.as_ptr(),
            card.len(),
            record.as_mut_ptr(),
            record.len(),
            sheet.as_mut_ptr(),
            sheet.len(),
        )
    }
}

/// Makes a call on a sheet of a version, writes its line to the front of the sheet: the refusal, 0
/// for none.
pub fn call(version: u8, record: &mut [u8], call: &[u8], sheet: &mut [u8]) -> u8 {
    // SAFETY: three slices that are apart, each with its own length.
    unsafe {
        c::heat_battery_call(
            version,
            record.as_mut_ptr(),
            record.len(),
            call.as_ptr(),
            call.len(),
            sheet.as_mut_ptr(),
            sheet.len(),
        )
    }
}

/// Audits a sheet: line × 256 + refusal, or lines × 256; 44 above 65,536 bytes.
pub fn audit(sheet: &[u8]) -> u64 {
    // SAFETY: a slice with its own length.
    unsafe { c::heat_battery_audit(sheet.as_ptr(), sheet.len()) }
}

/// Audits a sheet of any length.
pub fn audit_whole(sheet: &[u8]) -> Verdict {
    // SAFETY: a slice with its own length.
    unsafe { c::heat_battery_audit_whole(sheet.as_ptr(), sheet.len()) }
}

/// Makes a call on the caller's own record: what its line in a sheet of that version would show. A
/// refused call stores nothing to it.
pub fn advance(version: u8, battery: &mut Battery, call: &[u8]) -> Shown {
    // SAFETY: a record with the header's layout, nobody else's while it is lent, and a slice
    // with its own length.
    unsafe { c::heat_battery_advance(version, battery, call.as_ptr(), call.len()) }
}
