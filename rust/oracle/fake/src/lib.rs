//! A libheat_battery.a made of the oracle's own entries and auditor, to try the link driver
//! with. The variable HEAT_BATTERY_FAULT puts one of the faults of `oracle::faults` in.

use oracle::auditor::Fields;
use oracle::faults::Faulty;
use oracle::library::Library;
use oracle::own::{Record, Shown};
use std::slice::{from_raw_parts, from_raw_parts_mut};

fn library() -> Faulty {
    Faulty::named(&std::env::var("HEAT_BATTERY_FAULT").unwrap_or_default())
}

/// # Safety
/// Each pointer is to as many bytes as its length says, and the three are apart.
#[no_mangle]
pub unsafe extern "C" fn heat_battery_open(
    version: u8,
    card: *const u8,
    card_len: usize,
    record: *mut u8,
    record_len: usize,
    sheet: *mut u8,
    sheet_len: usize,
) -> u8 {
    library().open(
        version,
        from_raw_parts(card, card_len),
        from_raw_parts_mut(record, record_len),
        from_raw_parts_mut(sheet, sheet_len),
    )
}

/// # Safety
/// Each pointer is to as many bytes as its length says, and the three are apart.
#[no_mangle]
pub unsafe extern "C" fn heat_battery_call(
    version: u8,
    record: *mut u8,
    record_len: usize,
    call: *const u8,
    call_len: usize,
    sheet: *mut u8,
    sheet_len: usize,
) -> u8 {
    library().call(
        version,
        from_raw_parts_mut(record, record_len),
        from_raw_parts(call, call_len),
        from_raw_parts_mut(sheet, sheet_len),
    )
}

/// # Safety
/// The pointer is to as many bytes as its length says.
#[no_mangle]
pub unsafe extern "C" fn heat_battery_audit(sheet: *const u8, sheet_len: usize) -> u64 {
    library().audit(from_raw_parts(sheet, sheet_len))
}

/// # Safety
/// The pointer is to as many bytes as its length says.
#[no_mangle]
pub unsafe extern "C" fn heat_battery_audit_whole(sheet: *const u8, sheet_len: usize) -> Fields {
    library().audit_whole(from_raw_parts(sheet, sheet_len))
}

/// # Safety
/// The record is whole and the caller's alone, and the other pointer is to as many bytes as its
/// length says.
#[no_mangle]
pub unsafe extern "C" fn heat_battery_advance(
    version: u8,
    record: *mut Record,
    call: *const u8,
    call_len: usize,
) -> Shown {
    library().advance(version, &mut *record, from_raw_parts(call, call_len))
}
