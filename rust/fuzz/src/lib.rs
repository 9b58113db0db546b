//! Targets for libFuzzer: the C entries and the audit of libheat_battery.a against the oracle's
//! independent ones. A disagreement is printed and aborts, so that libFuzzer keeps the input.

pub mod audit;
pub mod change;
pub mod entries;
pub mod input;
pub mod tested;

use oracle::compare::Report;
use oracle::random::Random;
use std::process::abort;
use std::slice::{from_raw_parts, from_raw_parts_mut};
use std::sync::{LazyLock, Mutex};

/// Compares what an input stands for.
pub type Check = fn(&[u8], &mut Report);
/// A changed copy of an input of at most so many bytes.
pub type Mutate = fn(&mut Random, &[u8], usize) -> Vec<u8>;

static REPORT: LazyLock<Mutex<Report>> = LazyLock::new(|| {
    // SAFETY: C's atexit with a function that lives as long as the program.
    unsafe { atexit(print_report) };
    Mutex::default()
});

extern "C" {
    fn atexit(at_exit: extern "C" fn()) -> i32;
    fn LLVMFuzzerMutate(data: *mut u8, size: usize, max_size: usize) -> usize;
}

/// How often each entry gave each refusal.
extern "C" fn print_report() {
    if let Ok(report) = REPORT.try_lock() {
        println!("{report}");
    }
}

/// libFuzzer's own change of bytes, of which there are then at most `most` and twice as many.
pub fn mutated(bytes: &[u8], most: usize) -> Vec<u8> {
    let size = bytes.len().min(most);
    let mut room = bytes[..size].to_vec();
    room.resize(most.min(2 * size + 64).max(1), 0);
    // SAFETY: the first `size` bytes of `room` are an input, and its length is said.
    let size = unsafe { LLVMFuzzerMutate(room.as_mut_ptr(), size, room.len()) };
    room.truncate(size);
    room
}

/// # Safety
/// `data` points to `size` bytes.
pub unsafe fn run(check: Check, data: *const u8, size: usize) -> i32 {
    let bytes = if size == 0 { &[] } else { from_raw_parts(data, size) };
    let mut report = REPORT.lock().expect("one thread");
    check(bytes, &mut report);
    if !report.is_clean() {
        abort();
    }
    0
}

/// # Safety
/// `data` points to `most` bytes, of which the first `size` are an input.
pub unsafe fn mutate(mutate: Mutate, data: *mut u8, size: usize, most: usize, seed: u32) -> usize {
    let room = from_raw_parts_mut(data, most);
    let mut random = Random::new(u64::from(seed));
    let changed = mutate(&mut random, &room[..size], most);
    let length = changed.len().min(most);
    room[..length].copy_from_slice(&changed[..length]);
    length
}

/// libFuzzer's two functions for a target.
#[macro_export]
macro_rules! target {
    ($target:ident) => {
        #[no_mangle]
        unsafe extern "C" fn LLVMFuzzerTestOneInput(data: *const u8, size: usize) -> i32 {
            $crate::run($crate::$target::check, data, size)
        }

        #[no_mangle]
        unsafe extern "C" fn LLVMFuzzerCustomMutator(
            data: *mut u8,
            size: usize,
            most: usize,
            seed: u32,
        ) -> usize {
            $crate::mutate($crate::$target::mutate, data, size, most, seed)
        }
    };
}
