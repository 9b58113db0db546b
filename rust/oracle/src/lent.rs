//! Memory to lend, flush against a page that can't be read: who reads or writes there ends the
//! program. On the other side stand guard bytes, which must stay.

use std::cell::RefCell;
use std::ffi::{c_int, c_void};
use std::marker::PhantomData;
use std::ptr::null_mut;
use std::slice::{from_raw_parts, from_raw_parts_mut};

/// The side of what is lent on which such a page lies.
#[derive(Clone, Copy, Debug, PartialEq, Eq)]
pub enum Flush {
    End,
    Start,
}

impl Flush {
    pub const BOTH: [Flush; 2] = [Flush::End, Flush::Start];
}

const PAGE: usize = 4096;
/// Room for a sheet that is too long for the audit; pages of this size are used again.
const ROOM: usize = 20 * PAGE;
/// Bytes on the other side.
const GUARD: usize = 64;
const GUARD_BYTE: u8 = 0xa5;

// C's, as Linux has them on x86-64.
const PROT_NONE: c_int = 0;
const PROT_READ_WRITE: c_int = 1 | 2;
const MAP_PRIVATE_ANONYMOUS: c_int = 0x2 | 0x20;

extern "C" {
    fn mmap(
        at: *mut c_void,
        length: usize,
        access: c_int,
        flags: c_int,
        file: c_int,
        offset: i64,
    ) -> *mut c_void;
    fn mprotect(at: *mut c_void, length: usize, access: c_int) -> c_int;
    fn munmap(at: *mut c_void, length: usize) -> c_int;
}

/// Whole pages, with one on each side that can't be read.
struct Pages {
    start: *mut u8,
    room: usize,
}

impl Pages {
    fn new(room: usize) -> Self {
        let room = room.next_multiple_of(PAGE);
        // SAFETY: new pages, which are nobody else's, and access to all but the first and the last.
        let start = unsafe {
            let all = mmap(null_mut(), room + 2 * PAGE, PROT_NONE, MAP_PRIVATE_ANONYMOUS, -1, 0);
            let start = all.cast::<u8>().wrapping_add(PAGE);
            assert!(mprotect(start.cast(), room, PROT_READ_WRITE) == 0, "no pages");
            start
        };
        Pages { start, room }
    }
}

impl Drop for Pages {
    fn drop(&mut self) {
        // SAFETY: these are the pages of `new`, and nobody has them any more.
        unsafe { munmap(self.start.wrapping_sub(PAGE).cast(), self.room + 2 * PAGE) };
    }
}

thread_local! {
    static FREE: RefCell<Vec<Pages>> = const { RefCell::new(Vec::new()) };
}

/// Lent bytes.
pub struct Lent {
    pages: Option<Pages>,
    flush: Flush,
    at: *mut u8,
    length: usize,
}

impl Lent {
    pub fn new(bytes: &[u8], flush: Flush) -> Self {
        let needed = bytes.len() + GUARD;
        let kept = FREE.with_borrow_mut(|free| if needed <= ROOM { free.pop() } else { None });
        let pages = kept.unwrap_or_else(|| Pages::new(needed.max(ROOM)));
        let at = match flush {
            Flush::End => pages.start.wrapping_add(pages.room - bytes.len()),
            Flush::Start => pages.start,
        };
        let mut lent = Lent { pages: Some(pages), flush, at, length: bytes.len() };
        lent.bytes_mut().copy_from_slice(bytes);
        // SAFETY: the guard lies within the pages.
        unsafe { from_raw_parts_mut(lent.guard(), GUARD) }.fill(GUARD_BYTE);
        lent
    }

    fn guard(&self) -> *mut u8 {
        match self.flush {
            Flush::End => self.at.wrapping_sub(GUARD),
            Flush::Start => self.at.wrapping_add(self.length),
        }
    }

    pub fn bytes(&self) -> &[u8] {
        // SAFETY: it lies within the pages, and was written.
        unsafe { from_raw_parts(self.at, self.length) }
    }

    pub fn bytes_mut(&mut self) -> &mut [u8] {
        // SAFETY: it lies within the pages, which start as zeros.
        unsafe { from_raw_parts_mut(self.at, self.length) }
    }

    pub fn is_guarded(&self) -> bool {
        // SAFETY: the guard lies within the pages, and was written.
        unsafe { from_raw_parts(self.guard(), GUARD) }.iter().all(|byte| *byte == GUARD_BYTE)
    }
}

impl Drop for Lent {
    fn drop(&mut self) {
        let pages = self.pages.take().filter(|pages| pages.room == ROOM);
        let _ = FREE.try_with(|free| free.borrow_mut().extend(pages));
    }
}

/// A lent struct.
pub struct LentValue<T> {
    lent: Lent,
    holds: PhantomData<T>,
}

impl<T: Copy> LentValue<T> {
    pub fn new(value: T, flush: Flush) -> Self {
        const { assert!(PAGE.is_multiple_of(align_of::<T>()) && size_of::<T>() <= PAGE) };
        let lent = Lent::new(&vec![0; size_of::<T>()], flush);
        // SAFETY: a size is a multiple of its alignment, so both ends of pages are aligned.
        unsafe { lent.at.cast::<T>().write(value) };
        LentValue { lent, holds: PhantomData }
    }

    pub fn value_mut(&mut self) -> &mut T {
        // SAFETY: `new` has written it.
        unsafe { &mut *self.lent.at.cast() }
    }

    pub fn is_guarded(&self) -> bool {
        self.lent.is_guarded()
    }
}
