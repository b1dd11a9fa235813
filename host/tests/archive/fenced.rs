//! Buffers that lie against a page which may not be touched, so that an access outside them is a fault.

use std::ffi::c_void;
use std::{ptr, slice};

// Linux's numbers, the same on all its machines.
const NONE: i32 = 0;
const READ: i32 = 1;
const WRITE: i32 = 2;
const PRIVATE_ANONYMOUS: i32 = 0x22;
const PAGE_SIZE: i32 = 30;

extern "C" {
    fn mmap(at: *mut c_void, len: usize, prot: i32, flags: i32, fd: i32, off: i64) -> *mut c_void;
    fn mprotect(at: *mut c_void, len: usize, prot: i32) -> i32;
    fn munmap(at: *mut c_void, len: usize) -> i32;
    fn sysconf(name: i32) -> i64;
}

/// Where a buffer lies in its pages: at their front or at their back.
#[derive(Clone, Copy, Debug)]
pub enum Side {
    Front,
    Back,
}

/// Pages between two that may not be touched.
pub struct Fenced {
    start: *mut u8,
    page: usize,
    /// The bytes between the two pages.
    len: usize,
}

impl Fenced {
    /// Room for so many bytes.
    pub fn new(bytes: usize) -> Fenced {
        // SAFETY: no memory is touched that is not mapped here.
        unsafe {
            let page = usize::try_from(sysconf(PAGE_SIZE)).expect("a page has bytes");
            let len = bytes.div_ceil(page).max(1) * page;
            let whole = len + 2 * page;
            let start = mmap(ptr::null_mut(), whole, NONE, PRIVATE_ANONYMOUS, -1, 0);
            assert_ne!(start as isize, -1, "mmap");
            let start = start.cast::<u8>();
            let fenced = Fenced { start, page, len };
            fenced.allow(READ | WRITE);
            fenced
        }
    }

    fn pages(&self) -> *mut u8 {
        // SAFETY: the first page is followed by the others of the same mapping.
        unsafe { self.start.add(self.page) }
    }

    fn allow(&self, prot: i32) {
        // SAFETY: these pages are this value's own, and none of its slices lives while their use is changed.
        let done = unsafe { mprotect(self.pages().cast(), self.len, prot) };
        assert_eq!(done, 0, "mprotect");
    }

    /// Where a buffer of so many bytes starts on this side.
    fn place(&self, bytes: usize, side: Side) -> *mut u8 {
        assert!(bytes <= self.len);
        let offset = match side {
            Side::Front => 0,
            Side::Back => self.len - bytes,
        };
        // SAFETY: the place is within the pages, or just behind them.
        unsafe { self.pages().add(offset) }
    }

    /// A copy of these bytes on this side, which may be read and not written.
    pub fn copy(&mut self, bytes: &[u8], side: Side) -> &[u8] {
        self.allow(READ | WRITE);
        let place = self.place(bytes.len(), side);
        // SAFETY: so many bytes lie in the pages from there on; they are lent as long as the pages are.
        unsafe {
            ptr::copy_nonoverlapping(bytes.as_ptr(), place, bytes.len());
            self.allow(READ);
            slice::from_raw_parts(place, bytes.len())
        }
    }

    /// So many bytes on this side.
    pub fn bytes(&mut self, count: usize, side: Side) -> &mut [u8] {
        // SAFETY: so many bytes lie in the pages from there on; they are lent as long as the pages are.
        unsafe { slice::from_raw_parts_mut(self.place(count, side), count) }
    }

    /// So many words on this side; pages start at a multiple of four.
    pub fn words(&mut self, count: usize, side: Side) -> &mut [u32] {
        // SAFETY: as above, and the place is a multiple of four.
        unsafe { slice::from_raw_parts_mut(self.place(4 * count, side).cast(), count) }
    }
}

impl Drop for Fenced {
    fn drop(&mut self) {
        // SAFETY: the whole mapping is this value's own, and nothing of it is lent any more.
        unsafe { munmap(self.start.cast(), self.len + 2 * self.page) };
    }
}
