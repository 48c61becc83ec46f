//! Pages of memory of our own, with their protection (Linux on x86-64).

use std::ffi::c_void;

extern "C" {
    fn mmap(
        address: *mut c_void,
        length: usize,
        protection: i32,
        flags: i32,
        file: i32,
        offset: i64,
    ) -> *mut c_void;
    fn mprotect(address: *mut c_void, length: usize, protection: i32) -> i32;
    fn munmap(address: *mut c_void, length: usize) -> i32;
}

pub const NONE: i32 = 0;
pub const READ: i32 = 1;
pub const READ_WRITE: i32 = 3;
const PRIVATE_ANONYMOUS: i32 = 0x22;

pub const PAGE: usize = 4096;

/// A mapping; nothing else refers to it.
pub struct Pages {
    pub start: *mut u8,
    length: usize,
}

impl Pages {
    pub fn map(length: usize, protection: i32) -> Pages {
        // A new mapping at an address of the system's choice touches nothing that is there.
        let start =
            unsafe { mmap(std::ptr::null_mut(), length, protection, PRIVATE_ANONYMOUS, -1, 0) };
        assert_ne!(start as isize, -1, "no memory to map");
        Pages { start: start.cast(), length }
    }

    /// Whole pages from an offset on.
    pub fn protect(&self, offset: usize, length: usize, protection: i32) {
        assert!(offset + length <= self.length, "pages of another mapping");
        let status = unsafe { mprotect(self.start.add(offset).cast(), length, protection) };
        assert_eq!(status, 0, "pages can't be protected");
    }
}

impl Drop for Pages {
    fn drop(&mut self) {
        unsafe { munmap(self.start.cast(), self.length) };
    }
}
