//! Bytes between unreadable pages: whoever reads or writes past them faults.

use std::ffi::{c_int, c_long, c_void};

extern "C" {
    fn mmap(
        at: *mut c_void,
        length: usize,
        protection: c_int,
        flags: c_int,
        file: c_int,
        offset: c_long,
    ) -> *mut c_void;
    fn munmap(at: *mut c_void, length: usize) -> c_int;
    fn mprotect(at: *mut c_void, length: usize, protection: c_int) -> c_int;
}

const PAGE: usize = 4096;
const READ: c_int = 1;
const WRITE: c_int = 2;
const PRIVATE_ANONYMOUS: c_int = 0x22;

/// Stands in the readable pages where no lent byte is.
const MARK: u8 = 0x5a;

/// Which end of the bytes lies at an unreadable page.
#[derive(Debug, Clone, Copy, PartialEq, Eq)]
pub enum Flush {
    Start,
    End,
}

/// Bytes in as many pages as they need, with an unreadable page before and
/// after those.
pub struct Fenced {
    whole: *mut u8,
    pages: usize,
    start: usize,
    length: usize,
}

// The pages belong to the value; shared, they are only read.
unsafe impl Send for Fenced {}
unsafe impl Sync for Fenced {}

impl Fenced {
    /// Bytes that can be read only.
    pub fn image(bytes: &[u8], flush: Flush) -> Fenced {
        let fenced = Fenced::buffer(bytes, flush);
        fenced.protect(READ);
        fenced
    }

    /// Bytes that can be written to.
    pub fn buffer(bytes: &[u8], flush: Flush) -> Fenced {
        let pages = bytes.len().div_ceil(PAGE);
        let start = match flush {
            Flush::Start => 0,
            Flush::End => pages * PAGE - bytes.len(),
        };
        // New pages, without rights at first.
        let whole = unsafe {
            mmap(
                std::ptr::null_mut(),
                (pages + 2) * PAGE,
                0,
                PRIVATE_ANONYMOUS,
                -1,
                0,
            )
        };
        assert!(whole as isize != -1, "mmap failed");
        let mut fenced = Fenced {
            whole: whole.cast(),
            pages,
            start,
            length: bytes.len(),
        };
        fenced.protect(READ | WRITE);
        fenced.inner_mut().fill(MARK);
        fenced.bytes_mut().copy_from_slice(bytes);
        fenced
    }

    fn protect(&self, rights: c_int) {
        let failed = unsafe { mprotect(self.inner().cast(), self.pages * PAGE, rights) };
        assert!(self.pages == 0 || failed == 0, "mprotect failed");
    }

    /// The first page after the unreadable one.
    fn inner(&self) -> *mut u8 {
        self.whole.wrapping_add(PAGE)
    }

    fn inner_mut(&mut self) -> &mut [u8] {
        unsafe { std::slice::from_raw_parts_mut(self.inner(), self.pages * PAGE) }
    }

    pub fn bytes(&self) -> &[u8] {
        unsafe { std::slice::from_raw_parts(self.inner().wrapping_add(self.start), self.length) }
    }

    /// Not for an image, whose pages cannot be written to.
    pub fn bytes_mut(&mut self) -> &mut [u8] {
        let (start, end) = (self.start, self.start + self.length);
        &mut self.inner_mut()[start..end]
    }

    /// The bytes around the lent ones, in the readable pages, are as they were.
    pub fn marks_stand(&mut self) -> bool {
        let (start, end) = (self.start, self.start + self.length);
        let inner = self.inner_mut();
        let around = inner[..start].iter().chain(&inner[end..]);
        around.copied().all(|byte| byte == MARK)
    }
}

impl Drop for Fenced {
    fn drop(&mut self) {
        let failed = unsafe { munmap(self.whole.cast(), (self.pages + 2) * PAGE) };
        assert!(failed == 0, "munmap failed");
    }
}
