//! Memory by the page, from the operating system. The calls are declared by hand, with Linux's numbers.

use std::ffi::{c_int, c_long, c_uchar, c_void};

extern "C" {
    fn mmap(
        at: *mut c_void,
        length: usize,
        protection: c_int,
        flags: c_int,
        file: c_int,
        offset: c_long,
    ) -> *mut c_void;
    fn mprotect(at: *mut c_void, length: usize, protection: c_int) -> c_int;
    fn mincore(at: *mut c_void, length: usize, pages: *mut c_uchar) -> c_int;
    fn munmap(at: *mut c_void, length: usize) -> c_int;
    fn sysconf(name: c_int) -> c_long;
}

#[derive(Clone, Copy)]
pub enum Access {
    None = 0,
    Read = 1,
    ReadAndWrite = 3,
}

const PRIVATE_AND_ANONYMOUS: c_int = 0x22;
const NO_RESERVE: c_int = 0x4000;
const PAGE_SIZE: c_int = 30;

pub struct Mapping {
    start: *mut u8,
    length: usize,
}

pub fn page_bytes() -> usize {
    // It only asks for a number.
    unsafe { sysconf(PAGE_SIZE) as usize }
}

impl Mapping {
    /// Zero bytes, as many as whole pages have. No memory is set aside for those that are never written.
    pub fn new(length: usize, access: Access) -> Result<Mapping, String> {
        let length = length.next_multiple_of(page_bytes());
        let flags = PRIVATE_AND_ANONYMOUS | NO_RESERVE;
        // The system chooses where; no memory of this program is touched.
        let start = unsafe { mmap(std::ptr::null_mut(), length, access as c_int, flags, -1, 0) };
        if start as isize == -1 {
            return Err(format!("{length} bytes could not be mapped"));
        }
        Ok(Mapping {
            start: start.cast(),
            length,
        })
    }

    pub fn start(&self) -> *mut u8 {
        self.start
    }

    /// Changes the access of some whole pages.
    pub fn protect(&self, from: usize, length: usize, access: Access) {
        assert!(from + length <= self.length, "outside of the mapping");
        // The pages lie within the mapping.
        let done = unsafe { mprotect(self.start.add(from).cast(), length, access as c_int) };
        assert_eq!(done, 0, "mprotect");
    }

    /// Whether each page has been touched.
    pub fn touched(&self) -> Vec<bool> {
        let mut pages = vec![0; self.length / page_bytes()];
        // There is a byte for each page of the mapping.
        let done = unsafe { mincore(self.start.cast(), self.length, pages.as_mut_ptr()) };
        assert_eq!(done, 0, "mincore");
        pages.into_iter().map(|page| page & 1 > 0).collect()
    }
}

impl Drop for Mapping {
    fn drop(&mut self) {
        // The mapping is this one's own.
        unsafe { munmap(self.start.cast(), self.length) };
    }
}
