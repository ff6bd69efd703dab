//! Zero bytes that take no memory, for lengths that no disk holds, and such with some
//! other bytes among them.

#![allow(unsafe_code)]

use std::ffi::c_void;
use std::io;
use std::ops::Deref;

const PROT_READ: i32 = 1;
const PROT_WRITE: i32 = 2;
const MAP_PRIVATE: i32 = 2;
const MAP_ANONYMOUS: i32 = 0x20;
const MAP_NORESERVE: i32 = 0x4000;

extern "C" {
    fn mmap(
        address: *mut c_void,
        length: usize,
        protection: i32,
        flags: i32,
        file: i32,
        offset: i64,
    ) -> *mut c_void;
    fn mprotect(address: *mut c_void, length: usize, protection: i32) -> i32;
    fn munmap(address: *mut c_void, length: usize) -> i32;
}

/// A page's length divides it on every machine.
const PAGES: usize = 1 << 16;

/// So many zero bytes, or others among them, as a slice that cannot be written to.
pub struct Zeros {
    address: *mut c_void,
    length: usize,
}

impl Zeros {
    /// At least one of them. Fails where the address space is too small.
    pub fn new(length: usize) -> io::Result<Zeros> {
        let flags = MAP_PRIVATE | MAP_ANONYMOUS | MAP_NORESERVE;
        // SAFETY: a new mapping of no file, at an address that the kernel picks.
        let address = unsafe { mmap(std::ptr::null_mut(), length, PROT_READ, flags, -1, 0) };
        if address as isize == -1 {
            return Err(io::Error::last_os_error());
        }
        Ok(Zeros { address, length })
    }

    /// The same but for these bytes at these offsets. Only their pages take memory.
    pub fn but_for(length: usize, parts: &[(usize, Vec<u8>)]) -> io::Result<Zeros> {
        let mut zeros = Zeros::new(length)?;
        for (at, bytes) in parts {
            zeros.put(*at, bytes)?;
        }
        Ok(zeros)
    }

    fn put(&mut self, at: usize, bytes: &[u8]) -> io::Result<()> {
        assert!(at + bytes.len() <= self.length, "within the mapping");
        let first = at / PAGES * PAGES;
        let length = at + bytes.len() - first;
        let all: *mut u8 = self.address.cast();
        // SAFETY: all of it lies in the mapping, which begins where a page does and is
        // lent to nobody yet; it is written to while that is allowed.
        let done = unsafe {
            let pages = all.add(first).cast();
            mprotect(pages, length, PROT_READ | PROT_WRITE) == 0 && {
                std::ptr::copy_nonoverlapping(bytes.as_ptr(), all.add(at), bytes.len());
                mprotect(pages, length, PROT_READ) == 0
            }
        };
        match done {
            true => Ok(()),
            false => Err(io::Error::last_os_error()),
        }
    }
}

impl Deref for Zeros {
    type Target = [u8];

    fn deref(&self) -> &[u8] {
        // SAFETY: the mapping has so many bytes, lives as long as self, and nobody writes to it.
        unsafe { std::slice::from_raw_parts(self.address.cast(), self.length) }
    }
}

impl Drop for Zeros {
    fn drop(&mut self) {
        // SAFETY: address and length are those of the mapping, which ends here.
        unsafe { munmap(self.address, self.length) };
    }
}

#[cfg(test)]
mod tests {
    use super::*;

    #[test]
    fn bytes_stand_among_zeros() {
        let parts = [(0, vec![1, 2]), (PAGES - 1, vec![3; 4]), (1 << 36, vec![5])];
        let bytes = Zeros::but_for((1 << 36) + 1, &parts).expect("a mapping");
        assert_eq!(bytes[..3], [1, 2, 0]);
        assert_eq!(bytes[PAGES - 2..PAGES + 4], [0, 3, 3, 3, 3, 0]);
        assert_eq!(bytes[(1 << 36) - 1..], [0, 5]);
    }
}
