//! Files lent to a call: read into memory, or mapped without a copy.

#![allow(unsafe_code)]

use std::ffi::c_void;
use std::fs::File;
use std::io;
use std::ops::Deref;
use std::os::fd::AsRawFd;
use std::path::Path;

const PROT_READ: i32 = 1;
const MAP_PRIVATE: i32 = 2;

extern "C" {
    fn mmap(
        address: *mut c_void,
        length: usize,
        protection: i32,
        flags: i32,
        file: i32,
        offset: i64,
    ) -> *mut c_void;
    fn munmap(address: *mut c_void, length: usize) -> i32;
}

/// Bytes that are mapped, not read; as a slice. See [`map`] for what holds of
/// the file behind them.
#[derive(Debug)]
pub struct Mapping {
    address: *mut c_void,
    length: usize,
}

// SAFETY: the bytes are read-only, belong to no thread, and the one who drops
// the mapping is the last to have it.
unsafe impl Send for Mapping {}
// SAFETY: as above; many may read.
unsafe impl Sync for Mapping {}

/// Reads a file into memory, to its end.
///
/// Fails where the file can't be opened or read, or memory is short.
pub fn read(path: &Path) -> io::Result<Vec<u8>> {
    std::fs::read(path)
}

/// Maps a plain file, read-only and without a copy, for files that are larger
/// than memory. An empty one is an empty slice. [`read`] does without the duty.
///
/// Fails where the file can't be opened or mapped, or is a folder, a device or
/// a pipe.
///
/// # Safety
///
/// Nobody changes or cuts the file while the mapping lives, in this program or
/// another. The bytes of a changed file change under the slice; reading past
/// the end of one that was cut ends the program by SIGBUS.
pub unsafe fn map(path: &Path) -> io::Result<Mapping> {
    // SAFETY: the caller's duty is the same.
    unsafe { map_file(&File::open(path)?) }
}

/// Maps an open plain file, from its first byte on.
///
/// Fails where the file can't be mapped, or is a folder, a device or a pipe.
///
/// # Safety
///
/// That of [`map`].
pub unsafe fn map_file(file: &File) -> io::Result<Mapping> {
    let about = file.metadata()?;
    if !about.is_file() {
        return Err(io::Error::other("it is no plain file"));
    }
    let length = usize::try_from(about.len()).map_err(io::Error::other)?;
    Mapping::new(length, MAP_PRIVATE, file.as_raw_fd())
}

impl Mapping {
    fn new(length: usize, flags: i32, file: i32) -> io::Result<Mapping> {
        if length == 0 {
            let address = std::ptr::NonNull::dangling().as_ptr();
            return Ok(Mapping { address, length });
        }
        // SAFETY: a new mapping at an address that the kernel picks.
        let address = unsafe { mmap(std::ptr::null_mut(), length, PROT_READ, flags, file, 0) };
        if address as isize == -1 {
            return Err(io::Error::last_os_error());
        }
        Ok(Mapping { address, length })
    }
}

impl Deref for Mapping {
    type Target = [u8];

    fn deref(&self) -> &[u8] {
        // SAFETY: the mapping has so many bytes and lives as long as self.
        unsafe { std::slice::from_raw_parts(self.address.cast(), self.length) }
    }
}

impl Drop for Mapping {
    fn drop(&mut self) {
        if self.length != 0 {
            // SAFETY: address and length are those of the mapping, which ends here.
            unsafe { munmap(self.address, self.length) };
        }
    }
}
