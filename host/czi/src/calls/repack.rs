//! The clean file, without the dead segments.

use super::{Answer, UNWRITTEN};
use crate::ffi;

/// How long the clean file is, 0 where refused; 36 where it would have over 8,192 segments
/// or 2^40 bytes.
pub fn repack_size(file: &[u8], release: u32) -> Answer<u64> {
    let (mut place, mut value) = (UNWRITTEN, UNWRITTEN);
    // SAFETY: file is so many bytes, the others one object each.
    let number =
        unsafe { ffi::czi_repack_size(file.as_ptr(), file.len(), release, &mut place, &mut value) };
    Answer {
        number,
        place,
        value,
    }
}

/// Writes the clean file; 36 as [`repack_size`], then 25 where the lent buffer is shorter.
/// What of it is past the clean file stays, and all where refused. Answers how many bytes
/// were written, 0 where refused.
pub fn repack(file: &[u8], release: u32, out: &mut [u8]) -> Answer<u64> {
    let (mut place, mut value) = (UNWRITTEN, UNWRITTEN);
    // SAFETY: each slice is so many bytes, apart as Rust's are, the others are one object
    // each.
    let number = unsafe {
        ffi::czi_repack(
            file.as_ptr(),
            file.len(),
            release,
            out.as_mut_ptr(),
            out.len(),
            &mut place,
            &mut value,
        )
    };
    Answer {
        number,
        place,
        value,
    }
}
