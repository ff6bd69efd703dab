//! All records of a file at once, into lent arrays.

use super::{Answer, UNWRITTEN};
use crate::ffi;

type Table = unsafe extern "C" fn(
    *const u8,
    usize,
    u32,
    *mut u64,
    usize,
    *mut i32,
    usize,
    *mut u64,
    *mut u64,
) -> u32;

fn table(
    function: Table,
    file: &[u8],
    release: u32,
    numbers: &mut [u64],
    starts: &mut [i32],
) -> Answer<u64> {
    let (mut place, mut value) = (UNWRITTEN, UNWRITTEN);
    // SAFETY: each slice is so many objects of its type and apart from the others,
    // the rest is one object each.
    let number = unsafe {
        function(
            file.as_ptr(),
            file.len(),
            release,
            numbers.as_mut_ptr(),
            numbers.len(),
            starts.as_mut_ptr(),
            starts.len(),
            &mut place,
            &mut value,
        )
    };
    Answer {
        number,
        place,
        value,
    }
}

/// The records of all tiles, [`TILE_NUMBERS`](super::TILE_NUMBERS) and
/// [`TILE_STARTS`](super::TILE_STARTS) for each; 22 where an array is too short.
/// What is past them stays, and all where refused. Answers how many tiles there
/// are, 0 where refused.
pub fn tiles(file: &[u8], release: u32, numbers: &mut [u64], starts: &mut [i32]) -> Answer<u64> {
    table(ffi::czi_tiles, file, release, numbers, starts)
}

/// The records of all dimensions, tile by tile,
/// [`DIMENSION_NUMBERS`](super::DIMENSION_NUMBERS) and a start for each; else as
/// [`tiles`]. Answers how many dimensions there are.
pub fn dimensions(
    file: &[u8],
    release: u32,
    numbers: &mut [u64],
    starts: &mut [i32],
) -> Answer<u64> {
    table(ffi::czi_dimensions, file, release, numbers, starts)
}
