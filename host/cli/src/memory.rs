//! Memory that may be short.

use crate::failure::Failure;
use std::fs::{self, File};
use std::io::Read;

/// How much all jobs of a run take together for planes and maps.
pub const MOST: u64 = 512 << 20;

/// Less than this is asked of the allocator alone.
const SMALL: u64 = 64 << 20;

/// An empty vector with room for so many bytes, or a failure where memory is short.
pub fn room(length: u64) -> Result<Vec<u8>, Failure> {
    let mut bytes = Vec::new();
    more_room(&mut bytes, length)?;
    Ok(bytes)
}

/// Room for so many bytes more. Linux promises more memory than there is and
/// kills who takes it, so much is asked of /proc/meminfo too.
pub fn more_room(bytes: &mut Vec<u8>, length: u64) -> Result<(), Failure> {
    let short = || Failure::Other(format!("there is no memory for {length} bytes"));
    if length >= SMALL {
        let text = fs::read_to_string("/proc/meminfo").unwrap_or_default();
        if available(&text).is_some_and(|available| length > available) {
            return Err(short());
        }
    }
    let length = usize::try_from(length).map_err(|_| short())?;
    bytes.try_reserve_exact(length).map_err(|_| short())
}

/// The bytes that are available by that text, if it says so.
fn available(text: &str) -> Option<u64> {
    let line = text.lines().find_map(|l| l.strip_prefix("MemAvailable:"))?;
    let kib: u64 = line.trim().strip_suffix("kB")?.trim().parse().ok()?;
    kib.checked_mul(1024)
}

/// Reads all that is left, in steps that double, each after room for it was taken.
pub fn read_all(file: &mut File) -> Result<Vec<u8>, Failure> {
    let mut bytes = Vec::new();
    loop {
        let step = (bytes.len() as u64).max(1 << 20);
        more_room(&mut bytes, step)?;
        let read = file.take(step).read_to_end(&mut bytes);
        let read = read.map_err(|error| Failure::Other(error.to_string()))?;
        if (read as u64) < step {
            return Ok(bytes);
        }
    }
}

/// So many zero bytes, or a failure where memory is short.
pub fn zeros(length: u64) -> Result<Vec<u8>, Failure> {
    let mut bytes = room(length)?;
    bytes.resize(length as usize, 0);
    Ok(bytes)
}

/// Fails where there is no memory for so many bytes now; it is not kept.
pub fn is_there(length: usize) -> Result<(), Failure> {
    // Else the compiler would take none.
    std::hint::black_box(room(length as u64)?);
    Ok(())
}

/// How many pixels of that size, and their bits of a map, so much memory holds.
pub fn pixels(memory: u64, bytes: usize) -> u64 {
    (memory - 1) * 8 / (8 * bytes as u64 + 1)
}

#[cfg(test)]
mod tests {
    use super::*;

    #[test]
    fn what_is_available_is_read() {
        let text = "MemTotal:  9 kB\nMemAvailable:   22817284 kB\nSwapTotal: 0 kB\n";
        assert_eq!(available(text), Some(22_817_284 * 1024));
        let text = fs::read_to_string("/proc/meminfo").unwrap();
        assert!(available(&text).is_some_and(|bytes| bytes > 1 << 20));
        assert_eq!(available("MemFree: 3 kB\n"), None);
        let most = available(&text).unwrap_or(0);
        assert!(room(most * 2).is_err());
    }

    #[test]
    fn pixels_and_map_fit() {
        for bytes in [1, 2, 3, 4, 6, 8, 12, 24] {
            for memory in [1, 2, 9, 1000, MOST] {
                let most = pixels(memory, bytes);
                assert!(most * bytes as u64 + most.div_ceil(8) <= memory);
            }
        }
    }
}
