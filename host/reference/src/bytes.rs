//! Reads from the lent bytes. All numbers are little-endian; Int is 32-bit
//! signed, Long 64-bit signed.

/// A stretch of the lent file: the offset of its first byte, and its length.
#[derive(Clone, Copy, Debug, Default, PartialEq, Eq)]
pub struct View {
    /// The offset of the first byte in the file.
    pub start: u64,
    /// The number of bytes.
    pub length: u64,
}

impl View {
    /// The offset of the first byte after the stretch.
    pub fn end(self) -> u64 {
        self.start + self.length
    }

    /// The very bytes of the lent file.
    pub fn of(self, file: &[u8]) -> &[u8] {
        part(file, self.start, self.length)
    }
}

/// The `length` bytes at offset `at`.
pub(crate) fn part(file: &[u8], at: u64, length: u64) -> &[u8] {
    &file[at as usize..(at + length) as usize]
}

/// The Int at offset `at`.
pub(crate) fn int(file: &[u8], at: u64) -> i32 {
    let mut four = [0; 4];
    four.copy_from_slice(part(file, at, 4));
    i32::from_le_bytes(four)
}

/// The Long at offset `at`.
pub(crate) fn long(file: &[u8], at: u64) -> i64 {
    let mut eight = [0; 8];
    eight.copy_from_slice(part(file, at, 8));
    i64::from_le_bytes(eight)
}

#[cfg(test)]
mod tests {
    use super::*;

    #[test]
    fn numbers_are_little_endian_and_signed() {
        let file = [9, 0xFE, 0xFF, 0xFF, 0xFF, 0xFF, 0xFF, 0xFF, 0xFF, 1];
        assert_eq!(int(&file, 1), -2);
        assert_eq!(long(&file, 1), -2);
        assert_eq!(long(&file, 2), 0x01FF_FFFF_FFFF_FFFF);
        assert_eq!(int(&file, 6), 0x01FF_FFFF);
    }
}
