//! The coverage map as a PBM, which pads each row to whole bytes.

use crate::failure::Failure;

/// How many bytes of rows are handed over at once, about.
const BLOCK: usize = 1 << 16;

/// The header of a picture.
pub fn header(width: u32, height: u32) -> Vec<u8> {
    format!("P4\n{width} {height}\n").into_bytes()
}

/// The rows of a map, black where a bit is one; handed over some at a time.
pub fn rows(
    map: &[u8],
    width: usize,
    height: usize,
    mut take: impl FnMut(&[u8]) -> Result<(), Failure>,
) -> Result<(), Failure> {
    let mut block = Vec::with_capacity(BLOCK + width.div_ceil(8));
    for row in 0..height {
        push_row(map, row * width, width, &mut block);
        if block.len() >= BLOCK {
            take(&block)?;
            block.clear();
        }
    }
    take(&block)
}

/// The bits of one row, from bit `first` of the map on.
fn push_row(map: &[u8], first: usize, width: usize, block: &mut Vec<u8>) {
    let byte = |at: usize| u32::from(map.get(at).copied().unwrap_or(0));
    let (start, shift) = (first / 8, first % 8);
    for k in 0..width.div_ceil(8) {
        let both = byte(start + k) << 8 | byte(start + k + 1);
        block.push((both >> (8 - shift)) as u8);
    }
    if width % 8 != 0 {
        if let Some(last) = block.last_mut() {
            *last &= 0xFF << (8 - width % 8);
        }
    }
}

#[cfg(test)]
mod tests {
    use super::{header, rows};

    fn picture(map: &[u8], width: usize, height: usize) -> Vec<u8> {
        let mut all = Vec::new();
        let taken = rows(map, width, height, |some| {
            all.extend_from_slice(some);
            Ok(())
        });
        taken.unwrap();
        all
    }

    #[test]
    fn rows_are_padded() {
        // Three columns, two rows: 101 and 011 stand as 10101100.
        assert_eq!(picture(&[0b1010_1100], 3, 2), [0b1010_0000, 0b0110_0000]);
        assert_eq!(header(3, 2), b"P4\n3 2\n");
    }

    #[test]
    fn whole_bytes_stay() {
        assert_eq!(picture(&[0x5A], 8, 1), [0x5A]);
    }

    /// Every width and bit against the rule, bit by bit, and over many blocks.
    #[test]
    fn each_bit_comes_to_its_place() {
        let map: Vec<u8> = (0..400_000_u32).map(|k| (k * 29 >> 3) as u8).collect();
        for (width, height) in (1..40).map(|width| (width, 7)).chain([(1001, 3000)]) {
            let got = picture(&map, width, height);
            let line = width.div_ceil(8);
            assert_eq!(got.len(), line * height);
            for k in 0..line * 8 * height {
                let (row, column) = (k / (line * 8), k % (line * 8));
                let at = row * width + column;
                let wanted = column < width && map[at / 8] >> (7 - at % 8) & 1 == 1;
                assert_eq!(got[k / 8] >> (7 - k % 8) & 1 == 1, wanted, "{width} {k}");
            }
        }
    }
}
