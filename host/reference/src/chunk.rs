//! The chunk container in a sub-block's attachment and the valid-pixel mask
//! in it: refusals 17 and 18.

use crate::bytes::{int, part, View};
use crate::refusal::{refuse_if, Refusal};

/// {CBE3EA67-5BFC-492B-A16A-ECE378031448}, as it is stored.
const MASK_GUID: [u8; 16] = [
    0x67, 0xEA, 0xE3, 0xCB, 0xFC, 0x5B, 0x2B, 0x49, 0xA1, 0x6A, 0xEC, 0xE3, 0x78, 0x03, 0x14, 0x48,
];

/// The length of a chunk's header: its GUID and its size.
const CHUNK_HEADER: u64 = 20;

/// The length of a mask before its lines.
const MASK_HEADER: u64 = 16;

/// A tile's valid-pixel mask.
#[derive(Clone, Copy, Debug, PartialEq, Eq)]
pub struct Mask {
    /// The place of its chunk's header in the file.
    pub place: u64,
    /// Width in pixels.
    pub width: u32,
    /// Height in pixels.
    pub height: u32,
    /// The length of a line in bytes.
    pub stride: u32,
}

impl Mask {
    /// The place of the mask's payload.
    pub fn payload(&self) -> u64 {
        self.place + CHUNK_HEADER
    }

    /// Is pixel (x, y) of the tile valid?
    pub(crate) fn is_valid(&self, file: &[u8], x: u64, y: u64) -> bool {
        if x >= self.width.into() || y >= self.height.into() {
            return false;
        }
        let byte = self.payload() + MASK_HEADER + y * u64::from(self.stride) + x / 8;
        let bit = 7 - x % 8;
        part(file, byte, 1)[0] >> bit & 1 == 1
    }
}

/// Reads the chunks, which fill the attachment exactly, and answers the mask
/// if there is one. Chunks in order, a chunk's 17 before its 18; the place is
/// the chunk's header.
pub(crate) fn read_chunks(file: &[u8], attachment: View) -> Result<Option<Mask>, Refusal> {
    let mut mask = None;
    let mut place = attachment.start;
    while place < attachment.end() {
        // 17: chunk not as above.
        refuse_if(attachment.end() - place < CHUNK_HEADER, 17, place)?;
        let size = int(file, place + 16);
        refuse_if(size < 0, 17, place)?;
        let payload = View {
            start: place + CHUNK_HEADER,
            length: size as u64,
        };
        refuse_if(payload.end() > attachment.end(), 17, place)?;
        // Another kind of chunk is skipped.
        if part(file, place, 16) == MASK_GUID {
            // 18: at most one mask.
            refuse_if(mask.is_some(), 18, place)?;
            mask = Some(read_mask(file, place, payload)?);
        }
        place = payload.end();
    }
    Ok(mask)
}

/// 18: mask not as above.
fn read_mask(file: &[u8], place: u64, payload: View) -> Result<Mask, Refusal> {
    refuse_if(payload.length < MASK_HEADER, 18, place)?;
    let width = int(file, payload.start);
    let height = int(file, payload.start + 4);
    let representation = int(file, payload.start + 8);
    let stride = int(file, payload.start + 12);
    refuse_if(representation != 0, 18, place)?;
    // None negative, stride × 8 at least width, 16 + stride × height at most the payload.
    refuse_if(width < 0 || height < 0 || stride < 0, 18, place)?;
    refuse_if(i128::from(stride) * 8 < i128::from(width), 18, place)?;
    let needed = 16 + i128::from(stride) * i128::from(height);
    refuse_if(needed > payload.length as i128, 18, place)?;
    Ok(Mask {
        place,
        width: width as u32,
        height: height as u32,
        stride: stride as u32,
    })
}

#[cfg(test)]
mod tests {
    use super::*;

    const CHUNK: [u8; 20] = {
        let mut chunk = [0; 20];
        let mut k = 0;
        while k < 16 {
            chunk[k] = MASK_GUID[k];
            k += 1;
        }
        chunk
    };

    fn mask(width: i32, height: i32, stride: i32, lines: &[u8]) -> Vec<u8> {
        let mut chunk = CHUNK.to_vec();
        chunk[16..].copy_from_slice(&(16 + lines.len() as i32).to_le_bytes());
        for field in [width, height, 0, stride] {
            chunk.extend(field.to_le_bytes());
        }
        chunk.extend(lines);
        chunk
    }

    fn whole(file: &[u8]) -> View {
        View {
            start: 0,
            length: file.len() as u64,
        }
    }

    /// P7 mask byte 80 hex, width 10, stride 2: x = 0 valid, 1 not.
    #[test]
    fn p7_bits_count_from_the_high_one() {
        let file = mask(10, 1, 2, &[0x80, 0]);
        let mask = read_chunks(&file, whole(&file)).unwrap().unwrap();
        assert!(mask.is_valid(&file, 0, 0));
        assert!(!mask.is_valid(&file, 1, 0));
    }

    /// P8 mask width 3 on a tile 5 wide: x = 3 invalid.
    #[test]
    fn p8_beyond_the_mask_is_invalid() {
        let file = mask(3, 1, 1, &[0xFF]);
        let mask = read_chunks(&file, whole(&file)).unwrap().unwrap();
        assert!(mask.is_valid(&file, 2, 0));
        assert!(!mask.is_valid(&file, 3, 0));
        assert!(!mask.is_valid(&file, 0, 1));
    }

    #[test]
    fn a_stride_over_two_to_the_28th_is_taken_whole() {
        let file = mask(2_147_483_647, 0, 1 << 29, &[]);
        assert!(read_chunks(&file, whole(&file)).unwrap().is_some());
    }

    #[test]
    fn the_guid_in_printed_order_is_another_kind() {
        let mut file = mask(1, 1, 1, &[0xFF]);
        file[..4].reverse();
        file[4..6].reverse();
        file[6..8].reverse();
        assert_eq!(file[..2], [0xCB, 0xE3]);
        assert_eq!(read_chunks(&file, whole(&file)), Ok(None));
    }

    #[test]
    fn a_second_mask_is_refused_at_its_own_header() {
        let one = mask(1, 1, 1, &[0xFF]);
        let file = [one.clone(), one.clone()].concat();
        let refusal = Refusal::new(18, one.len() as u64);
        assert_eq!(read_chunks(&file, whole(&file)), Err(refusal));
    }
}
