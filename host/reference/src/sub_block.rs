//! The sub-block that an entry names: refusals 15 and 16, then its chunks.

use crate::bytes::{int, long, part, View};
use crate::chunk::{read_chunks, Mask};
use crate::declaration::declares_container;
use crate::entry::Entry;
use crate::refusal::{refuse_if, Refusal};
use crate::release::Release;
use crate::segment::Segment;

/// What a sub-block holds.
pub(crate) struct SubBlock {
    pub metadata: View,
    pub pixels: View,
    pub attachment: View,
    pub mask: Option<Mask>,
}

/// F, the length of a sub-block's fixed part.
pub fn fixed_part(dimension_count: u64) -> u64 {
    u64::max(256, 48 + 20 * dimension_count)
}

/// 15, 16, then chunks in order. Places of 15 and 16 are the sub-block's.
pub(crate) fn read_sub_block(
    file: &[u8],
    segment: &Segment,
    entry: &Entry,
    release: Release,
) -> Result<SubBlock, Refusal> {
    let content = segment.content();
    let fixed = fixed_part(entry.dimensions.len() as u64);
    // 15: fixed part doesn't fit the room, or the copy differs.
    refuse_if(fixed > segment.room, 15, segment.position)?;
    let listed = part(file, entry.place, entry.length());
    let copy = part(file, content + 16, entry.length());
    refuse_if(!is_copy(listed, copy), 15, segment.position)?;

    // 16: sizes negative, don't fit, or DataSize wrong.
    let metadata_size = int(file, content);
    let attachment_size = int(file, content + 4);
    let data_size = long(file, content + 8);
    let negative = metadata_size < 0 || attachment_size < 0 || data_size < 0;
    refuse_if(negative, 16, segment.position)?;
    let end = fixed as i128 + metadata_size as i128 + data_size as i128 + attachment_size as i128;
    refuse_if(end > segment.room as i128, 16, segment.position)?;
    // DataSize takes the factor of the layers (Req 10).
    let layers = entry.layered().map_or(1, |d| i128::from(d.stored));
    let pixels = stored(entry, b'X') * stored(entry, b'Y') * layers;
    let right_size = pixels * entry.bytes_a_pixel as i128;
    refuse_if(data_size as i128 != right_size, 16, segment.position)?;

    // From F: metadata, pixels, attachment, with no gap.
    let metadata = View {
        start: content + fixed,
        length: metadata_size as u64,
    };
    let pixels = View {
        start: metadata.end(),
        length: data_size as u64,
    };
    let attachment = View {
        start: pixels.end(),
        length: attachment_size as u64,
    };
    // Under 1.02 every sub-block attachment is plain bytes: 17 and 18 are never
    // given, and where no tile has a mask, masks on means the same as masks off.
    let is_container = match release {
        Release::V1_2 => declares_container(metadata.of(file)),
        Release::V1_02 => false,
    };
    let mask = if is_container {
        read_chunks(file, attachment)?
    } else {
        None
    };
    Ok(SubBlock {
        metadata,
        pixels,
        attachment,
        mask,
    })
}

/// The copy equals the entry in every byte but 23 to 27.
fn is_copy(entry: &[u8], copy: &[u8]) -> bool {
    (0..entry.len()).all(|k| (23..=27).contains(&k) || entry[k] == copy[k])
}

fn stored(entry: &Entry, letter: u8) -> i128 {
    entry.find(letter).map_or(0, |d| d.stored.into())
}

#[cfg(test)]
mod tests {
    use super::fixed_part;

    /// P4 10 dimensions: F 256; P5 11: F 268.
    #[test]
    fn p4_p5_fixed_part() {
        assert_eq!(fixed_part(10), 256);
        assert_eq!(fixed_part(11), 268);
    }
}
