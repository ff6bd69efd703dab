//! Attachments of a sub-block: chunk containers with and without a mask, and plain bytes.

use crate::format::{MASK_GUID, PRINTED_GUID, SECTION};
use crate::random::Random;
use crate::tile::{Chunk, MaskShape};

/// The chunks of a container for a tile of those stored sides; at most one mask.
pub fn draw_chunks(random: &mut Random, width: i32, height: i32) -> Vec<Chunk> {
    let mut chunks: Vec<Chunk> = (0..random.pick(&[0, 0, 0, 1, 1, 2]))
        .map(|_| other_chunk(random, width, height))
        .collect();
    if random.percent(85) {
        let at = random.below(chunks.len() + 1);
        chunks.insert(at, mask_chunk(random, MASK_GUID, width, height));
    }
    chunks
}

/// An attachment of plain bytes, sometimes with what a container would hold.
pub fn draw_plain(random: &mut Random, width: i32, height: i32) -> Vec<u8> {
    match random.below(8) {
        0..=4 => Vec::new(),
        5 => {
            let length = 1 + random.below(40);
            random.bytes(length)
        }
        6 => mask_chunk(random, MASK_GUID, width, height).encode(),
        _ => SECTION.to_vec(),
    }
}

/// A chunk of another kind, one in two with a payload that has a mask's shape.
fn other_chunk(random: &mut Random, width: i32, height: i32) -> Chunk {
    let mut guid = match random.below(4) {
        0 => [0; 16],
        1 => PRINTED_GUID,
        2 => {
            let mut near = MASK_GUID;
            near[random.below(16)] ^= 1 << random.below(8);
            near
        }
        _ => MASK_GUID.map(|_| random.word() as u8),
    };
    if guid == MASK_GUID {
        guid[0] ^= 1;
    }
    if random.percent(50) {
        return mask_chunk(random, guid, width, height);
    }
    let length = random.pick(&[0, 0, 1, 5, 15, 16, 30]);
    Chunk {
        guid,
        payload: random.bytes(length),
        shape: None,
    }
}

/// A chunk with a mask's payload.
fn mask_chunk(random: &mut Random, guid: [u8; 16], width: i32, height: i32) -> Chunk {
    let shape = draw_shape(random, width, height);
    let lines = (shape.stride as usize) * (shape.height as usize);
    let slack = random.pick(&[0, 0, 0, 1, 7, 19, 20]);
    let mut payload = Vec::new();
    for field in [shape.width, shape.height, 0, shape.stride] {
        payload.extend(field.to_le_bytes());
    }
    let share = random.pick(&[0, 30, 50, 80, 100, 100]);
    for _ in 0..lines + slack {
        payload.push((0..8).fold(0, |byte, _| byte << 1 | u8::from(random.percent(share))));
    }
    Chunk {
        guid,
        payload,
        shape: Some(shape),
    }
}

fn draw_shape(random: &mut Random, width: i32, height: i32) -> MaskShape {
    // No lines at all: the stride may be as large as an Int.
    if random.percent(4) {
        let stride = random.pick(&[1 << 28, 1 << 29, i32::MAX]);
        let width = random.pick(&[0, width, i32::MAX]);
        return MaskShape {
            width,
            height: 0,
            stride,
        };
    }
    // No column, and lines of no bytes: any height fits.
    if random.percent(4) {
        return MaskShape {
            width: 0,
            height: random.pick(&[0, height, i32::MAX]),
            stride: 0,
        };
    }
    let width = near(random, width);
    let height = near(random, height);
    let least = (width + 7) / 8;
    MaskShape {
        width,
        height,
        stride: least + random.pick(&[0, 0, 0, 1, 2, 3]),
    }
}

/// A side equal to the tile's, larger or smaller.
fn near(random: &mut Random, side: i32) -> i32 {
    match random.below(4) {
        0 | 1 => side,
        2 => side + 1 + random.below(9) as i32,
        _ => random.below(side as usize + 1) as i32,
    }
}
