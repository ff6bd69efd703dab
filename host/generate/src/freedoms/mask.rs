//! Freedoms of chunk containers and masks.

use crate::format::PRINTED_GUID;
use crate::tile::{Chunk, MaskShape, Tile};

type OfMask = (&'static str, fn(&Tile, MaskShape) -> bool);

pub(super) const OF_MASKS: &[OfMask] = &[
    ("a mask as large as its tile", |t, m| {
        (m.width, m.height) == stored(t)
    }),
    ("a mask larger than its tile", |t, m| {
        m.width > stored(t).0 && m.height > stored(t).1
    }),
    ("a mask smaller than its tile", |t, m| {
        m.width < stored(t).0 && m.height < stored(t).1
    }),
    ("a mask wider and lower than its tile", |t, m| {
        m.width > stored(t).0 && m.height < stored(t).1
    }),
    ("a mask of width 0", |_, m| m.width == 0),
    ("a mask of height 0", |_, m| m.height == 0),
    ("a mask with stride 0", |_, m| m.stride == 0),
    ("a mask with stride 0 and height 2^31 - 1", |_, m| {
        m.stride == 0 && m.height == i32::MAX
    }),
    ("a mask with an odd stride", |_, m| m.stride % 2 == 1),
    ("a mask with a stride longer than its width", |_, m| {
        i64::from(m.stride) * 8 >= i64::from(m.width) + 8
    }),
    ("a mask whose stride × 8 passes 32 bits", |_, m| {
        m.stride >= 1 << 29
    }),
];

fn stored(tile: &Tile) -> (i32, i32) {
    (tile.x().stored(), tile.y().stored())
}

type OfChunks = (&'static str, fn(&[Chunk]) -> bool);

pub(super) const OF_CHUNKS: &[OfChunks] = &[
    ("an empty container", |c| c.is_empty()),
    ("a container without a mask", |c| {
        !c.is_empty() && !c.iter().any(Chunk::is_mask)
    }),
    ("several chunks", |c| c.len() >= 2),
    ("a chunk of another kind before the mask", |c| {
        c.iter().skip_while(|k| k.is_mask()).any(Chunk::is_mask)
    }),
    ("a chunk of another kind behind the mask", |c| {
        c.first().is_some_and(Chunk::is_mask) && c.len() >= 2
    }),
    ("a chunk with an empty payload", |c| {
        c.iter().any(|k| k.payload.is_empty())
    }),
    ("a chunk with the mask's GUID in printed order", |c| {
        c.iter().any(|k| k.guid == PRINTED_GUID)
    }),
    ("a chunk of another kind with a mask's payload", |c| {
        c.iter().any(|k| !k.is_mask() && k.shape.is_some())
    }),
    ("a mask's payload longer than its lines", |c| {
        c.iter()
            .any(|k| k.is_mask() && lines_end(k) < k.payload.len())
    }),
];

fn lines_end(chunk: &Chunk) -> usize {
    let lines = |m: MaskShape| 16 + m.stride as usize * m.height as usize;
    chunk.shape.map_or(0, lines)
}
