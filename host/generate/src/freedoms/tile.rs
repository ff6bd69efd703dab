//! Freedoms of a tile: its type, its dimensions, its metadata.

use crate::format::SECTION;
use crate::tile::{Attached, Dimension, Tile};

pub(super) const OF_TYPES: &[(i32, &str)] = &[
    (0, "pixel type 0"),
    (1, "pixel type 1"),
    (2, "pixel type 2"),
    (3, "pixel type 3"),
    (4, "pixel type 4"),
    (8, "pixel type 8"),
    (9, "pixel type 9"),
    (10, "pixel type 10"),
    (11, "pixel type 11"),
];

type OfTile = (&'static str, fn(&Tile) -> bool);

pub(super) const OF_TILES: &[OfTile] = &[
    ("2 dimensions", |t| t.dimensions.len() == 2),
    ("10 dimensions", |t| t.dimensions.len() == 10),
    ("11 dimensions", |t| t.dimensions.len() == 11),
    ("11 dimensions or more", |t| t.dimensions.len() >= 11),
    ("16 dimensions", |t| t.dimensions.len() == 16),
    ("a letter before X", |t| t.dimensions[0].letter != b'X'),
    ("a letter between X and Y", |t| {
        at(t, b'X') + 1 != at(t, b'Y')
    }),
    ("a letter after Y", |t| {
        at(t, b'Y') + 1 != t.dimensions.len()
    }),
    ("no M", |t| t.m().is_none()),
    ("a negative M", |t| t.m().is_some_and(|m| m < 0)),
    ("a negative Start of X or Y", |t| {
        sides(t).iter().any(|d| d.start < 0)
    }),
    ("Start of X or Y at -2^31", |t| {
        sides(t).iter().any(|d| d.start == i32::MIN)
    }),
    ("Start + Size of X or Y at 2^31 - 1", |t| {
        sides(t).iter().any(|d| ends_last(d))
    }),
    ("Start of another letter at -2^31", |t| {
        others(t).any(|d| d.start == i32::MIN)
    }),
    ("Start + Size of another letter at 2^31 - 1", |t| {
        others(t).any(ends_last)
    }),
    ("StoredSize 0 of X or Y", |t| {
        sides(t).iter().any(|d| d.stored_size == 0)
    }),
    ("StoredSize of X or Y given and equal to Size", |t| {
        sides(t).iter().any(|d| d.stored_size == d.size)
    }),
    ("StoredSize 0 of another letter", |t| {
        others(t).any(|d| d.stored_size == 0)
    }),
    ("StoredSize 1 of another letter", |t| {
        others(t).any(|d| d.stored_size == 1)
    }),
    ("StartCoordinate not a number", |t| {
        t.dimensions
            .iter()
            .any(|d| f32::from_bits(d.coordinate).is_nan())
    }),
    ("pyramid byte not 0", |t| t.pyramid != 0),
    ("pyramid tile", Tile::is_pyramid_tile),
    ("pyramid tile by X alone", |t| {
        t.x().stored() != t.x().size && t.y().stored() == t.y().size
    }),
    ("pyramid tile by Y alone", |t| {
        t.x().stored() == t.x().size && t.y().stored() != t.y().size
    }),
    ("pyramid tile stored larger than Size", |t| {
        t.x().stored() > t.x().size
    }),
    ("pyramid tile of a Size near 2^31", |t| {
        t.x().size >= i32::MAX - 24
    }),
    ("pyramid tile with a mask", |t| {
        t.is_pyramid_tile() && t.mask().is_some()
    }),
    ("no metadata", |t| t.metadata.bytes.is_empty()),
    ("metadata that declare no container", |t| {
        !t.metadata.bytes.is_empty() && t.chunks().is_none()
    }),
    ("metadata that declare a container", |t| {
        t.chunks().is_some()
    }),
    ("the section ended by the pixels", |t| {
        t.metadata.lacks_last && t.pixels[0] == b'>'
    }),
    ("no attachment", |t| t.attachment().is_empty()),
    ("an attachment of plain bytes", |t| {
        plain(t).is_some_and(|b| !b.is_empty())
    }),
    ("a mask's chunk in an attachment of plain bytes", |t| {
        plain(t).is_some_and(|b| b.starts_with(&[0x67, 0xEA]))
    }),
    ("the section in the attachment alone", |t| {
        plain(t).is_some_and(|b| b == SECTION)
    }),
];

fn at(tile: &Tile, letter: u8) -> usize {
    let found = tile.dimensions.iter().position(|d| d.letter == letter);
    found.expect("every tile has X and Y")
}

fn sides(tile: &Tile) -> [&Dimension; 2] {
    [tile.x(), tile.y()]
}

fn others(tile: &Tile) -> impl Iterator<Item = &Dimension> {
    tile.dimensions
        .iter()
        .filter(|d| !b"XY".contains(&d.letter))
}

fn ends_last(d: &Dimension) -> bool {
    d.start.checked_add(d.size) == Some(i32::MAX)
}

fn plain(tile: &Tile) -> Option<&[u8]> {
    match &tile.attached {
        Attached::Plain(bytes) => Some(bytes),
        Attached::Container(_) => None,
    }
}
