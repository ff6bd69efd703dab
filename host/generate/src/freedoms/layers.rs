//! Freedoms of a tile that has layers.

use crate::tile::{Dimension, Tile};

/// The letter along which the layers lie.
pub(super) const OF_LETTERS: &[(u8, &str)] = &[
    (b'A', "layers along A"),
    (b'B', "layers along B"),
    (b'C', "layers along C"),
    (b'D', "layers along D"),
    (b'E', "layers along E"),
    (b'F', "layers along F"),
    (b'G', "layers along G"),
    (b'H', "layers along H"),
    (b'I', "layers along I"),
    (b'J', "layers along J"),
    (b'K', "layers along K"),
    (b'L', "layers along L"),
    (b'N', "layers along N"),
    (b'O', "layers along O"),
    (b'P', "layers along P"),
    (b'Q', "layers along Q"),
    (b'R', "layers along R"),
    (b'T', "layers along T"),
    (b'U', "layers along U"),
    (b'V', "layers along V"),
    (b'W', "layers along W"),
    (b'Z', "layers along Z"),
];

/// Of the dimension that has layers, with the tile, and its number counted from Y on.
type OfLayers = (&'static str, fn(&Tile, &Dimension, usize) -> bool);

pub(super) const OF_LAYERS: &[OfLayers] = &[
    ("2 layers", |_, d, _| d.size == 2),
    ("3 to 16 layers", |_, d, _| (3..=16).contains(&d.size)),
    ("17 to 1,023 layers", |_, d, _| {
        (17..=1_023).contains(&d.size)
    }),
    ("1,024 layers", |_, d, _| d.size == 1_024),
    ("StoredSize 0 of layers", |_, d, _| d.stored_size == 0),
    ("StoredSize of layers given and equal to Size", |_, d, _| {
        d.stored_size == d.size
    }),
    ("layers right behind Y, and last", |t, _, at| {
        at == 1 && is_last(t, at)
    }),
    ("layers right behind Y, a letter behind them", |t, _, at| {
        at == 1 && !is_last(t, at)
    }),
    ("layers behind another letter, and last", |t, _, at| {
        at > 1 && is_last(t, at)
    }),
    ("layers between other letters behind Y", |t, _, at| {
        at > 1 && !is_last(t, at)
    }),
    ("layers, and letters before Y", |t, _, _| {
        !b"XY".contains(&t.dimensions[0].letter)
    }),
    ("layers of a tile with 16 dimensions", |t, _, _| {
        t.dimensions.len() == 16
    }),
    ("layers of a tile with an M", |t, _, _| t.m().is_some()),
    ("layers of a tile without an M", |t, _, _| t.m().is_none()),
    ("layers of a tile with an S", |t, _, _| {
        t.find(b'S').is_some()
    }),
    ("layers of several pixels each", |t, _, _| {
        t.x().stored() > 1 && t.y().stored() > 1
    }),
    ("layers of one pixel each", |t, _, _| {
        t.x().stored() == 1 && t.y().stored() == 1
    }),
    ("layers of pixels of one byte", |t, _, _| t.pixel_type == 0),
    ("layers of pixels of 24 bytes", |t, _, _| t.pixel_type == 11),
    ("layers with a mask", |t, _, _| {
        !t.is_pyramid_tile() && t.mask().is_some()
    }),
    ("layers of a pyramid tile", |t, _, _| t.is_pyramid_tile()),
    ("layers of a pyramid tile with a mask", |t, _, _| {
        t.is_pyramid_tile() && t.mask().is_some()
    }),
    ("layers of a pyramid tile of a Size near 2^31", |t, _, _| {
        t.x().size >= i32::MAX - 24
    }),
    ("layers from 0 on", |_, d, _| d.start == 0),
    ("layers from below 0 to 0 or above", |_, d, _| {
        d.start < 0 && last(d) >= 0
    }),
    ("layers below 0", |_, d, _| last(d) < 0),
    ("layers from -2^31 on", |_, d, _| d.start == i32::MIN),
    ("layers to 2^31 - 2, the last start", |_, d, _| {
        last(d) == i32::MAX - 1
    }),
];

/// The freedoms that a tile's layers take.
pub(super) fn of_tile(tile: &Tile) -> impl Iterator<Item = &'static str> + '_ {
    let place = |letter| tile.dimensions.iter().position(|d| d.letter == letter);
    let layered = tile.layered();
    let letters = OF_LETTERS
        .iter()
        .filter(move |f| layered.is_some_and(|d| d.letter == f.0));
    let others = OF_LAYERS.iter().filter(move |f| {
        layered.is_some_and(|d| {
            let at = place(d.letter).zip(place(b'Y'));
            at.is_some_and(|(at, y)| f.1(tile, d, at - y))
        })
    });
    letters.map(|f| f.1).chain(others.map(|f| f.0))
}

/// Is it the last dimension, so many behind Y?
fn is_last(tile: &Tile, behind: usize) -> bool {
    let y = tile.dimensions.iter().position(|d| d.letter == b'Y');
    y.is_some_and(|y| y + behind + 1 == tile.dimensions.len())
}

/// The start of the last layer.
fn last(d: &Dimension) -> i32 {
    d.start + (d.size - 1)
}
