//! What native code does for the same plane.

use crate::mosaic::{Mosaic, Tile};
use std::hint::black_box;

/// A fill of target and map, and a copy of each tile's rows, the bottom tile first. The tiles lie in the window, which
/// is a square that begins at 0, 0.
pub fn paint(mosaic: &Mosaic, window: usize, target: &mut [u8], map: &mut [u8]) {
    target.fill(black_box(0));
    map.fill(black_box(0));
    for (tile, place) in &mosaic.tiles {
        let line = tile.side * mosaic.pixel;
        for y in 0..tile.side {
            let to = ((tile.top + y) * window + tile.left) * mosaic.pixel;
            let from = place + y * line;
            target[to..to + line].copy_from_slice(&mosaic.bytes[from..from + line]);
        }
    }
    black_box((target, map));
}

/// Gives each pixel of a tile that the map does not have yet, pixel by pixel. The tile is as wide as the window.
pub fn each_pixel<const PIXEL: usize>(
    mosaic: &Mosaic,
    (tile, place): (Tile, usize),
    target: &mut [u8],
    map: &mut [u8],
) {
    let line = tile.side * PIXEL;
    for y in 0..tile.side {
        let to = &mut target[y * line..][..line];
        let from = &mosaic.bytes[place + y * line..][..line];
        let pixels = to.chunks_exact_mut(PIXEL).zip(from.chunks_exact(PIXEL));
        for (x, (to, from)) in pixels.enumerate() {
            let bit = y * tile.side + x;
            let covered = &mut map[bit / 8];
            let mask = 0x80 >> (bit % 8);
            if *covered & mask == 0 {
                to.copy_from_slice(from);
                *covered |= mask;
            }
        }
    }
    black_box((target, map));
}
