//! A repack against native copies of the same parts, and against a judgement of the same file.

use crate::mosaic::{grid, Mosaic, TileMask};
use crate::timing::{least, time, Rounds};
use czi::{calls, PixelType};
use std::hint::black_box;
use std::time::Duration;

/// Columns, and rows, of large tiles: 625 of them and as many dead segments of their size make 1 GB.
const LARGE: usize = 25;

/// Columns, and rows, of small tiles: 4,096 of them.
const SMALL: usize = 64;

/// The clean file of a file of large tiles, of which every second segment is dead; and native code that copies each
/// live tile's metadata and pixels to where they stand in it.
pub fn large(rounds: Rounds) -> [Duration; 2] {
    let tiles = grid(LARGE, 900, 900, TileMask::None);
    let mosaic = Mosaic::with_dead(PixelType::Gray8, &tiles);
    let clean = clean_file(&mosaic.bytes);
    let parts = parts(&mosaic, &clean);
    let native = |out: &mut Vec<u8>| {
        time(|| {
            let file = black_box(&mosaic.bytes);
            for &(from, to, length) in &parts {
                out[to..to + length].copy_from_slice(&file[from..from + length]);
            }
        })
    };
    let library = |out: &mut Vec<u8>| repack(&mosaic.bytes, out);
    let mut out = clean.clone();
    let least = least(rounds, &mut out, [&library, &native]);
    assert!(out == clean, "both wrote the clean file's bytes");
    least
}

/// The clean file of 4,096 tiles of 16 x 16 in a file of 8,192 segments, and a judgement of that file.
pub fn small(rounds: Rounds) -> [Duration; 2] {
    let tiles = grid(SMALL, 16, 16, TileMask::None);
    let file = Mosaic::new(PixelType::Gray8, &tiles, 4094).bytes;
    let library = |out: &mut Vec<u8>| repack(&file, out);
    let judge = |_: &mut Vec<u8>| time(|| czi::judge(black_box(&file)).expect("an accepted file"));
    least(rounds, &mut clean_file(&file), [&library, &judge])
}

fn repack(file: &[u8], out: &mut [u8]) -> Duration {
    time(|| {
        let said = calls::repack(black_box(file), calls::RELEASE_1_2, out);
        assert_eq!(said.number, 0, "an accepted file");
    })
}

fn clean_file(file: &[u8]) -> Vec<u8> {
    let size = calls::repack_size(file, calls::RELEASE_1_2);
    assert_eq!(size.number, 0, "an accepted file");
    let mut out = vec![0; size.value as usize];
    repack(file, &mut out);
    out
}

/// Of each tile where metadata and pixels begin in its file and in the clean one, and how long they are.
fn parts(mosaic: &Mosaic, clean: &[u8]) -> Vec<(usize, usize, usize)> {
    let length = |(tile, _): &(crate::mosaic::Tile, usize)| tile.side * tile.side * mosaic.pixel;
    let numbered = mosaic.tiles.iter().enumerate();
    numbered
        .map(|(n, tile)| {
            let old = czi::tile_metadata(&mosaic.bytes, n as u64).expect("a tile");
            let new = czi::tile_metadata(clean, n as u64).expect("a tile");
            let from = tile.1 - old.len();
            let to = new.as_ptr() as usize - clean.as_ptr() as usize;
            (from, to, old.len() + length(tile))
        })
        .collect()
}
