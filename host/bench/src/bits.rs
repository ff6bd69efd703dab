//! A tile that meets a map without long runs, against a loop over its pixels.
//!
//! Two tiles fill the window, and the upper one's mask decides which map the lower one meets: the quick composer takes
//! the upper tile's turn first. The lower tile's turn alone is the time of the call on both less the time of the call on
//! the upper tile alone, another file. The loop starts from the target and the map that this second call leaves.

use crate::mosaic::{Mosaic, Tile, TileMask};
use crate::native;
use crate::planes::{Call, Planes, SIDE};
use crate::timing::{least, time, Rounds};
use czi::PixelType;
use std::time::Duration;

/// A loop over the pixels of a tile.
type Loop = fn(&Mosaic, (Tile, usize), &mut [u8], &mut [u8]);

/// The least times of the lower tile's turn and of the loop.
pub fn turn(pixel_type: PixelType, upper: TileMask, rounds: Rounds) -> [Duration; 2] {
    let each_pixel: Loop = match pixel_type.bytes() {
        1 => native::each_pixel::<1>,
        2 => native::each_pixel::<2>,
        bytes => unreachable!("{bytes} bytes a pixel"),
    };
    let tile = |m, mask| Tile {
        left: 0,
        top: 0,
        side: SIDE,
        m,
        mask,
    };
    let tiles = [tile(0, TileMask::None), tile(1, upper)];
    let both = Mosaic::new(pixel_type, &tiles, 0);
    let alone = Mosaic::new(pixel_type, &tiles[1..], 0);
    let mut planes = Planes::new(pixel_type);

    planes.compose(Call::QUICK, &both.bytes);
    let composed = (planes.target.clone(), planes.map.clone());
    planes.compose(Call::QUICK, &alone.bytes);
    let map = planes.map.clone();
    each_pixel(&both, both.tiles[0], &mut planes.target, &mut planes.map);
    assert!(
        planes.target == composed.0 && planes.map == composed.1,
        "the library composes what the loop does"
    );
    drop(composed);

    let both_call = |planes: &mut Planes| time(|| planes.compose(Call::QUICK, &both.bytes));
    let alone_call = |planes: &mut Planes| time(|| planes.compose(Call::QUICK, &alone.bytes));
    let looped = |planes: &mut Planes| {
        planes.map.copy_from_slice(&map);
        time(|| each_pixel(&both, both.tiles[0], &mut planes.target, &mut planes.map))
    };
    let [both, alone, looped] = least(rounds, &mut planes, [&both_call, &alone_call, &looped]);
    [both.saturating_sub(alone), looped]
}
