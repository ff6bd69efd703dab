//! Whole calls on 4,096 x 4,096 pixels of 25 tiles, against native code that fills target and map and copies rows.

use crate::mosaic::{grid, Mosaic, TileMask};
use crate::native;
use crate::planes::{Call, Planes, SIDE};
use crate::timing::{least, time, Rounds};
use czi::PixelType;
use std::time::Duration;

/// The tiles of a row, and of a column.
pub const COLUMNS: usize = 5;
/// A tile's side.
pub const TILE: usize = 900;
/// From one tile to the next: 101 of 900 pixels overlap.
pub const STEP: usize = 799;

/// The least times of three calls on tiles of one kind, and of native code.
pub fn calls(
    pixel_type: PixelType,
    mask: TileMask,
    calls: [Call; 3],
    rounds: Rounds,
) -> [Duration; 4] {
    assert_eq!((COLUMNS - 1) * STEP + TILE, SIDE, "tiles fill the window");
    let mosaic = Mosaic::new(pixel_type, &grid(COLUMNS, TILE, STEP, mask), 0);
    let mut planes = Planes::new(pixel_type);
    let paint = |planes: &mut Planes| {
        native::paint(&mosaic, SIDE, &mut planes.target, &mut planes.map);
    };
    if mask != TileMask::HalfValid {
        paint(&mut planes);
        let copied = planes.target.clone();
        for call in calls {
            planes.target.fill(0);
            planes.compose(call, &mosaic.bytes);
            assert!(planes.target == copied, "the library copies the same rows");
        }
    }
    let call = |call: Call| {
        let mosaic = &mosaic;
        move |planes: &mut Planes| time(|| planes.compose(call, &mosaic.bytes))
    };
    let [one, two, three] = calls.map(call);
    let native = |planes: &mut Planes| time(|| paint(planes));
    least(rounds, &mut planes, [&one, &two, &three, &native])
}
