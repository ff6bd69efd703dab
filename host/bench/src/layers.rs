//! One layer of tiles that have 64, against a file whose tiles have that one alone.

use crate::mosaic::{grid, Layers, Mosaic, TileMask};
use crate::planes::{Call, Planes};
use crate::timing::{least, time, Rounds};
use crate::whole::{COLUMNS, STEP, TILE};
use czi::PixelType;
use std::time::Duration;

/// The layers of each tile, and the one that is composed.
const LAYERS: Layers = Layers {
    size: 64,
    drawn: 37,
};

/// The starts by which it is.
const STARTS: &[i32] = &{
    let mut starts = [0; 26];
    starts[25] = LAYERS.drawn as i32;
    starts
};

/// So many runs, of which each has a ratio.
const RUNS: usize = 5;

/// Of each run the least times of the quick composer on 4,096 x 4,096 pixels of 25 tiles, masks off: that of the layer,
/// and of the file that has it alone. A byte a pixel, so that the file with all layers has 1.3 GB.
pub fn runs(rounds: Rounds) -> Vec<[Duration; 2]> {
    let (pixel_type, tiles) = (PixelType::Gray8, grid(COLUMNS, TILE, STEP, TileMask::None));
    let stack = Mosaic::with_layers(pixel_type, &tiles, LAYERS);
    let alone = Mosaic::new(pixel_type, &tiles, 0);
    let of_layer = Call::QUICK_OFF.starting(STARTS);
    let mut planes = Planes::new(pixel_type);
    planes.compose(Call::QUICK_OFF, &alone.bytes);
    let (target, map) = (planes.target.clone(), planes.map.clone());
    planes.target.fill(0);
    planes.compose(of_layer, &stack.bytes);
    assert!(
        planes.target == target && planes.map == map,
        "the layer is the plane of the file that has it alone"
    );
    let layer = |planes: &mut Planes| time(|| planes.compose(of_layer, &stack.bytes));
    let other = |planes: &mut Planes| time(|| planes.compose(Call::QUICK_OFF, &alone.bytes));
    (0..RUNS)
        .map(|_| least(rounds, &mut planes, [&layer, &other]))
        .collect()
}
