//! A quote against the quick composer alone on the same window, and settings that are long and faulty.

use crate::mosaic::{grid, Mosaic, TileMask};
use crate::planes::{Planes, SIDE};
use crate::timing::{least, time, Rounds};
use crate::whole::{COLUMNS, STEP, TILE};
use czi::calls::{self, Plain};
use czi::PixelType;
use std::hint::black_box;
use std::time::Duration;

/// Settings of edition 2, in which a lacking masks line means on.
const SETTINGS: &[u8] = b"edition=2\npitch_x=0.325\npitch_y=0.325\n";

/// A sheet's length.
const SHEET: usize = 49;

/// The same question as a composer's, masks on.
fn question(pixel_type: PixelType, background: &[u8]) -> Plain<'_> {
    Plain {
        starts: &[],
        any_scene: 0,
        pixel_type: pixel_type.number(),
        background,
        left: 0,
        top: 0,
        width: SIDE as u32,
        height: SIDE as u32,
        masks: 1,
    }
}

/// A quote of 4,096 x 4,096 pixels of 25 tiles, and the quick composer on the same.
pub fn whole(pixel_type: PixelType, mask: TileMask, rounds: Rounds) -> [Duration; 2] {
    let file = Mosaic::new(pixel_type, &grid(COLUMNS, TILE, STEP, mask), 0).bytes;
    let background = [1, 2, 3, 4, 5, 6];
    let question = question(pixel_type, &background[..pixel_type.bytes()]);
    let quote = |planes: &mut Planes| {
        let mut sheet = [0; SHEET];
        time(|| {
            let (target, map) = (&mut planes.target, &mut planes.map);
            let file = black_box(&file);
            let said = calls::quote(
                file,
                calls::RELEASE_1_2,
                &question,
                black_box(SETTINGS),
                target,
                map,
                &mut sheet,
            );
            assert_eq!(said.number, 0, "an answer");
        })
    };
    let quick = |planes: &mut Planes| {
        time(|| {
            let (target, map) = (&mut planes.target, &mut planes.map);
            let file = black_box(&file);
            let said = calls::compose_quick(file, calls::RELEASE_1_2, &question, target, map);
            assert_eq!(said.number, 0, "an answer");
        })
    };
    least(rounds, &mut Planes::new(pixel_type), [&quote, &quick])
}

/// The length of long settings.
const LONG: usize = 1 << 20;

/// Quotes by so many times 1 MiB of digits, which are refused as 35.
fn digits(times: usize) -> impl Fn(&mut ()) -> Duration {
    let settings = vec![b'1'; times * LONG];
    move |_| {
        let question = question(PixelType::Gray8, &[0]);
        time(|| {
            let settings = black_box(&settings);
            let lent = (&mut [], &mut [], &mut []);
            let said = calls::quote(&[], 0, &question, settings, lent.0, lent.1, lent.2);
            assert_eq!((said.number, said.place), (35, 0));
        })
    }
}

/// A quote by 1 MiB of digits, and native code that looks for a comma in them.
pub fn garbage(rounds: Rounds) -> [Duration; 2] {
    let settings = vec![b'1'; LONG];
    let library = digits(1);
    let native = |_: &mut ()| {
        time(|| {
            let comma = black_box(&settings).iter().position(|byte| *byte == b',');
            assert_eq!(black_box(comma), None);
        })
    };
    least(rounds, &mut (), [&library, &native])
}

/// Quotes by 2 MiB and by 1 MiB of digits.
pub fn twice(rounds: Rounds) -> [Duration; 2] {
    least(rounds, &mut (), [&digits(2), &digits(1)])
}
