//! Judging alone, against the reference; views and records, against judging; equal ranges alone, against memcmp.

use crate::mosaic::{grid, named_often, Mosaic, TileMask};
use crate::probe;
use crate::timing::{least, time, Rounds, Side};
use czi::{calls, PixelType, Release, Scan};
use std::hint::black_box;
use std::time::Duration;

/// Judges 4,096 tiles of 16 x 16 in a file of 8,192 segments, the library and the reference.
pub fn judge(mask: TileMask, rounds: Rounds) -> [Duration; 2] {
    let file = Mosaic::new(PixelType::Gray8, &grid(64, 16, 16, mask), 4094).bytes;
    let library = |_: &mut ()| time(|| czi::judge(black_box(&file)).expect("an accepted file"));
    let reference = |_: &mut ()| {
        time(|| {
            let release = reference::Release::V1_2;
            let judged = black_box(reference::judge(black_box(&file), release));
            assert!(judged.is_ok(), "an accepted file");
        })
    };
    least(rounds, &mut (), [&library, &reference])
}

/// Judges 4,096 tiles, each with a mask, by release 1.02 and by 1.2.
pub fn judge_by_release(rounds: Rounds) -> [Duration; 2] {
    let tiles = grid(64, 16, 16, TileMask::AllValid);
    let file = Mosaic::new(PixelType::Gray8, &tiles, 4094).bytes;
    let judge = |release| {
        let scan = Scan::new(&file).release(release);
        move |_: &mut ()| time(|| czi::judge(black_box(scan)).expect("an accepted file"))
    };
    let (older, newer) = (judge(Release::V1_02), judge(Release::V1_2));
    least(rounds, &mut (), [&older, &newer])
}

/// Judges a sub-block with 4 MiB of metadata that 4,096 entries name, and the same that one entry names.
pub fn judge_named_often(rounds: Rounds) -> [Duration; 2] {
    let (often, once) = (named_often(4096), named_often(1));
    let judge = |file| move |_: &mut ()| time(|| czi::judge(black_box(file)).expect("accepted"));
    least(rounds, &mut (), [&judge(&often), &judge(&once)])
}

/// The views that are handed out of a file, each with its name: of its last tile, and of the whole file.
pub const VIEWS: [(&str, fn(&[u8]) -> usize); 5] = [
    ("pixels", |file| view(czi::tile_pixels(file, 4095))),
    ("metadata", |file| view(czi::tile_metadata(file, 4095))),
    ("attachment", |file| view(czi::tile_attachment(file, 4095))),
    ("common XML", |file| view(czi::common_xml(file))),
    ("common attachment", |file| {
        view(czi::common_attachment(file))
    }),
];

fn view(part: Result<&[u8], czi::Refusal>) -> usize {
    part.expect("an accepted file").len()
}

/// Judges 4,096 tiles, each with a mask, and asks for each of the views.
pub fn views(rounds: Rounds) -> ([Duration; 5], Duration) {
    let file = Mosaic::new(
        PixelType::Gray8,
        &grid(64, 16, 16, TileMask::AllValid),
        4094,
    )
    .bytes;
    let judge = |_: &mut ()| time(|| czi::judge(black_box(&file)).expect("an accepted file"));
    let ask = |n: usize| {
        let file = &file;
        move |_: &mut ()| time(|| assert!(black_box(VIEWS[n].1(black_box(file))) < file.len()))
    };
    let asks = [ask(0), ask(1), ask(2), ask(3), ask(4)];
    let sides: [Side<()>; 6] = [&judge, &asks[0], &asks[1], &asks[2], &asks[3], &asks[4]];
    let [judged, views @ ..]: [Duration; 6] = least(rounds, &mut (), sides);
    (views, judged)
}

/// So many letters has a tile whose records are asked for.
const LETTERS: usize = 5;
const TILES: usize = 4096;

/// All records of 4,096 tiles with 5 dimensions each, which are both tables; and judging the same file.
pub fn records(rounds: Rounds) -> [Duration; 2] {
    let tiles = grid(64, 16, 16, TileMask::None);
    let file = Mosaic::with_letters(PixelType::Gray8, &tiles, 4094, b"CS").bytes;
    let row = |width: usize| vec![0; width * TILES];
    let mut tables = Tables {
        tiles: (
            row(calls::TILE_NUMBERS),
            vec![0; calls::TILE_STARTS * TILES],
        ),
        dimensions: (
            row(calls::DIMENSION_NUMBERS * LETTERS),
            vec![0; LETTERS * TILES],
        ),
    };
    let all = |tables: &mut Tables| {
        time(|| {
            let (numbers, starts) = &mut tables.tiles;
            let tiles = calls::tiles(black_box(&file), calls::RELEASE_1_2, numbers, starts);
            let (numbers, starts) = &mut tables.dimensions;
            let release = calls::RELEASE_1_2;
            let dimensions = calls::dimensions(black_box(&file), release, numbers, starts);
            assert_eq!((tiles.number, tiles.value), (0, TILES as u64));
            let rows = (LETTERS * TILES) as u64;
            assert_eq!((dimensions.number, dimensions.value), (0, rows));
        })
    };
    let judge = |_: &mut Tables| time(|| czi::judge(black_box(&file)).expect("an accepted file"));
    least(rounds, &mut tables, [&all, &judge])
}

/// The arrays that are lent, of both tables.
struct Tables {
    tiles: (Vec<u64>, Vec<i32>),
    dimensions: (Vec<u64>, Vec<i32>),
}

/// The length of the ranges compared.
const RANGE: usize = 256;
/// Each pair of ranges begins at one of so many places.
const PLACES: usize = 64;
/// So many comparisons are timed at once.
pub const COMPARISONS: usize = 1000 * PLACES;

/// Compares equal ranges of 256 bytes in cache, the library and memcmp, which is what `==` calls.
pub fn equal_range(rounds: Rounds) -> [Duration; 2] {
    let one = [7; RANGE + PLACES];
    let library = |other: &mut [u8; RANGE + PLACES]| compare(&one, other, probe::same);
    let native = |other: &mut [u8; RANGE + PLACES]| compare(&one, other, |a, b| a == b);
    least(rounds, &mut one.clone(), [&library, &native])
}

fn compare(
    one: &[u8; RANGE + PLACES],
    other: &[u8; RANGE + PLACES],
    same: impl Fn(&[u8], &[u8]) -> bool,
) -> Duration {
    let mut all = true;
    let took = time(|| {
        for n in 0..COMPARISONS {
            let (one, other) = black_box((one, other));
            let (a, b) = (n % PLACES, n * 5 % PLACES);
            all &= same(&one[a..a + RANGE], &other[b..b + RANGE]);
        }
    });
    assert!(all, "equal ranges");
    took
}
