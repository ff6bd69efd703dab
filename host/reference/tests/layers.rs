//! Req 10, several focal planes in one sub-block: which letter may have layers, DataSize,
//! the record, selection, and the layer's pixels.

mod build;

use build::{file, mask_chunk, Dimension, Tile};
use reference::{judge, Chosen, Layers, Masks, Question, Refusal, Release};

const MOST: i32 = 2_147_483_647;

/// A Gray8 tile with these dimensions, its pixels 1, 2, 3 and so on.
fn tile(dimensions: &[Dimension]) -> Tile {
    let stored = |d: &Dimension| if d.3 == 0 { d.2 } else { d.3 };
    let pixels: i64 = dimensions.iter().map(|d| i64::from(stored(d))).product();
    let pixels = pixels.clamp(0, 4_096) as usize;
    Tile {
        pixel_type: 0,
        dimensions: dimensions.to_vec(),
        metadata: Vec::new(),
        pixels: (1..=pixels).map(|k| k as u8).collect(),
        attachment: Vec::new(),
    }
}

/// X from 0 of size 2, Y of size 1, and another dimension behind them.
fn behind(d: Dimension) -> Tile {
    tile(&[(b'X', 0, 2, 0), (b'Y', 0, 1, 0), d])
}

fn refusal(tile: &Tile) -> Option<(u32, u64)> {
    let bytes = file(std::slice::from_ref(tile));
    let both = Release::ALL.map(|release| judge(&bytes, release).err());
    assert_eq!(both[0], both[1]);
    both[0].map(|r| (r.number, r.place))
}

/// The first entry stands at 288, a sub-block of three dimensions at 384.
const BY_ENTRY: Option<(u32, u64)> = Some((11, 288));
const BY_SIZE: Option<(u32, u64)> = Some((16, 384));

fn at(letter: u8, start: i32) -> Question {
    let mut starts = vec![0; 26];
    starts[usize::from(letter - b'A')] = start;
    Question {
        starts,
        any_scene: false,
        pixel_type: 0,
        background: vec![0xEE],
        left: 0,
        top: 0,
        width: 2,
        height: 1,
        masks: Masks::Off,
    }
}

/// The target, the map, the covered count and the plain store count.
fn compose(tiles: &[Tile], q: &Question) -> Result<(Vec<u8>, Vec<u8>, u64, u64), Refusal> {
    let bytes = file(tiles);
    let pixels = q.pixels() as usize;
    let (mut target, mut map) = (vec![0x55; pixels], vec![0x55; pixels.div_ceil(8)]);
    let counts = judge(&bytes, Release::V1_2)?.compose(q, &mut target, &mut map)?;
    assert_eq!(counts.stored_quick, counts.covered);
    Ok((target, map, counts.covered, counts.stored_plain))
}

/// A tile of 2 × 1 pixels with Z from 5 of size 3.
#[test]
fn the_asked_layer_is_given() {
    for stored in [0, 3] {
        let tile = behind((b'Z', 5, 3, stored));
        assert_eq!(tile.pixels, [1, 2, 3, 4, 5, 6]);
        let shown = |z| compose(std::slice::from_ref(&tile), &at(b'Z', z)).unwrap();
        for outside in [4, 8, 0, -5, MOST, i32::MIN] {
            assert_eq!(shown(outside), (vec![0xEE; 2], vec![0], 0, 0), "{outside}");
        }
        assert_eq!(shown(5), (vec![1, 2], vec![0xC0], 2, 2));
        assert_eq!(shown(6), (vec![3, 4], vec![0xC0], 2, 2));
        assert_eq!(shown(7), (vec![5, 6], vec![0xC0], 2, 2));
    }
}

#[test]
fn the_record_has_letter_start_and_size() {
    let tiles = [
        behind((b'Z', 5, 3, 0)),
        behind((b'Z', 5, 1, 0)),
        tile(&[(b'X', 0, 2, 0), (b'Y', 0, 1, 0)]),
    ];
    let bytes = file(&tiles);
    let judged = judge(&bytes, Release::V1_2).unwrap();
    let layers = Layers {
        letter: b'Z',
        start: 5,
        size: 3,
    };
    let told: Vec<_> = judged.tiles.iter().map(|tile| tile.layers).collect();
    assert_eq!(told, [Some(layers), None, None]);
    // The view covers all layers; the dimension's stored size is as read.
    assert_eq!(
        judged.tile_pixels(0).unwrap().of(&bytes),
        [1, 2, 3, 4, 5, 6]
    );
    let z = judged.dimension(0, 2).unwrap();
    assert_eq!((z.letter, z.start, z.size, z.stored), (b'Z', 5, 3, 3));
    // Listing and box stay.
    let listed = reference::list(&bytes, Release::V1_2);
    assert!(listed.ends_with("tiles=3\nattachments=0\nbox=0,0,2,1\n"));
}

#[test]
fn every_letter_but_four_may_have_layers() {
    for letter in b'A'..=b'Z' {
        let wanted = match letter {
            b'X' | b'Y' => continue,
            b'M' | b'S' => BY_ENTRY,
            _ => None,
        };
        assert_eq!(refusal(&behind((letter, 0, 2, 0))), wanted, "{letter}");
        assert_eq!(refusal(&behind((letter, 0, 2, 2))), wanted, "{letter}");
        assert_eq!(refusal(&behind((letter, 0, 1, 0))), None, "{letter}");
    }
}

#[test]
fn sizes_are_1_to_1024_and_stored_so() {
    for (size, wanted) in [
        (i32::MIN, BY_ENTRY),
        (-1, BY_ENTRY),
        (0, BY_ENTRY),
        (1, None),
        (2, None),
        (3, None),
        (1_023, None),
        (1_024, None),
        (1_025, BY_ENTRY),
        (MOST, BY_ENTRY),
    ] {
        assert_eq!(refusal(&behind((b'Z', 0, size, 0))), wanted, "{size}");
        if size > 0 {
            assert_eq!(refusal(&behind((b'Z', 0, size, size))), wanted, "{size}");
        }
    }
    for (size, stored) in [
        (3, 2),
        (3, 1),
        (3, 4),
        (2, 1),
        (1, 2),
        (1_024, 1),
        (2, -2),
        (2, -1),
    ] {
        let tile = behind((b'Z', 0, size, stored));
        assert_eq!(refusal(&tile), BY_ENTRY, "{size} stored {stored}");
    }
}

#[test]
fn layers_are_stored_after_x_and_y() {
    let (x, y, z) = ((b'X', 0, 2, 0), (b'Y', 0, 1, 0), (b'Z', 0, 2, 0));
    let (c, m) = ((b'C', 0, 1, 1), (b'M', 4, 1, 1));
    assert_eq!(refusal(&tile(&[z, x, y])), BY_ENTRY);
    assert_eq!(refusal(&tile(&[x, z, y])), BY_ENTRY);
    for sound in [
        &[x, y, z][..],
        &[c, x, m, y, z],
        &[x, y, c, z],
        &[x, y, z, c],
        &[x, y, m, z, c],
    ] {
        assert_eq!(refusal(&tile(sound)), None);
    }
    // Letters of Size 1 stay where they like; a second with layers is refused.
    let t = (b'T', 0, 2, 0);
    for two in [
        &[x, y, z, t][..],
        &[x, y, t, c, z],
        &[t, x, y, z],
        &[x, y, z, z],
    ] {
        assert_eq!(refusal(&tile(two)), BY_ENTRY);
    }
}

#[test]
fn data_size_takes_the_factor() {
    let mut tile = behind((b'Z', 0, 3, 0));
    for (length, wanted) in [(2, BY_SIZE), (5, BY_SIZE), (6, None), (7, BY_SIZE)] {
        tile.pixels.resize(length, 0);
        assert_eq!(refusal(&tile), wanted, "{length}");
    }
    // 2^30 × 2^30 × 16 = 2^64, which is 0 in 64 bits; and far past them.
    for (x, y, z, pixel_type) in [
        (1 << 30, 1 << 30, 16, 0),
        (MOST, MOST, 1_024, 11),
        (MOST - 1, MOST, 1_024, 11),
        (1 << 30, 1 << 30, 1_024, 11),
    ] {
        let far = Tile {
            pixel_type,
            dimensions: vec![(b'X', 0, x, 0), (b'Y', -1, y, 0), (b'Z', 0, z, 0)],
            metadata: Vec::new(),
            pixels: Vec::new(),
            attachment: Vec::new(),
        };
        assert_eq!(refusal(&far), BY_SIZE, "{x} {y} {z}");
    }
}

#[test]
fn a_range_at_the_edges_does_not_wrap() {
    for size in [2, 3, 1_024] {
        let last = behind((b'Z', MOST - size, size, 0));
        let number = |k: i32| vec![(2 * k + 1) as u8, (2 * k + 2) as u8];
        let shown = |tile: &Tile, z| compose(std::slice::from_ref(tile), &at(b'Z', z)).unwrap().0;
        assert_eq!(shown(&last, MOST - 1), number(size - 1));
        assert_eq!(shown(&last, MOST - size), number(0));
        for outside in [MOST, MOST - size - 1, i32::MIN, i32::MIN + 1] {
            assert_eq!(shown(&last, outside), [0xEE; 2]);
        }
        assert_eq!(refusal(&behind((b'Z', MOST - size + 1, size, 0))), BY_ENTRY);
        let first = behind((b'Z', i32::MIN, size, 0));
        assert_eq!(shown(&first, i32::MIN), number(0));
        assert_eq!(shown(&first, i32::MIN + size - 1), number(size - 1));
        for outside in [i32::MIN + size, MOST, MOST - 1] {
            assert_eq!(shown(&first, outside), [0xEE; 2]);
        }
    }
}

/// A start that is not given is 0, and so is a letter that a tile lacks.
#[test]
fn a_range_that_holds_0() {
    let layered = behind((b'Z', -1, 3, 0));
    let mut q = at(b'Z', 0);
    q.starts.clear();
    assert_eq!(
        compose(std::slice::from_ref(&layered), &q).unwrap().0,
        [3, 4]
    );
    let lacks = Tile::gray8(0, 0, 1, &[9], &[]);
    let both = [layered, lacks];
    assert_eq!(compose(&both, &q).unwrap(), (vec![9, 4], vec![0xC0], 2, 3));
    assert_eq!(compose(&both, &at(b'Z', 1)).unwrap().0, [5, 6]);
}

/// Tiles with layers and without take their turns by M as ever.
#[test]
fn layers_of_several_tiles_in_one_plane() {
    let mut below = behind((b'Z', 0, 4, 0));
    let mut above = tile(&[
        (b'X', 1, 1, 0),
        (b'Y', 0, 1, 0),
        (b'M', 3, 1, 0),
        (b'Z', 2, 2, 2),
    ]);
    let flat = Tile::gray8(1, 0, 1, &[77], &[(b'Z', 3), (b'M', 9)]);
    below.dimensions.push((b'M', 2, 1, 0));
    above.pixels = vec![50, 51];
    let all = [flat, above, below];
    let shown = |z| compose(&all, &at(b'Z', z)).unwrap();
    assert_eq!(shown(1), (vec![3, 4], vec![0xC0], 2, 2));
    assert_eq!(shown(2), (vec![5, 50], vec![0xC0], 2, 3));
    assert_eq!(shown(3), (vec![7, 77], vec![0xC0], 2, 4));
}

#[test]
fn one_mask_serves_each_layer() {
    let tile = behind((b'Z', 5, 3, 0)).with_container(&mask_chunk(2, 1, 1, &[0x40]));
    for (z, pixel) in [(5, 2), (6, 4), (7, 6)] {
        let mut q = at(b'Z', z);
        let tiles = [tile.clone()];
        assert_eq!(compose(&tiles, &q).unwrap().0, [pixel - 1, pixel]);
        q.masks = Masks::On;
        let wanted = (vec![0xEE, pixel], vec![0x40], 1, 1);
        assert_eq!(compose(&tiles, &q).unwrap(), wanted);
    }
    // It is one mask: a second is 18, however many layers there are.
    let two = [mask_chunk(2, 1, 1, &[0]), mask_chunk(2, 1, 1, &[0])].concat();
    let refused = refusal_under_1_2(&behind((b'Z', 5, 3, 0)).with_container(&two));
    assert_eq!(refused.map(|r| r.number), Some(18));
}

fn refusal_under_1_2(tile: &Tile) -> Option<Refusal> {
    judge(&file(std::slice::from_ref(tile)), Release::V1_2).err()
}

#[test]
fn a_pyramid_tile_may_have_layers() {
    let pyramid = tile(&[(b'X', 0, 2, 1), (b'Y', 0, 1, 0), (b'Z', 5, 3, 3)]);
    assert_eq!(pyramid.pixels.len(), 3);
    let bytes = file(&[pyramid]);
    let judged = judge(&bytes, Release::V1_2).unwrap();
    assert!(judged.tiles[0].layers.is_some() && judged.tiles[0].is_pyramid_tile());
    assert_eq!(judged.tile_pixels(0).unwrap().length, 3);
    for z in 4..=8 {
        assert_eq!(judged.chosen(&at(b'Z', z)), [Chosen::Not]);
    }
}

/// Selected or not, it is 23 by the layer that is asked for.
#[test]
fn another_type_in_the_asked_layer_is_23() {
    let mut wide = behind((b'Z', 5, 3, 0));
    wide.pixel_type = 1;
    wide.pixels.resize(12, 0);
    let tiles = [Tile::gray8(0, 0, 2, &[1, 2], &[(b'Z', 8)]), wide];
    let place = 288 + 92;
    assert_eq!(compose(&tiles, &at(b'Z', 7)), Err(Refusal::new(23, place)));
    assert_eq!(compose(&tiles, &at(b'Z', 8)).unwrap().0, [1, 2]);
}

#[test]
fn a_repack_keeps_the_layers() {
    let tiles = [behind((b'Z', 5, 3, 0)), behind((b'T', -2, 2, 2))];
    let bytes = file(&tiles);
    let judged = judge(&bytes, Release::V1_2).unwrap();
    let mut clean = vec![0; judged.repack_size().unwrap() as usize];
    judged.repack(&mut clean).unwrap();
    let again = judge(&clean, Release::V1_2).unwrap();
    for (tile, kept) in judged.tiles.iter().zip(&again.tiles) {
        assert_eq!(
            (tile.layers, &tile.dimensions),
            (kept.layers, &kept.dimensions)
        );
        assert_eq!(tile.pixels.of(&bytes), kept.pixels.of(&clean));
    }
    // StoredSize 0 stays 0.
    let stored = again.tiles[0].place as usize + 32 + 2 * 20 + 16;
    assert_eq!(clean[stored..stored + 4], [0; 4]);
}
