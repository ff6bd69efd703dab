//! The stored stack: tiles with layers, by each start.

use czi::calls::SHEET_MIN;
use czi::{
    chosen, compose, compose_plain, compose_quick, quote, Layers, Mark, Masks, Question, Refusal,
    Release, Scan, Tile,
};
use std::fs;
use std::path::PathBuf;

fn sample(name: &str) -> Vec<u8> {
    let folder = PathBuf::from(env!("CARGO_MANIFEST_DIR")).join("../samples");
    fs::read(folder.join(name)).expect("a stored sample")
}

/// Starts of 0 but for that of Z.
fn along_z(start: i32) -> [i32; 26] {
    let mut starts = [0; 26];
    starts[25] = start;
    starts
}

/// The whole of the stack's box.
fn over(starts: &[i32], masks: Masks) -> Question<'_> {
    let question = Question::default().window(0, 0, 22, 12);
    question.background(&[255]).starts(starts).masks(masks)
}

/// By start along Z: which tiles are selected, and the covered count with masks off
/// and on. Tile 3 is a pyramid tile.
const BY_START: [(i32, &[usize], [u64; 2]); 9] = [
    (i32::MIN, &[], [0, 0]),
    (0, &[], [0, 0]),
    (4, &[], [0, 0]),
    (5, &[0], [96, 96]),
    (6, &[0, 1, 2], [204, 188]),
    (7, &[0, 1], [180, 164]),
    (8, &[1], [96, 80]),
    (9, &[], [0, 0]),
    (i32::MAX, &[], [0, 0]),
];

#[test]
fn records_have_their_layers() {
    let file = sample("stack.czi");
    let layers = |start| {
        let (letter, size) = ('Z', 3);
        Some(Layers {
            letter,
            start,
            size,
        })
    };
    for release in Release::ALL {
        let scan = Scan::new(&file).release(release);
        let tiles: Vec<Tile> = czi::tiles(scan).unwrap().collect();
        let got: Vec<Option<Layers>> = tiles.iter().map(|tile| tile.layers).collect();
        assert_eq!(got, [layers(5), layers(6), None, layers(5)]);
        assert!(tiles[3].is_pyramid_tile());
        for (entry, tile) in (0..).zip(tiles) {
            assert_eq!(czi::tile(scan, entry).unwrap(), tile);
        }
    }
    for name in ["mosaic.czi", "free.czi", "pyramids.czi"] {
        let file = sample(name);
        assert!(czi::tiles(&file).unwrap().all(|tile| tile.layers.is_none()));
    }
}

/// A view covers all layers, one behind the other.
#[test]
fn a_view_has_all_layers() {
    let file = sample("stack.czi");
    for (entry, length) in [(0, 3 * 96), (1, 3 * 96), (2, 24), (3, 3 * 72)] {
        let tile = czi::tile(&file, entry).unwrap();
        let pixels = czi::tile_pixels(&file, entry).unwrap();
        assert_eq!(pixels.len(), length);
        assert_eq!(pixels.as_ptr(), file[tile.pixels.clone()].as_ptr());
        let Some(layers) = tile.layers else {
            assert_eq!(tile.layer_pixels(6), None);
            continue;
        };
        let starts = layers.start..=layers.last();
        let parts = starts.flat_map(|start| file[tile.layer_pixels(start).unwrap()].to_vec());
        assert!(parts.eq(pixels.iter().copied()));
        assert_eq!(tile.layer_pixels(layers.start - 1), None);
        assert_eq!(tile.layer_pixels(layers.last() + 1), None);
    }
}

#[test]
fn a_start_selects_the_tiles_that_have_that_layer() {
    let file = sample("stack.czi");
    for (start, selected, _) in BY_START {
        let starts = along_z(start);
        let found = chosen(&file, &over(&starts, Masks::Off)).unwrap();
        let marks: Vec<Mark> = (0..4)
            .map(|entry| match selected.contains(&entry) {
                true => Mark::Meets,
                false => Mark::NotSelected,
            })
            .collect();
        assert_eq!(found.marks, marks, "{start}");
        assert_eq!(found.selected, selected.len() as u64, "{start}");
    }
    // The other letters select as before, and any scene takes no other layer.
    let mut starts = along_z(6);
    starts[2] = 1;
    assert_eq!(
        chosen(&file, &over(&starts, Masks::Off)).unwrap().selected,
        0
    );
    let any = over(&[], Masks::Off).scene(czi::Scene::Any);
    assert_eq!(chosen(&file, &any).unwrap().selected, 0);
}

/// The plane by the records alone: the tiles of the stack lie in their order.
fn plane_of(file: &[u8], selected: &[usize], start: i32) -> (Vec<u8>, u64) {
    let (mut plane, mut covered) = (vec![255; 22 * 12], [false; 22 * 12]);
    let tiles: Vec<Tile> = czi::tiles(file).unwrap().collect();
    // Tile 2 has no M: it lies below the others.
    for entry in [2, 0, 1].iter().filter(|entry| selected.contains(entry)) {
        let tile = &tiles[*entry];
        let pixels = tile.layer_pixels(start).unwrap_or(tile.pixels.clone());
        let width = tile.x.size as usize;
        for (k, pixel) in file[pixels].iter().enumerate() {
            let (column, row) = (tile.x.start as usize + k % width, k / width);
            let at = (tile.y.start as usize + row) * 22 + column;
            (plane[at], covered[at]) = (*pixel, true);
        }
    }
    let covered = covered.iter().filter(|one| **one).count();
    (plane, covered as u64)
}

#[test]
fn a_plane_has_the_pixels_of_the_layer_that_is_asked_for() {
    let file = sample("stack.czi");
    let mut seen = Vec::new();
    for (start, selected, [off, on]) in BY_START {
        let starts = along_z(start);
        let (wanted, covered) = plane_of(&file, selected, start);
        let plane = compose(&file, &over(&starts, Masks::Off)).unwrap();
        assert_eq!(
            (&plane.target, plane.covered),
            (&wanted, covered),
            "{start}"
        );
        assert_eq!(covered, off, "{start}");
        let question = over(&starts, Masks::On);
        let masked = compose(&file, &question).unwrap();
        assert_eq!(masked.covered, on, "{start}");
        let [mut target, mut map] = [vec![0; 22 * 12], vec![0; 33]];
        let plain = compose_plain(&file, &question, &mut target, &mut map).unwrap();
        assert_eq!(
            (plain.covered, &target, &map),
            (on, &masked.target, &masked.map)
        );
        let quick = compose_quick(&file, &question, &mut target, &mut map).unwrap();
        assert_eq!((quick.covered, quick.stored), (on, on));
        assert_eq!((&target, &map), (&masked.target, &masked.map));
        // Under 1.02 the tile has no mask, in none of its layers.
        let older = Scan::new(&file).release(Release::V1_02);
        assert_eq!(compose(older, &question).unwrap(), plane, "{start}");
        if !selected.is_empty() {
            seen.push(plane.target);
        }
    }
    seen.sort();
    seen.dedup();
    assert_eq!(seen.len(), 4, "each start has another plane");
}

/// The two halves of a window give what the whole gives, in every layer.
#[test]
fn counts_of_halves_add_up() {
    let file = sample("stack.czi");
    for (start, _, [_, on]) in BY_START {
        let starts = along_z(start);
        for cut in 1..22 {
            let half = |left, width| {
                let question = over(&starts, Masks::On).window(left, 0, width, 12);
                compose(&file, &question).unwrap().covered
            };
            assert_eq!(half(0, cut) + half(cut as i32, 22 - cut), on, "{start}");
        }
    }
}

#[test]
fn a_layer_is_quoted() {
    let file = sample("stack.czi");
    for (start, _, [off, on]) in BY_START {
        let starts = along_z(start);
        for (edition, covered) in [("1", off), ("2", on)] {
            let settings = format!("edition={edition}\npitch_x=1.25\npitch_y=2\n");
            let question = over(&starts, Masks::NotChosen);
            let (mut target, mut map, mut sheet) = ([0; 22 * 12], [0; 33], [0; SHEET_MIN]);
            let lent = (&mut target, &mut map, &mut sheet);
            let settings = settings.as_bytes();
            let quoted = quote(&file, &question, settings, lent.0, lent.1, lent.2).unwrap();
            let area = covered * 1250 * 2000;
            let sheet = format!("covered={covered}\narea_nm2={area}\n");
            assert_eq!(quoted.sheet, sheet, "{start}");
        }
    }
}

#[test]
fn a_repacked_stack_has_the_same_layers() {
    let file = sample("stack.czi");
    let clean = czi::repacked(&file).unwrap();
    for (old, new) in czi::tiles(&file).unwrap().zip(czi::tiles(&clean).unwrap()) {
        assert_eq!(old.layers, new.layers);
        assert_eq!(file[old.pixels], clean[new.pixels]);
    }
    for (start, ..) in BY_START {
        let starts = along_z(start);
        let question = over(&starts, Masks::On);
        assert_eq!(compose(&file, &question), compose(&clean, &question));
    }
}

#[test]
fn a_second_letter_with_layers_or_one_before_y_is_11() {
    let file = sample("stack.czi");
    let place = |entry| czi::tile(&file, entry).unwrap().place;
    for (name, entry) in [("stack_of_two.czi", 0), ("stack_before_y.czi", 1)] {
        let refusal = Refusal::new(11, place(entry));
        assert_eq!(czi::judge(&sample(name)), Err(refusal), "{name}");
    }
}

/// The stack with the Z of its first tile made so, in the entry and in its copy.
fn with_z(letter: u8, start: i32, size: i32, stored: i32) -> Vec<u8> {
    let mut file = sample("stack.czi");
    let tile = czi::tile(&file, 0).unwrap();
    for entry in [tile.place as usize, tile.position as usize + 32 + 16] {
        // Behind X, Y and C.
        let z = entry + 32 + 60;
        assert_eq!(file[z], b'Z');
        file[z] = letter;
        for (at, number) in [(4, start), (8, size), (16, stored)] {
            file[z + at..z + at + 4].copy_from_slice(&number.to_le_bytes());
        }
    }
    file
}

#[test]
fn how_many_layers_there_may_be() {
    let tile = czi::tile(&sample("stack.czi"), 0).unwrap();
    let (entry, block) = (tile.place, tile.position);
    let of_entry = Err(Refusal::new(11, entry));
    let of_sizes = Err(Refusal::new(16, block));
    for (start, size, stored, wanted) in [
        (5, 3, 0, Ok(())),
        (i32::MIN, 3, 3, Ok(())),
        (i32::MAX - 3, 3, 3, Ok(())),
        (i32::MAX - 2, 3, 3, of_entry),
        (5, 3, 2, of_entry),
        (5, 3, 1, of_entry),
        (5, 3, 4, of_entry),
        (5, 3, -1, of_entry),
        (5, 0, 0, of_entry),
        (5, -3, 0, of_entry),
        (5, 1025, 0, of_entry),
        (5, i32::MAX - 5, 0, of_entry),
        // There are pixels for three.
        (5, 1, 0, of_sizes),
        (5, 2, 0, of_sizes),
        (5, 4, 4, of_sizes),
        (5, 1024, 0, of_sizes),
        (5, 1024, 1024, of_sizes),
    ] {
        let judged = czi::judge(&with_z(b'Z', start, size, stored));
        assert_eq!(judged, wanted, "{start}, {size}, {stored}");
    }
    // Any letter has them but S and M, which is there twice too.
    for letter in b"ABDEFGHIJKLNOPQRTUVWZ" {
        let file = with_z(*letter, 5, 3, 0);
        let layers = czi::tile(&file, 0).unwrap().layers.unwrap();
        assert_eq!(layers.letter, char::from(*letter));
    }
    for letter in [b'S', b'M'] {
        assert_eq!(czi::judge(&with_z(letter, 5, 3, 0)), of_entry);
    }
}
