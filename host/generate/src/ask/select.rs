//! Which tiles a question selects and meets, written here a second time.

use super::Ask;
use crate::sound::{EntryPlace, Sound};
use crate::tile::{Dimension, Tile};
use reference::Question;

/// Does the question select the tile?
pub fn selects(question: &Question, tile: &Tile) -> bool {
    if tile.is_pyramid_tile() {
        return false;
    }
    let mut left = [0; 26];
    let given = question.starts.len().min(26);
    left[..given].copy_from_slice(&question.starts[..given]);
    for d in &tile.dimensions {
        // What is left is what the question asks and the tile does not have: a tile has
        // as many starts along a letter as its Size.
        let asked = &mut left[usize::from(d.letter - b'A')];
        *asked = i32::from(!(0..i64::from(d.size)).contains(&past(d, *asked)));
    }
    for ignored in b"XYM" {
        left[usize::from(ignored - b'A')] = 0;
    }
    if question.any_scene {
        left[usize::from(b'S' - b'A')] = 0;
    }
    left == [0; 26]
}

/// The number of the layer that a selected tile gives; 0 where it has none.
pub fn layer(question: &Question, tile: &Tile) -> usize {
    tile.layered().map_or(0, |d| {
        let at = usize::from(d.letter - b'A');
        past(d, question.starts.get(at).copied().unwrap_or(0)) as usize
    })
}

/// How far a start lies past that of a dimension.
fn past(d: &Dimension, start: i32) -> i64 {
    i64::from(start) - i64::from(d.start)
}

/// Does the tile's rectangle share a pixel with the window?
pub fn meets(question: &Question, tile: &Tile) -> bool {
    meets_span(question.left, question.width, tile.x())
        && meets_span(question.top, question.height, tile.y())
}

fn meets_span(first: i32, length: u32, d: &Dimension) -> bool {
    let (first, start) = (i64::from(first), i64::from(d.start));
    let end = (first + i64::from(length)).min(start + i64::from(d.size));
    first.max(start) < end
}

/// The first entry that is selected, meets the window and has another type.
pub fn first_of_another_type<'a>(sound: &'a Sound, ask: &Ask) -> Option<&'a EntryPlace> {
    let question = &ask.question;
    sound.entries.iter().find(|entry| {
        let tile = sound.tile(entry);
        selects(question, tile)
            && meets(question, tile)
            && tile.pixel_type as u32 != question.pixel_type
    })
}
