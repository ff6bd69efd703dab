//! Questions that pass 20, 21 and 22: windows at, over and beside tiles.

use super::Ask;
use crate::format::{bytes_a_pixel, PIXEL_TYPES};
use crate::random::Random;
use crate::sound::Sound;
use crate::tile::{Dimension, Tile};
use reference::{Masks, Question};

/// A window side is at most so long.
const LONGEST_SIDE: u32 = 65_536;

/// A question about the file, mostly about one of its tiles.
pub fn draw(sound: &Sound, random: &mut Random) -> Ask {
    let listed: Vec<&Tile> = sound.entries.iter().map(|e| sound.tile(e)).collect();
    let full = listed.iter().copied().filter(|t| !t.is_pyramid_tile());
    let base = match random.pick_from(full.collect()) {
        Some(tile) if random.percent(95) => Some(tile),
        _ => random.pick_from(listed),
    };
    let pixel_type = match base {
        Some(tile) if random.percent(93) => tile.pixel_type,
        _ => random.pick(&PIXEL_TYPES).0,
    };
    about(base, pixel_type, random)
}

/// A question about a tile, asking for that type.
pub(super) fn about(base: Option<&Tile>, pixel_type: i32, random: &mut Random) -> Ask {
    let (left, width) = draw_span(base.map(Tile::x), random);
    let (top, height) = draw_span(base.map(Tile::y), random);
    let mut ask = Ask {
        question: Question {
            starts: draw_starts(base, random),
            any_scene: random.percent(25),
            pixel_type: pixel_type as u32,
            background: random.bytes(bytes_a_pixel(pixel_type)),
            left,
            top,
            width,
            height,
            masks: random.pick(&[Masks::On, Masks::On, Masks::Off, Masks::NotChosen]),
        },
        target: 0,
        map: 0,
    };
    lengthen(&mut ask.question, random);
    lend(&mut ask, random);
    ask
}

/// Buffers that are exactly long enough or longer.
pub(super) fn lend(ask: &mut Ask, random: &mut Random) {
    ask.target = ask.target_needed() + random.pick(&[0, 0, 0, 1, 7, 40]);
    ask.map = ask.map_needed() + random.pick(&[0, 0, 0, 1, 3, 9]);
}

/// One window in two hundred gets a side of 65,536 and another of 1.
fn lengthen(question: &mut Question, random: &mut Random) {
    if random.below(200) != 0 {
        return;
    }
    (question.width, question.height) = random.pick(&[(LONGEST_SIDE, 1), (1, LONGEST_SIDE)]);
    question.left = fitting(question.left.into(), question.width);
    question.top = fitting(question.top.into(), question.height);
}

/// The starts of the tile, sometimes with one changed; as short as can be, 26, or longer.
pub(super) fn draw_starts(base: Option<&Tile>, random: &mut Random) -> Vec<i32> {
    let mut starts = vec![0; 26];
    for d in base.map_or(&[][..], |tile| &tile.dimensions) {
        if !b"XYM".contains(&d.letter) {
            starts[usize::from(d.letter - b'A')] = match d.size {
                1 => d.start,
                _ => at_layer(d, random),
            };
        }
    }
    if random.percent(8) {
        let letter = random.below(26);
        starts[letter] = random.pick(&[0, 1, 2, -1, i32::MIN]);
    }
    match random.below(3) {
        0 => while starts.pop_if(|last| *last == 0).is_some() {},
        1 => {}
        _ => {
            // Of X, Y and M and past Z any number is ignored.
            for ignored in b"XYM" {
                starts[usize::from(ignored - b'A')] = random.not_zero();
            }
            let more = random.pick(&[0, 1, 5]);
            starts.extend((0..more).map(|_| random.not_zero()));
        }
    }
    starts
}

/// A start at a layer, most of them the first or the last; one before them, or one past.
fn at_layer(d: &Dimension, random: &mut Random) -> i32 {
    let last = d.start + (d.size - 1);
    match random.below(12) {
        0 => d.start.saturating_sub(1),
        1 => last + 1,
        2..=4 => d.start,
        5..=7 => last,
        8 if d.start < 0 && 0 <= last => 0,
        _ => random.between(d.start.into(), last.into()) as i32,
    }
}

/// How a window lies along X or Y.
#[derive(Clone, Copy)]
enum Aim {
    /// It shares a column or row with the tile.
    Meet,
    /// It ends where the tile begins, or begins where it ends.
    Beside,
    /// It begins or ends where the plane does.
    Edge,
}

fn draw_aim(random: &mut Random) -> Aim {
    match random.below(20) {
        0 => Aim::Beside,
        1 => Aim::Edge,
        _ => Aim::Meet,
    }
}

/// A stretch of columns or rows, its first and its length.
fn draw_span(side: Option<&Dimension>, random: &mut Random) -> (i32, u32) {
    let (start, size) = side.map_or((0, 5), |d| (d.start, d.size.min(20)));
    let (start, size) = (i64::from(start), i64::from(size));
    let (first, length) = match draw_aim(random) {
        Aim::Meet => meeting_span(start, size, random),
        Aim::Beside => {
            let length = random.between(1, 9);
            (random.pick(&[start - length, start + size]), length)
        }
        Aim::Edge => {
            let length = random.between(1, 24);
            let last = i64::from(i32::MAX) - length;
            (random.pick(&[i64::from(i32::MIN), last]), length)
        }
    };
    let length = length as u32;
    (fitting(first, length), length)
}

/// A stretch that is the tile's, holds it, lies in it or cuts it.
fn meeting_span(start: i64, size: i64, random: &mut Random) -> (i64, i64) {
    match random.below(6) {
        0 => (start, size),
        1 => {
            let before = random.between(0, 5);
            (start - before, before + size + random.between(0, 5))
        }
        2 => {
            let first = random.between(0, size - 1);
            (start + first, random.between(1, size - first))
        }
        _ => {
            let length = random.between(1, 18);
            (start + random.between(1 - length, size - 1), length)
        }
    }
}

/// The first column or row of that stretch, moved into the plane.
fn fitting(first: i64, length: u32) -> i32 {
    let last = i64::from(i32::MAX) - i64::from(length);
    first.clamp(i64::from(i32::MIN), last) as i32
}
