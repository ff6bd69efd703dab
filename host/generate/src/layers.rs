//! Layers: the letter along which the tiles of a file have several, and a file cut to one.

use crate::ask::{layer, selects};
use crate::random::Random;
use crate::sound::Sound;
use crate::tile::{Dimension, Tile};
use reference::Question;

/// The letters that may have layers.
pub const LETTERS: &[u8; 22] = b"ABCDEFGHIJKLNOPQRTUVWZ";

/// The most layers that a tile has.
pub const MOST_LAYERS: i32 = 1_024;

/// Where the ranges of a file's tiles lie; a letter that a tile lacks counts as 0.
const NEAR: [i32; 9] = [0, 0, 0, 0, 5, -40, i32::MIN, i32::MAX - 2, i32::MAX - 1];

/// Of a hundred layered tiles with small pixels so many have many layers.
const MANY: u64 = 15;

/// A letter along which tiles of a file have layers.
#[derive(Clone, Copy)]
pub struct Stack {
    /// The letter.
    pub letter: u8,
    /// The ranges begin and end near this start.
    near: i32,
}

impl Stack {
    /// None for every second file, else one letter, seldom two.
    pub fn draw(random: &mut Random) -> Vec<Stack> {
        let count = random.pick(&[0, 0, 0, 0, 0, 1, 1, 1, 1, 2]);
        let mut letters = *LETTERS;
        random.shuffle(&mut letters);
        // A tile with layers along one of two letters lacks the other, or nearly so.
        let near = if count == 1 { random.pick(&NEAR) } else { 0 };
        let stack = |letter: &u8| Stack {
            letter: *letter,
            near,
        };
        letters[..count].iter().map(stack).collect()
    }

    /// The range of a tile with pixels of so many bytes: its start and its size.
    pub fn draw_range(&self, random: &mut Random, pixel: usize) -> (i32, i32) {
        let size = if pixel <= 4 && random.percent(MANY) {
            random.pick(&[16, 17, 256, 1_023, MOST_LAYERS, MOST_LAYERS, MOST_LAYERS])
        } else {
            random.pick(&[2, 2, 2, 3, 3, 4, 5, 7])
        };
        let wanted = i64::from(self.near) - random.between(-1, 2);
        (fitting(wanted, size), size)
    }

    /// The start of a tile without layers.
    pub fn draw_start(&self, random: &mut Random) -> i32 {
        fitting(i64::from(self.near) + random.between(-1, 1), 1)
    }
}

/// The start, moved so that Start + Size is at most 2^31 − 1.
fn fitting(start: i64, size: i32) -> i32 {
    let last = i64::from(i32::MAX - size);
    start.clamp(i64::from(i32::MIN), last) as i32
}

/// A file whose layered tiles hold one layer alone.
pub struct OneLayer {
    /// The file.
    pub bytes: Vec<u8>,
    /// By entry, the number of the layer that its tile holds; 0 where it had none.
    pub numbers: Vec<usize>,
}

impl Sound {
    /// The file that must compose the same as this one for that question: each selected
    /// tile with layers holds the asked one alone, and any other one that is not asked for.
    /// Laid from the plan, without dead segments.
    pub fn cut(&self, question: &Question) -> OneLayer {
        let number = |tile: &Tile| match selects(question, tile) {
            true => layer(question, tile),
            false => not_asked(question, tile),
        };
        let mut cut = self.clone();
        for tile in &mut cut.tiles {
            *tile = tile.cut(number(tile));
        }
        OneLayer {
            bytes: cut.clean(),
            numbers: self.entries.iter().map(|e| number(self.tile(e))).collect(),
        }
    }
}

/// A layer that the question does not ask for, so that the tile stays unselected.
fn not_asked(question: &Question, tile: &Tile) -> usize {
    let Some(d) = tile.layered() else {
        return 0;
    };
    let at = usize::from(d.letter - b'A');
    let asked = question.starts.get(at).copied().unwrap_or(0);
    usize::from(asked == d.start)
}

impl Tile {
    /// The dimension that has layers, if there is one.
    pub fn layered(&self) -> Option<&Dimension> {
        let mut others = self
            .dimensions
            .iter()
            .filter(|d| !b"XY".contains(&d.letter));
        others.find(|d| d.size > 1)
    }

    /// How many layers there are; 1 where the tile has none.
    pub fn layers(&self) -> usize {
        self.layered().map_or(1, |d| d.size as usize)
    }

    /// The pixels of the layer of that number.
    pub fn layer(&self, number: usize) -> &[u8] {
        let length = self.pixels.len() / self.layers();
        &self.pixels[number * length..][..length]
    }

    /// The tile with that layer alone.
    fn cut(&self, number: usize) -> Tile {
        let mut tile = self.clone();
        tile.pixels = self.layer(number).to_vec();
        for d in &mut tile.dimensions {
            if self
                .layered()
                .is_some_and(|layered| layered.letter == d.letter)
            {
                d.start += number as i32;
                d.size = 1;
                d.stored_size = d.stored_size.min(1);
            }
        }
        tile
    }
}

#[cfg(test)]
mod tests {
    use super::*;
    use crate::ask::draw;
    use crate::sound;
    use reference::{judge, Release};

    #[test]
    fn all_letters_but_four() {
        let all = (b'A'..=b'Z').filter(|letter| !b"XYMS".contains(letter));
        assert_eq!(all.collect::<Vec<_>>(), LETTERS);
    }

    #[test]
    fn a_cut_file_has_one_layer_of_each_tile() {
        let mut past_the_first = 0;
        for seed in 0..300 {
            let sound = sound(seed);
            let question = draw(&sound, &mut Random::new(seed)).question;
            let cut = sound.cut(&question);
            let file = judge(&sound.bytes, Release::V1_2).expect("an accepted file");
            let one = judge(&cut.bytes, Release::V1_2).expect("an accepted file");
            assert_eq!(one.chosen(&question), file.chosen(&question), "seed {seed}");
            for (entry, (tile, number)) in
                sound.entries.iter().zip(one.tiles.iter().zip(cut.numbers))
            {
                let planned = sound.tile(entry);
                assert_eq!(tile.layers, None);
                assert_eq!(tile.pixels.of(&cut.bytes), planned.layer(number));
                assert_eq!(
                    planned.layer(number).len() * planned.layers(),
                    planned.pixels.len()
                );
                past_the_first += u32::from(number > 0);
            }
        }
        assert!(past_the_first > 20, "{past_the_first}");
    }
}
