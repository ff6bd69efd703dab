//! What the tiles of one file have in common, and tiles drawn on it.

use crate::container::{draw_chunks, draw_plain};
use crate::format::{bytes_a_pixel, PIXEL_TYPES};
use crate::layers::Stack;
use crate::markup::Metadata;
use crate::random::Random;
use crate::tile::{Attached, Dimension, Tile};

/// A tile's pixels take about this many bytes at most.
const PIXEL_BUDGET: usize = 480;

/// Starts that a letter other than X, Y and M may have.
const STARTS: [i32; 9] = [0, 0, 0, 1, 2, 7, -1, i32::MIN, i32::MAX - 1];

/// Starts that M may have; some twice, for ties.
const M_STARTS: [i32; 9] = [-1, 0, 0, 1, 4, 4, 4, i32::MIN, i32::MAX - 1];

/// The choices that tiles of one file share.
pub struct Canvas {
    left: i32,
    top: i32,
    /// Letters other than X, Y and M, with the start that most tiles have.
    letters: Vec<(u8, i32)>,
    /// Letters along which tiles have layers.
    stacks: Vec<Stack>,
    /// Of a hundred tiles so many have layers, where there is such a letter.
    layered: u64,
    /// Of a hundred tiles so many have an M.
    with_m: u64,
    pixel_type: i32,
    /// Of a hundred tiles so many have a type of their own.
    mixed: u64,
}

impl Canvas {
    /// Draws the choices.
    pub fn draw(random: &mut Random) -> Canvas {
        let stacks = Stack::draw(random);
        let is_free = |l: &u8| !b"XYM".contains(l) && stacks.iter().all(|stack| stack.letter != *l);
        let mut others: Vec<u8> = (b'A'..=b'Z').filter(is_free).collect();
        random.shuffle(&mut others);
        // With few letters one question selects several tiles.
        others.truncate(match stacks.is_empty() {
            true => random.pick(&[0, 0, 1, 2, 3, 4, 6, 8, 9, 13, 14]),
            false => random.pick(&[0, 0, 0, 0, 1, 2, 4, 8, 13]),
        });
        if !others.is_empty() && !others.contains(&b'S') && random.percent(40) {
            others[0] = b'S';
        }
        Canvas {
            left: corner(random),
            top: corner(random),
            letters: others.iter().map(|&l| (l, random.pick(&STARTS))).collect(),
            stacks,
            layered: random.pick(&[60, 60, 100]),
            with_m: random.pick(&[0, 70, 100]),
            pixel_type: random.pick(&PIXEL_TYPES).0,
            mixed: random.pick(&[0, 0, 30]),
        }
    }

    /// Draws a tile.
    pub fn draw_tile(&self, random: &mut Random) -> Tile {
        let pixel_type = if random.percent(self.mixed) {
            random.pick(&PIXEL_TYPES).0
        } else {
            self.pixel_type
        };
        let dimensions = self.draw_dimensions(random, bytes_a_pixel(pixel_type));
        let mut tile = Tile {
            pixel_type,
            pyramid: random.pick(&[0, 0, 1, 2, 255]),
            dimensions,
            metadata: Metadata::default(),
            pixels: Vec::new(),
            attached: Attached::Plain(Vec::new()),
        };
        tile.pixels = random.bytes(tile.data_size());
        let (width, height) = (tile.x().stored(), tile.y().stored());
        tile.metadata = match random.below(10) {
            0..=4 => Metadata::declaring(random),
            5 | 6 => Metadata::none(),
            _ => Metadata::other(random),
        };
        tile.attached = match tile.metadata.declares {
            true => Attached::Container(draw_chunks(random, width, height)),
            false => Attached::Plain(draw_plain(random, width, height)),
        };
        if tile.metadata.lacks_last {
            // The pixels complete what the metadata leave out.
            tile.pixels[0] = b'>';
        }
        tile
    }

    /// The dimensions of a tile: X before Y, layers behind Y, others anywhere.
    fn draw_dimensions(&self, random: &mut Random, pixel: usize) -> Vec<Dimension> {
        let stack = match random.percent(self.layered) {
            true => random.pick_from(self.stacks.clone()),
            false => None,
        };
        let layers = stack.map(|stack| draw_layers(&stack, random, pixel));
        let mut dimensions = self.draw_others(random, layers.as_ref());
        random.shuffle(&mut dimensions);
        let layer = pixel * layers.map_or(1, |d| d.size as usize);
        let (x, y) = self.draw_sides(random, layer);
        let at_x = random.below(dimensions.len() + 1);
        dimensions.insert(at_x, x);
        let at_y = at_x + 1 + random.below(dimensions.len() - at_x);
        dimensions.insert(at_y, y);
        if let Some(layers) = layers {
            let behind = at_y + 1 + random.below(dimensions.len() - at_y);
            dimensions.insert(behind, layers);
        }
        dimensions
    }

    /// Letters other than X, Y and that of the layers, at most 14 with it.
    fn draw_others(&self, random: &mut Random, layers: Option<&Dimension>) -> Vec<Dimension> {
        let mut starts = self.letters.clone();
        // A letter that the tile lacks counts as 0.
        starts.retain(|&(_, start)| start != 0 || random.percent(70));
        if !starts.is_empty() && random.percent(20) {
            let at = random.below(starts.len());
            starts[at].1 = random.pick(&STARTS);
        }
        if let Some(scene) = starts.iter_mut().find(|s| s.0 == b'S') {
            if random.percent(40) {
                scene.1 = random.between(0, 2) as i32;
            }
        }
        // A letter along which others have layers: the tile lacks it, or has one of them.
        for stack in &self.stacks {
            if layers.is_none_or(|d| d.letter != stack.letter) && random.percent(50) {
                starts.insert(0, (stack.letter, stack.draw_start(random)));
            }
        }
        let most = 14 - usize::from(layers.is_some());
        starts.truncate(most);
        if random.percent(self.with_m) {
            starts.truncate(most - 1);
            starts.push((b'M', random.pick(&M_STARTS)));
        }
        let other = |&(letter, start): &(u8, i32)| Dimension {
            letter,
            start,
            size: 1,
            coordinate: coordinate(random),
            stored_size: random.pick(&[0, 1]),
        };
        starts.iter().map(other).collect()
    }

    /// X and Y.
    fn draw_sides(&self, random: &mut Random, pixel: usize) -> (Dimension, Dimension) {
        let most = (PIXEL_BUDGET / pixel).max(1);
        let stored_x = 1 + random.below(most.min(11));
        let stored_y = 1 + random.below((most / stored_x).clamp(1, 11));
        let (stored_x, stored_y) = (stored_x as i32, stored_y as i32);
        let (size_x, size_y) = if random.percent(15) {
            pyramid_sizes(random, stored_x, stored_y)
        } else {
            (stored_x, stored_y)
        };
        let x = side(random, b'X', self.left, size_x, stored_x);
        let y = side(random, b'Y', self.top, size_y, stored_y);
        (x, y)
    }
}

/// The dimension of a tile that has layers.
fn draw_layers(stack: &Stack, random: &mut Random, pixel: usize) -> Dimension {
    let (start, size) = stack.draw_range(random, pixel);
    Dimension {
        letter: stack.letter,
        start,
        size,
        coordinate: coordinate(random),
        stored_size: random.pick(&[0, size]),
    }
}

/// Near this the tiles of a file stand, along X or Y.
fn corner(random: &mut Random) -> i32 {
    let any = random.word() as i32 / 2;
    random.pick(&[0, 0, 0, -7, 1000, i32::MIN, i32::MAX - 14, any])
}

/// Sizes that make a pyramid tile of those stored sizes.
fn pyramid_sizes(random: &mut Random, x: i32, y: i32) -> (i32, i32) {
    match random.below(5) {
        0 => (x * 2, y * 2),
        1 => (x + 1, y),
        2 => (x, y * 3),
        3 if x > 1 => (x - 1, y),
        _ => (i32::MAX, i32::MAX - 1),
    }
}

/// A dimension of that size, moved so that Start + Size is at most 2^31 − 1.
fn side(random: &mut Random, letter: u8, corner: i32, size: i32, stored: i32) -> Dimension {
    let wanted = i64::from(corner) + random.between(0, 11);
    let start = wanted.min(i64::from(i32::MAX) - i64::from(size)) as i32;
    let written = if stored == size {
        random.pick(&[0, stored])
    } else {
        stored
    };
    Dimension {
        letter,
        start,
        size,
        coordinate: coordinate(random),
        stored_size: written,
    }
}

/// The bits of a float: zeros, ordinary ones, not-a-numbers of both kinds.
fn coordinate(random: &mut Random) -> u32 {
    let any = random.word() as u32;
    let known = [
        0,
        0x8000_0000,
        0x3F80_0000,
        0x7FC0_0000,
        0x7F80_0001,
        0xFFFF_FFFF,
    ];
    if random.percent(60) {
        random.pick(&known)
    } else {
        any
    }
}
