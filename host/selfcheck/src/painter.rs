//! A composer of another make: it paints the tiles one over the other, from
//! the plan and not from the file.

use generate::ask::{layer, meets, selects, Ask};
use generate::{bytes_a_pixel, Chunk, Sound, Tile};
use reference::Release;

/// What a painter leaves.
#[derive(Clone, Debug, PartialEq, Eq)]
pub struct Painting {
    pub target: Vec<u8>,
    pub map: Vec<u8>,
    pub covered: u64,
    pub stored: u64,
}

impl Painting {
    /// Buffers as they are lent, nothing counted.
    pub fn lent(ask: &Ask) -> Painting {
        Painting {
            target: vec![0x5A; ask.target],
            map: vec![0xA5; ask.map],
            covered: 0,
            stored: 0,
        }
    }
}

/// Paints an answered question, the lowest tile first.
pub fn paint(sound: &Sound, ask: &Ask, release: Release) -> Painting {
    let question = &ask.question;
    let mut painting = Painting::lent(ask);
    let pixels = question.pixels() as usize;
    let background = question.background.repeat(pixels);
    painting.target[..background.len()].copy_from_slice(&background);
    painting.map[..pixels.div_ceil(8)].fill(0);
    let tiles = sound.entries.iter().map(|e| sound.tile(e));
    let mut tiles: Vec<&Tile> = tiles
        .filter(|t| selects(question, t) && meets(question, t))
        .collect();
    // Stable: at a tie the later entry stays later. None is less than any M.
    tiles.sort_by_key(|t| t.m());
    for tile in tiles {
        paint_tile(&mut painting, ask, tile, release);
    }
    let ones = |byte: &u8| u64::from(byte.count_ones());
    painting.covered = painting.map[..pixels.div_ceil(8)].iter().map(ones).sum();
    painting
}

fn paint_tile(painting: &mut Painting, ask: &Ask, tile: &Tile, release: Release) {
    let question = &ask.question;
    let pixel = bytes_a_pixel(tile.pixel_type);
    let mask = tile.chunks().and_then(|c| c.iter().find(|k| k.is_mask()));
    // Under 1.02 masks on means the same as masks off.
    let masks_on = question.masks_on() && release == Release::V1_2;
    let pixels = tile.layer(layer(question, tile));
    for (k, bytes) in pixels.chunks(pixel).enumerate() {
        let (column, row) = (k % tile.x().size as usize, k / tile.x().size as usize);
        let x = i64::from(tile.x().start) + column as i64 - i64::from(question.left);
        let y = i64::from(tile.y().start) + row as i64 - i64::from(question.top);
        let in_window = (0..i64::from(question.width)).contains(&x)
            && (0..i64::from(question.height)).contains(&y);
        let hidden = masks_on && mask.is_some_and(|m| !is_valid(m, column, row));
        if in_window && !hidden {
            let index = y as usize * question.width as usize + x as usize;
            painting.target[index * pixel..(index + 1) * pixel].copy_from_slice(bytes);
            painting.map[index / 8] |= 1 << (7 - index % 8);
            painting.stored += 1;
        }
    }
}

/// Is the pixel's bit in the mask set?
fn is_valid(mask: &Chunk, column: usize, row: usize) -> bool {
    let shape = mask.shape.expect("a mask has a shape");
    if column >= shape.width as usize || row >= shape.height as usize {
        return false;
    }
    let line = &mask.payload[16 + row * shape.stride as usize..];
    line[column / 8] & (0x80 >> (column % 8)) != 0
}
