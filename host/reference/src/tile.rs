//! Tiles: an entry of the sub-block directory with what its sub-block holds.

use crate::bytes::View;
use crate::chunk::Mask;
use crate::entry::{Dimension, Entry};
use crate::sub_block::SubBlock;

/// How a tile lies along X or Y.
#[derive(Clone, Copy, Debug, Default, PartialEq, Eq)]
pub struct Extent {
    /// Start.
    pub start: i32,
    /// Size.
    pub size: i32,
    /// StoredSize, or Size where that is 0.
    pub stored: i32,
}

impl Extent {
    /// The first coordinate after the tile.
    pub fn end(&self) -> i64 {
        i64::from(self.start) + i64::from(self.size)
    }
}

/// The letter besides X, Y, M and S along which a tile has several layers.
#[derive(Clone, Copy, Debug, PartialEq, Eq)]
pub struct Layers {
    /// The letter.
    pub letter: u8,
    /// Where its first layer is.
    pub start: i32,
    /// How many there are, 2 to 1,024.
    pub size: i32,
}

impl Layers {
    /// The number of the layer at that start, counted from 0, if it lies in the range.
    pub(crate) fn at(&self, start: i32) -> Option<u64> {
        let number = i64::from(start) - i64::from(self.start);
        (0..i64::from(self.size))
            .contains(&number)
            .then_some(number as u64)
    }
}

/// The tile record, with all of its dimensions.
#[derive(Clone, Debug, PartialEq, Eq)]
pub struct Tile {
    /// The entry's number, counted from 0.
    pub number: u64,
    /// The entry's place in the file.
    pub place: u64,
    /// The pixel type.
    pub pixel_type: u32,
    /// Bytes a pixel, by that type.
    pub bytes_a_pixel: u64,
    /// FilePosition, the place of the sub-block.
    pub file_position: u64,
    /// The pyramid byte, which is not judged.
    pub pyramid: u8,
    /// X.
    pub x: Extent,
    /// Y.
    pub y: Extent,
    /// The start of M, if the entry has an M.
    pub m: Option<i32>,
    /// The layers, if there are several.
    pub layers: Option<Layers>,
    /// The pixels, of all layers.
    pub pixels: View,
    /// The sub-block's metadata.
    pub metadata: View,
    /// The sub-block's attachment.
    pub attachment: View,
    /// The mask, if there is one; it serves each layer.
    pub mask: Option<Mask>,
    /// All dimensions in the entry's order.
    pub dimensions: Vec<Dimension>,
}

impl Tile {
    pub(crate) fn new(number: u64, entry: Entry, sub_block: SubBlock) -> Tile {
        Tile {
            number,
            place: entry.place,
            pixel_type: entry.pixel_type as u32,
            bytes_a_pixel: entry.bytes_a_pixel,
            file_position: entry.file_position as u64,
            pyramid: entry.pyramid,
            x: extent(&entry, b'X'),
            y: extent(&entry, b'Y'),
            m: entry.find(b'M').map(|d| d.start),
            layers: entry.layered().map(|d| Layers {
                letter: d.letter,
                start: d.start,
                size: d.size,
            }),
            pixels: sub_block.pixels,
            metadata: sub_block.metadata,
            attachment: sub_block.attachment,
            mask: sub_block.mask,
            dimensions: entry.dimensions,
        }
    }

    /// A tile is a pyramid tile unless stored X and Y equal Size.
    pub fn is_pyramid_tile(&self) -> bool {
        self.x.stored != self.x.size || self.y.stored != self.y.size
    }

    /// Does the tile lie at that start of a letter: in its range where it has layers along
    /// the letter, else where it starts? A letter that it lacks counts as 0.
    pub fn lies_at(&self, letter: u8, start: i32) -> bool {
        match self.layers {
            Some(layers) if layers.letter == letter => layers.at(start).is_some(),
            _ => {
                let found = self.dimensions.iter().find(|d| d.letter == letter);
                found.map_or(0, |d| d.start) == start
            }
        }
    }
}

fn extent(entry: &Entry, letter: u8) -> Extent {
    entry.find(letter).map_or(Extent::default(), |d| Extent {
        start: d.start,
        size: d.size,
        stored: d.stored,
    })
}
