//! Records: a tile, a dimension, the figures of a file.

use crate::calls::{DimensionRecord, Figures, Span, TileRecord};
use crate::pixel::PixelType;
use std::ops::Range;

/// How a tile lies along X or Y.
#[derive(Clone, Copy, Debug, PartialEq, Eq)]
pub struct Extent {
    /// Start.
    pub start: i32,
    /// Size.
    pub size: u64,
    /// The stored size: StoredSize, where 0 is read as Size.
    pub stored: u64,
}

/// Several planes of a tile's pixels in one sub-block, such as the focal planes of
/// a stack. A question selects the tile by the start of any of them, and gets the
/// pixels of that one.
#[derive(Clone, Copy, Debug, PartialEq, Eq)]
pub struct Layers {
    /// The letter along which they lie, none of X, Y, M and S.
    pub letter: char,
    /// The start of the first.
    pub start: i32,
    /// How many they are: 2 to 1,024.
    pub size: u64,
}

impl Layers {
    /// The start of the last.
    pub fn last(&self) -> i32 {
        (i64::from(self.start) + self.size as i64 - 1) as i32
    }
}

/// A tile's valid-pixel mask, which is that of each of its layers.
#[derive(Clone, Copy, Debug, PartialEq, Eq)]
pub struct Mask {
    /// Where its chunk's header stands; the lines are from 36 bytes later on.
    pub place: u64,
    /// Width in pixels.
    pub width: u64,
    /// Height in pixels.
    pub height: u64,
    /// Bytes a line.
    pub stride: u64,
}

/// The record of a tile.
#[derive(Clone, Debug, PartialEq, Eq)]
pub struct Tile {
    /// The number of its entry, from 0.
    pub entry: u64,
    /// Where the entry stands.
    pub place: u64,
    /// The pixel type.
    pub pixel_type: PixelType,
    /// Where its sub-block stands.
    pub position: u64,
    /// The pyramid byte, not judged.
    pub pyramid: u8,
    /// How many dimensions it has.
    pub dimensions: u64,
    /// X.
    pub x: Extent,
    /// Y.
    pub y: Extent,
    /// The start of M, if it has one.
    pub m: Option<i32>,
    /// Its layers, if it has any.
    pub layers: Option<Layers>,
    /// The offsets of its sub-block's metadata.
    pub metadata: Range<usize>,
    /// The offsets of its pixels: of all of its layers, one behind the other.
    pub pixels: Range<usize>,
    /// The offsets of its sub-block's attachment.
    pub attachment: Range<usize>,
    /// Its mask, if it has one.
    pub mask: Option<Mask>,
}

impl Tile {
    /// Is it a pyramid tile, which no plane shows and no box counts?
    pub fn is_pyramid_tile(&self) -> bool {
        self.x.stored != self.x.size || self.y.stored != self.y.size
    }

    /// The offsets of the pixels of the layer that starts there; nothing where the
    /// tile has no such layer, or no layers.
    ///
    /// ```
    /// # fn main() -> Result<(), Box<dyn std::error::Error>> {
    /// let file = std::fs::read("../samples/stack.czi")?;
    /// let tile = czi::tile(&file, 0)?;
    /// let layers = tile.layers.ok_or("one plane")?;
    /// assert_eq!((layers.letter, layers.start, layers.last()), ('Z', 5, 7));
    /// let middle = tile.layer_pixels(6).ok_or("no such layer")?;
    /// assert_eq!(file[middle].len() * 3, czi::tile_pixels(&file, 0)?.len());
    /// # Ok(())
    /// # }
    /// ```
    pub fn layer_pixels(&self, start: i32) -> Option<Range<usize>> {
        let layers = self.layers?;
        let before = u64::try_from(i64::from(start) - i64::from(layers.start)).ok()?;
        if before >= layers.size {
            return None;
        }
        let length = self.pixels.len() / layers.size as usize;
        let from = self.pixels.start + before as usize * length;
        Some(from..from + length)
    }
}

/// The record of a dimension.
#[derive(Clone, Copy, Debug, PartialEq)]
pub struct Dimension {
    /// One of A to Z.
    pub letter: char,
    /// Start.
    pub start: i32,
    /// Size.
    pub size: u64,
    /// StartCoordinate, its bits unchanged; it may be a not-a-number.
    pub coordinate: f32,
    /// The stored size: StoredSize, where 0 is read as Size.
    pub stored: u64,
}

/// The box over all tiles that are no pyramid tiles; right and bottom exclusive.
#[derive(Clone, Copy, Debug, PartialEq, Eq)]
pub struct Edges {
    /// The least X Start.
    pub left: i32,
    /// The least Y Start.
    pub top: i32,
    /// The greatest X Start + Size.
    pub right: i32,
    /// The greatest Y Start + Size.
    pub bottom: i32,
}

/// The figures of a file.
#[derive(Clone, Copy, Debug, PartialEq, Eq)]
pub struct Summary {
    /// The file's length.
    pub bytes: u64,
    /// The walked segments.
    pub segments: u64,
    /// The entries of the sub-block directory.
    pub tiles: u64,
    /// The entries of the attachment directory.
    pub attachments: u64,
    /// The box, where a tile is no pyramid tile.
    pub edges: Option<Edges>,
}

impl Edges {
    /// Right less left.
    pub fn width(&self) -> u32 {
        self.right.abs_diff(self.left)
    }

    /// Bottom less top.
    pub fn height(&self) -> u32 {
        self.bottom.abs_diff(self.top)
    }
}

impl Span {
    /// The offsets in the file; nothing where the end is above any offset,
    /// which that of no part of a file is.
    pub fn range(self) -> Option<Range<usize>> {
        let start = usize::try_from(self.start).ok()?;
        let length = usize::try_from(self.length).ok()?;
        Some(start..start.checked_add(length)?)
    }
}

impl TileRecord {
    /// The same with names; nothing where its type is not a listed one or a
    /// part has no end, which is so of no tile of an accepted file.
    pub fn named(&self) -> Option<Tile> {
        let n = &self.numbers;
        let [x, y, m, layer] = self.starts;
        let extent = |start, at: usize| Extent {
            start,
            size: n[at],
            stored: n[at + 1],
        };
        let range = |at: usize| {
            Span {
                start: n[at],
                length: n[at + 1],
            }
            .range()
        };
        Some(Tile {
            entry: n[0],
            place: n[1],
            pixel_type: PixelType::of_number(n[2])?,
            position: n[3],
            pyramid: n[4] as u8,
            dimensions: n[5],
            x: extent(x, 6),
            y: extent(y, 8),
            m: (n[10] != 0).then_some(m),
            layers: (n[22] != 0).then_some(Layers {
                letter: char::from(n[22] as u8),
                start: layer,
                size: n[23],
            }),
            metadata: range(11)?,
            pixels: range(13)?,
            attachment: range(15)?,
            mask: (n[17] != 0).then_some(Mask {
                place: n[18],
                width: n[19],
                height: n[20],
                stride: n[21],
            }),
        })
    }
}

impl DimensionRecord {
    /// The same with a letter and a float.
    pub fn named(&self) -> Dimension {
        Dimension {
            letter: char::from(self.letter as u8),
            start: self.start,
            size: self.size,
            coordinate: f32::from_bits(self.coordinate_bits),
            stored: self.stored,
        }
    }
}

impl Figures {
    /// The same with a box or none.
    pub fn named(&self) -> Summary {
        let [left, top, right, bottom] = self.corners;
        Summary {
            bytes: self.bytes,
            segments: self.segments,
            tiles: self.tiles,
            attachments: self.attachments,
            edges: (self.has_box != 0).then_some(Edges {
                left,
                top,
                right,
                bottom,
            }),
        }
    }
}

#[cfg(test)]
mod tests {
    use super::{Edges, Layers, Span, Tile, TileRecord};

    #[test]
    fn a_range_does_not_wrap() {
        let range = |start, length| Span { start, length }.range();
        assert_eq!(range(3, 4), Some(3..7));
        assert_eq!(range(u64::MAX, 0), Some(usize::MAX..usize::MAX));
        assert_eq!(range(u64::MAX, 1), None);
        assert_eq!(range(2, u64::MAX), None);
    }

    /// A tile with 60 bytes of pixels from 100 on.
    fn tile(letter: u64, start: i32, size: u64) -> Tile {
        let mut record = TileRecord::default();
        (record.numbers[13], record.numbers[14]) = (100, 60);
        (record.numbers[22], record.numbers[23]) = (letter, size);
        record.starts[3] = start;
        record.named().expect("type 0 is listed")
    }

    #[test]
    fn a_layer_has_its_part_of_the_pixels() {
        let stack = tile(b'Z'.into(), -1, 3);
        let (letter, start, size) = ('Z', -1, 3);
        assert_eq!(
            stack.layers,
            Some(Layers {
                letter,
                start,
                size
            })
        );
        for (start, wanted) in [
            (-2, None),
            (-1, Some(100..120)),
            (0, Some(120..140)),
            (1, Some(140..160)),
            (2, None),
            (i32::MIN, None),
            (i32::MAX, None),
        ] {
            assert_eq!(stack.layer_pixels(start), wanted, "{start}");
        }
        let plane = tile(0, 0, 0);
        assert_eq!((plane.layers, plane.layer_pixels(0)), (None, None));
    }

    #[test]
    fn the_last_layer_of_the_plane_does_not_wrap() {
        for (start, size, last) in [
            (i32::MAX - 2, 2, i32::MAX - 1),
            (i32::MIN, 1024, i32::MIN + 1023),
        ] {
            let stack = tile(b'T'.into(), start, size);
            assert_eq!(stack.layers.map(|layers| layers.last()), Some(last));
            assert!(stack.layer_pixels(last).is_some());
        }
    }

    #[test]
    fn the_widest_box_has_its_sides() {
        let widest = Edges {
            left: i32::MIN,
            top: -1,
            right: i32::MAX,
            bottom: 1,
        };
        assert_eq!((widest.width(), widest.height()), (u32::MAX, 2));
    }
}
