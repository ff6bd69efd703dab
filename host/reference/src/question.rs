//! The question that a composer answers: which tiles, which window, which pixels.

use crate::judge::File;
use crate::tile::{Layers, Tile};

/// What a question makes of a tile.
#[derive(Clone, Copy, Debug, PartialEq, Eq)]
pub enum Chosen {
    /// It is not selected.
    Not,
    /// It is selected, and covers no pixel of the window.
    Selected,
    /// It is selected and covers a pixel of the window.
    Meets,
}

/// The choice of masks.
#[derive(Clone, Copy, Debug, PartialEq, Eq)]
pub enum Masks {
    /// The question does not choose; masks are off unless asked for.
    NotChosen,
    /// Invalid pixels of a tile are not given.
    On,
    /// Masks are left aside.
    Off,
}

/// A question, as the C interface puts it.
#[derive(Clone, Debug, PartialEq, Eq)]
pub struct Question {
    /// A start for each letter from A on; 0 where it is missing, and what is
    /// past Z is ignored, as are those of X, Y and M.
    pub starts: Vec<i32>,
    /// Take any S.
    pub any_scene: bool,
    /// The pixel type asked for.
    pub pixel_type: u32,
    /// The background pixel.
    pub background: Vec<u8>,
    /// The window's left column.
    pub left: i32,
    /// The window's top row.
    pub top: i32,
    /// The window's width.
    pub width: u32,
    /// The window's height.
    pub height: u32,
    /// The choice of masks.
    pub masks: Masks,
}

impl Question {
    /// The first column after the window.
    pub fn right(&self) -> i64 {
        i64::from(self.left) + i64::from(self.width)
    }

    /// The first row after the window.
    pub fn bottom(&self) -> i64 {
        i64::from(self.top) + i64::from(self.height)
    }

    /// The number of pixels in the window.
    pub fn pixels(&self) -> u64 {
        u64::from(self.width) * u64::from(self.height)
    }

    /// Are masks on?
    pub fn masks_on(&self) -> bool {
        self.masks == Masks::On
    }

    /// The start asked for along a letter.
    fn start_of(&self, letter: u8) -> i32 {
        let index = usize::from(letter - b'A');
        self.starts.get(index).copied().unwrap_or(0)
    }

    /// Is the tile selected: no pyramid tile, and each other letter but M
    /// starts where the question says, or has the question's start in its range?
    pub fn selects(&self, tile: &Tile) -> bool {
        !tile.is_pyramid_tile()
            && (b'A'..=b'Z').all(|letter| match letter {
                b'X' | b'Y' | b'M' => true,
                b'S' if self.any_scene => true,
                _ => tile.lies_at(letter, self.start_of(letter)),
            })
    }

    /// The number of the layer that a selected tile gives; 0 where it has no layers.
    pub(crate) fn layer_of(&self, tile: &Tile) -> u64 {
        let of = |layers: Layers| layers.at(self.start_of(layers.letter));
        tile.layers.and_then(of).unwrap_or(0)
    }

    /// Does the tile cover a pixel of the window? One without pixels has none.
    pub fn meets(&self, tile: &Tile) -> bool {
        self.pixels() > 0
            && i64::from(self.left) < tile.x.end()
            && i64::from(tile.x.start) < self.right()
            && i64::from(self.top) < tile.y.end()
            && i64::from(tile.y.start) < self.bottom()
    }
}

impl File<'_> {
    /// What the question makes of each tile, in the directory's order.
    pub fn chosen(&self, question: &Question) -> Vec<Chosen> {
        let of = |tile: &Tile| match (question.selects(tile), question.meets(tile)) {
            (false, _) => Chosen::Not,
            (true, false) => Chosen::Selected,
            (true, true) => Chosen::Meets,
        };
        self.tiles.iter().map(of).collect()
    }
}
