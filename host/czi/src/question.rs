//! What a composer is asked for.

use crate::calls::Plain;
use crate::pixel::PixelType;
use crate::records::Edges;

/// Which scenes are selected.
#[derive(Clone, Copy, Debug, PartialEq, Eq)]
pub enum Scene {
    /// Any.
    Any,
    /// The one that `starts` says for S.
    AsStarts,
}

/// The choice of masks.
#[derive(Clone, Copy, Debug, PartialEq, Eq)]
pub enum Masks {
    /// Not chosen: off.
    NotChosen,
    /// Invalid pixels of a tile are not given. Under release 1.02 no tile has a mask.
    On,
    /// Masks are left aside.
    Off,
}

/// What is asked for.
///
/// The default asks for scene 0, starts of 0, type Gray8 on a background of
/// zeros, masks not chosen and no window, which is refused 20 until one is named.
///
/// ```
/// use czi::{Masks, PixelType, Question};
/// let question = Question::default()
///     .window(100, 60, 43, 28)
///     .pixel_type(PixelType::Bgr24)
///     .masks(Masks::On);
/// assert_eq!(question.target_length(), 43 * 28 * 3);
/// assert_eq!(question.background, [0, 0, 0]);
/// ```
#[derive(Clone, Copy, Debug)]
pub struct Question<'a> {
    /// Starts for A to Z in order; what is missing is 0, what is past 26 is
    /// ignored, as are those of X, Y and M. A tile with layers is selected by the
    /// start of any of them, and gives the pixels of that one.
    pub starts: &'a [i32],
    /// Which scenes.
    pub scene: Scene,
    /// The pixel type.
    pub pixel_type: PixelType,
    /// The background pixel.
    pub background: &'a [u8],
    /// The window's left column.
    pub left: i32,
    /// The window's top row.
    pub top: i32,
    /// The window's width.
    pub width: u32,
    /// The window's height.
    pub height: u32,
    /// The choice of masks.
    pub masks: Masks,
}

/// A pixel of zeros, of the longest type.
const ZEROS: &[u8] = &[0; 24];

impl Default for Question<'_> {
    fn default() -> Self {
        Question {
            starts: &[],
            scene: Scene::AsStarts,
            pixel_type: PixelType::Gray8,
            background: &ZEROS[..PixelType::Gray8.bytes()],
            left: 0,
            top: 0,
            width: 0,
            height: 0,
            masks: Masks::NotChosen,
        }
    }
}

impl<'a> Question<'a> {
    /// The window: its corner and its sides.
    pub fn window(self, left: i32, top: i32, width: u32, height: u32) -> Self {
        Question {
            left,
            top,
            width,
            height,
            ..self
        }
    }

    /// The window over a box, such as that of a summary. One with a side of
    /// over 65,536 is refused 20.
    pub fn over(self, edges: Edges) -> Self {
        self.window(edges.left, edges.top, edges.width(), edges.height())
    }

    /// The pixel type. A background of zeros gets that type's length; any
    /// other stays, and is refused 21 where its length is not the type's.
    pub fn pixel_type(self, pixel_type: PixelType) -> Self {
        let background = match self.background.iter().all(|byte| *byte == 0) {
            true => &ZEROS[..pixel_type.bytes()],
            false => self.background,
        };
        Question {
            pixel_type,
            background,
            ..self
        }
    }

    /// The background pixel.
    pub fn background(self, background: &'a [u8]) -> Self {
        Question { background, ..self }
    }

    /// The starts of A to Z.
    pub fn starts(self, starts: &'a [i32]) -> Self {
        Question { starts, ..self }
    }

    /// Which scenes.
    pub fn scene(self, scene: Scene) -> Self {
        Question { scene, ..self }
    }

    /// The choice of masks.
    pub fn masks(self, masks: Masks) -> Self {
        Question { masks, ..self }
    }

    /// How many pixels the window has.
    pub fn pixels(&self) -> u64 {
        u64::from(self.width) * u64::from(self.height)
    }

    /// The length in bytes of the target that the window needs; the greatest
    /// number where it is above all, which only that of a refused window is.
    pub fn target_length(&self) -> u64 {
        let pixel = self.pixel_type.bytes() as u64;
        self.pixels().saturating_mul(pixel)
    }

    /// The length in bytes of the map that the window needs.
    pub fn map_length(&self) -> u64 {
        self.pixels().div_ceil(8)
    }

    /// The question as the header has it.
    pub(crate) fn plain(&self) -> Plain<'a> {
        Plain {
            starts: self.starts,
            any_scene: (self.scene == Scene::Any).into(),
            pixel_type: self.pixel_type.number(),
            background: self.background,
            left: self.left,
            top: self.top,
            width: self.width,
            height: self.height,
            masks: match self.masks {
                Masks::NotChosen => 0,
                Masks::On => 1,
                Masks::Off => 2,
            },
        }
    }
}

#[cfg(test)]
mod tests {
    use super::{PixelType, Question};

    #[test]
    fn a_background_of_zeros_follows_the_type() {
        for pixel_type in PixelType::ALL {
            let question = Question::default().pixel_type(pixel_type);
            assert_eq!(question.background.len(), pixel_type.bytes());
        }
        let other = Question::default().background(&[1, 2, 3]);
        for question in [other, other.pixel_type(PixelType::Gray16)] {
            assert_eq!(question.background, [1, 2, 3]);
        }
    }

    #[test]
    fn a_length_does_not_wrap() {
        let widest = Question::default().window(0, 0, u32::MAX, u32::MAX);
        let widest = widest.pixel_type(PixelType::BgrComplex);
        assert_eq!(widest.target_length(), u64::MAX);
        assert_eq!(widest.map_length(), widest.pixels() / 8 + 1);
    }
}
