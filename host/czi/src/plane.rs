//! A plane with memory of its own.

use crate::compose::compose_quick;
use crate::memory::{zeros, NotMade};
use crate::question::Question;
use crate::refusal::Reason;
use crate::scan::Scan;

/// A composed plane.
#[derive(Clone, Debug, PartialEq, Eq)]
pub struct Plane {
    /// The window's width.
    pub width: u32,
    /// The window's height.
    pub height: u32,
    /// The bytes of a pixel.
    pub pixel_bytes: usize,
    /// The pixels row by row, unpadded.
    pub target: Vec<u8>,
    /// One bit a pixel in the same order, high bit first: 1 where a tile gave
    /// the pixel.
    pub map: Vec<u8>,
    /// How many pixels a tile gave: the map's ones.
    pub covered: u64,
}

impl Plane {
    /// The bytes of a pixel of the window; nothing past its sides.
    pub fn pixel(&self, column: u32, row: u32) -> Option<&[u8]> {
        let at = self.index(column, row)? * self.pixel_bytes;
        self.target.get(at..at + self.pixel_bytes)
    }

    /// Did a tile give that pixel? Nothing past the window's sides.
    pub fn is_covered(&self, column: u32, row: u32) -> Option<bool> {
        let at = self.index(column, row)?;
        let byte = self.map.get(at / 8)?;
        Some(byte >> (7 - at % 8) & 1 == 1)
    }

    fn index(&self, column: u32, row: u32) -> Option<usize> {
        let inside = column < self.width && row < self.height;
        inside.then_some(row as usize * self.width as usize + column as usize)
    }
}

/// Why there is no plane.
pub type NoPlane = NotMade;

/// Composes a plane into memory that it takes for it, by the quick composer.
///
/// Refusals: those of [`compose_plain`](crate::compose_plain) but 22; 1 to 21
/// before memory is taken.
pub fn compose<'a>(scan: impl Into<Scan<'a>>, question: &Question) -> Result<Plane, NoPlane> {
    let scan = scan.into();
    // With nothing lent: 22 is all that is left to refuse before memory is needed.
    match compose_quick(scan, question, &mut [], &mut []) {
        Err(refusal) if refusal.reason != Reason::Lent => return Err(refusal.into()),
        _ => {}
    }
    let mut target = zeros(question.target_length())?;
    let mut map = zeros(question.map_length())?;
    let counted = compose_quick(scan, question, &mut target, &mut map)?;
    Ok(Plane {
        width: question.width,
        height: question.height,
        pixel_bytes: question.pixel_type.bytes(),
        target,
        map,
        covered: counted.covered,
    })
}
