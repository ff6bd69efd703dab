//! The quote sheet.

use super::{Answer, Plain, UNWRITTEN};
use crate::ffi;

/// What a quote counted and wrote; both are 0 where refused.
#[derive(Clone, Copy, Debug, PartialEq, Eq)]
pub struct Quoted {
    /// The ones of the coverage map.
    pub covered: u64,
    /// How many bytes the sheet's text has.
    pub written: u64,
}

/// Composes as the settings say and writes the sheet: 34 and 35 for the settings,
/// before the file is judged, and 20 to 23; 22 also where the sheet has under
/// [`SHEET_MIN`](super::SHEET_MIN) bytes. What of the sheet is past its text stays,
/// and all that is lent where refused. Of the question its masks do not count: the
/// settings say them.
pub fn quote(
    file: &[u8],
    release: u32,
    question: &Plain,
    settings: &[u8],
    target: &mut [u8],
    map: &mut [u8],
    sheet: &mut [u8],
) -> Answer<Quoted> {
    let mut place = UNWRITTEN;
    let mut value = Quoted {
        covered: UNWRITTEN,
        written: UNWRITTEN,
    };
    // SAFETY: each slice is so many objects of its type, the lent ones are apart as
    // Rust's are, the others are one object each.
    let number = unsafe {
        ffi::czi_quote(
            file.as_ptr(),
            file.len(),
            release,
            question.starts.as_ptr(),
            question.starts.len(),
            question.any_scene,
            question.pixel_type,
            question.background.as_ptr(),
            question.background.len(),
            question.left,
            question.top,
            question.width,
            question.height,
            settings.as_ptr(),
            settings.len(),
            target.as_mut_ptr(),
            target.len(),
            map.as_mut_ptr(),
            map.len(),
            sheet.as_mut_ptr(),
            sheet.len(),
            &mut place,
            &mut value.covered,
            &mut value.written,
        )
    };
    Answer {
        number,
        place,
        value,
    }
}
