//! The two composers, and which tiles a question selects.

use super::{Answer, UNWRITTEN};
use crate::ffi;

/// A question as the header has it, any number in it.
#[derive(Clone, Copy, Debug)]
pub struct Plain<'a> {
    /// Starts for A to Z; what is missing is 0, what is past 26 is ignored.
    pub starts: &'a [i32],
    /// 0 no, else yes.
    pub any_scene: u32,
    /// The pixel type asked for.
    pub pixel_type: u32,
    /// The background pixel.
    pub background: &'a [u8],
    /// The window's left column.
    pub left: i32,
    /// The window's top row.
    pub top: i32,
    /// The window's width.
    pub width: u32,
    /// The window's height.
    pub height: u32,
    /// 1 on, 2 off, any other not chosen.
    pub masks: u32,
}

/// What a composer counted; both are 0 where refused.
#[derive(Clone, Copy, Debug, PartialEq, Eq)]
pub struct Counted {
    /// The ones of the coverage map.
    pub covered: u64,
    /// The pixels that were stored.
    pub stored: u64,
}

macro_rules! composer {
    ($(#[$doc:meta])* $name:ident, $function:ident) => {
        $(#[$doc])*
        pub fn $name(
            file: &[u8],
            release: u32,
            question: &Plain,
            target: &mut [u8],
            map: &mut [u8],
        ) -> Answer<Counted> {
            let mut place = UNWRITTEN;
            let mut value = Counted {
                covered: UNWRITTEN,
                stored: UNWRITTEN,
            };
            // SAFETY: each slice is so many objects of its type, the lent ones are
            // apart as Rust's are, the others are one object each.
            let number = unsafe {
                ffi::$function(
                    file.as_ptr(),
                    file.len(),
                    release,
                    question.starts.as_ptr(),
                    question.starts.len(),
                    question.any_scene,
                    question.pixel_type,
                    question.background.as_ptr(),
                    question.background.len(),
                    question.left,
                    question.top,
                    question.width,
                    question.height,
                    question.masks,
                    target.as_mut_ptr(),
                    target.len(),
                    map.as_mut_ptr(),
                    map.len(),
                    &mut place,
                    &mut value.covered,
                    &mut value.stored,
                )
            };
            Answer {
                number,
                place,
                value,
            }
        }
    };
}

composer!(
    /// Composes by painting each selected tile over those below it; 20 to 23.
    compose_plain,
    czi_compose_plain
);
composer!(
    /// Composes by giving each pixel once, the topmost tile first; 20 to 23.
    compose_quick,
    czi_compose_quick
);

/// How many tiles a question selects; both are 0 where refused.
#[derive(Clone, Copy, Debug, PartialEq, Eq)]
pub struct ChosenCounts {
    /// The marks that are not 0.
    pub selected: u64,
    /// The marks that are 2: those that share a pixel with the window.
    pub meeting: u64,
}

/// Marks each tile: 0 not selected, 1 selected, 2 selected and it shares a pixel
/// with the window. Of the question its starts, scene and window count; any window
/// may be asked about. 22 where there are fewer marks than tiles; those past the
/// tiles stay, and all where refused.
pub fn chosen(
    file: &[u8],
    release: u32,
    question: &Plain,
    marks: &mut [u8],
) -> Answer<ChosenCounts> {
    let mut place = UNWRITTEN;
    let mut value = ChosenCounts {
        selected: UNWRITTEN,
        meeting: UNWRITTEN,
    };
    // SAFETY: each slice is so many objects of its type, marks are apart as Rust's
    // are, the others are one object each.
    let number = unsafe {
        ffi::czi_chosen(
            file.as_ptr(),
            file.len(),
            release,
            question.starts.as_ptr(),
            question.starts.len(),
            question.any_scene,
            question.left,
            question.top,
            question.width,
            question.height,
            marks.as_mut_ptr(),
            marks.len(),
            &mut place,
            &mut value.selected,
            &mut value.meeting,
        )
    };
    Answer {
        number,
        place,
        value,
    }
}
