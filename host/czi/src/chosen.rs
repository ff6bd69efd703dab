//! Which tiles a question selects, and which of them meet its window.

use crate::calls;
use crate::question::Question;
use crate::refusal::Refusal;
use crate::scan::Scan;
use crate::MOST_TILES;

/// What a question makes of a tile.
#[derive(Clone, Copy, Debug, PartialEq, Eq)]
pub enum Mark {
    /// It is not selected.
    NotSelected,
    /// It is selected, and shares no pixel with the window.
    Selected,
    /// It is selected and shares a pixel with the window.
    Meets,
}

/// What a question makes of the tiles of a file.
#[derive(Clone, Debug, PartialEq, Eq)]
pub struct Chosen {
    /// How many tiles are selected.
    pub selected: u64,
    /// How many of them share a pixel with the window. Where it is 0, no pixel of
    /// the window is covered.
    pub meeting: u64,
    /// The mark of each tile, in the order of the directory.
    pub marks: Vec<Mark>,
}

/// A byte that is no mark.
const UNMARKED: u8 = 0xFF;

/// Which tiles the question selects, and which of them share a pixel with its
/// window, by the definitions that the composers use. Its type, background and
/// masks do not enter. Any window may be asked about, with sides of over 65,536
/// too; one with a side of 0 shares a pixel with no tile.
///
/// Refusals: those of [`judge`](crate::judge).
pub fn chosen<'a>(scan: impl Into<Scan<'a>>, question: &Question) -> Result<Chosen, Refusal> {
    let (file, release) = scan.into().plain();
    let mut marks = [UNMARKED; MOST_TILES];
    let counts = calls::chosen(file, release, &question.plain(), &mut marks).result()?;
    // Those past the tiles stay as they were.
    let named = |mark: &u8| match mark {
        0 => Some(Mark::NotSelected),
        1 => Some(Mark::Selected),
        2 => Some(Mark::Meets),
        _ => None,
    };
    Ok(Chosen {
        selected: counts.selected,
        meeting: counts.meeting,
        marks: marks.iter().map_while(named).collect(),
    })
}
