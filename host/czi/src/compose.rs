//! Composing a plane into lent buffers.

use crate::calls::{self, Counted};
use crate::question::Question;
use crate::refusal::Refusal;
use crate::scan::Scan;

/// Composes the plane into the lent target and map, each selected tile painted
/// over those below it. Lent bytes past what is written stay; a refused call
/// changes none.
///
/// Refusals: those of [`judge`](crate::judge); 20 for the window, 21 for a
/// background that is not one pixel long, 22 for a target or map that is too
/// short, 23 where a selected tile that meets the window has another type, at
/// the first such entry.
pub fn compose_plain<'a>(
    scan: impl Into<Scan<'a>>,
    question: &Question,
    target: &mut [u8],
    map: &mut [u8],
) -> Result<Counted, Refusal> {
    let (file, release) = scan.into().plain();
    calls::compose_plain(file, release, &question.plain(), target, map).result()
}

/// Composes the same plane, each pixel stored once. Lent bytes past what is
/// written stay; a refused call changes none.
///
/// Refusals: those of [`compose_plain`].
pub fn compose_quick<'a>(
    scan: impl Into<Scan<'a>>,
    question: &Question,
    target: &mut [u8],
    map: &mut [u8],
) -> Result<Counted, Refusal> {
    let (file, release) = scan.into().plain();
    calls::compose_quick(file, release, &question.plain(), target, map).result()
}
