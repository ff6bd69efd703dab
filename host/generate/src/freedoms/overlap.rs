//! Freedoms of two tiles that overlap.

use crate::tile::{Dimension, Tile};

/// Two sub-blocks' tiles that one question selects and that share a pixel, in
/// directory order.
pub(super) fn overlapping_pairs<'a>(tiles: &[&'a Tile]) -> Vec<(&'a Tile, &'a Tile)> {
    let mut pairs = Vec::new();
    for (k, below) in tiles.iter().enumerate() {
        for above in &tiles[k + 1..] {
            let are_two = !std::ptr::eq(*below, *above);
            if are_two && selected_together(below, above) && overlap(below, above) {
                pairs.push((*below, *above));
            }
        }
    }
    pairs
}

fn selected_together(a: &Tile, b: &Tile) -> bool {
    // First and last; a letter that the tile lacks counts as 0.
    let range = |t: &Tile, letter| {
        t.find(letter)
            .map_or((0, 0), |d| (d.start, d.start + (d.size - 1)))
    };
    let share = |letter| {
        let ((first, last), (other_first, other_last)) = (range(a, letter), range(b, letter));
        first <= other_last && other_first <= last
    };
    !a.is_pyramid_tile()
        && !b.is_pyramid_tile()
        && (b'A'..=b'Z')
            .filter(|letter| !b"XYM".contains(letter))
            .all(share)
}

fn overlap(a: &Tile, b: &Tile) -> bool {
    let meet =
        |c: &Dimension, d: &Dimension| c.start < d.start + d.size && d.start < c.start + c.size;
    meet(a.x(), b.x()) && meet(a.y(), b.y())
}

type OfPair = (&'static str, fn(&Tile, &Tile) -> bool);

/// Of two tiles that overlap, the earlier entry first.
pub(super) const OF_PAIRS: &[OfPair] = &[
    ("overlap", |_, _| true),
    ("overlap with equal M", |a, b| {
        a.m().is_some() && a.m() == b.m()
    }),
    ("overlap with M rising", |a, b| {
        a.m().is_some() && b.m() > a.m()
    }),
    ("overlap with M falling", |a, b| {
        b.m().is_some() && b.m() < a.m()
    }),
    ("overlap without M", |a, b| {
        a.m().is_none() && b.m().is_none()
    }),
    ("overlap of none with a negative M", |a, b| {
        b.m().is_none() && a.m().is_some_and(|m| m < 0)
    }),
    ("overlap with a mask on top", |a, b| {
        b.mask().is_some() && b.m() >= a.m()
    }),
    ("overlap of two pixel types", |a, b| {
        a.pixel_type != b.pixel_type
    }),
    (
        "overlap of a layered tile over one without layers",
        |a, b| {
            let [below, above] = ranked(a, b);
            below.layered().is_none() && above.layered().is_some()
        },
    ),
    (
        "overlap of a layered tile below one without layers",
        |a, b| {
            let [below, above] = ranked(a, b);
            below.layered().is_some() && above.layered().is_none()
        },
    ),
    (
        "overlap of a layered tile and one that lacks its letter",
        |a, b| {
            let lacks = |t: &Tile, other: &Tile| {
                t.layered().is_some_and(|d| other.find(d.letter).is_none())
            };
            lacks(a, b) || lacks(b, a)
        },
    ),
    ("overlap of two layered tiles of the same range", |a, b| {
        both_layered(a, b, |d, e| (d.start, d.size) == (e.start, e.size))
    }),
    ("overlap of two layered tiles of other starts", |a, b| {
        both_layered(a, b, |d, e| d.start != e.start)
    }),
    (
        "overlap of two layered tiles, the upper with a mask",
        |a, b| {
            let [_, above] = ranked(a, b);
            both_layered(a, b, |_, _| true) && above.mask().is_some()
        },
    ),
    ("overlap of two layered tiles along two letters", |a, b| {
        let letter = |t: &Tile| t.layered().map(|d| d.letter);
        letter(a).is_some() && letter(b).is_some() && letter(a) != letter(b)
    }),
];

/// The lower one and the upper one of two tiles in directory order.
fn ranked<'a>(a: &'a Tile, b: &'a Tile) -> [&'a Tile; 2] {
    match b.m() >= a.m() {
        true => [a, b],
        false => [b, a],
    }
}

/// Do both have layers along one letter, of ranges like that?
fn both_layered(a: &Tile, b: &Tile, test: fn(&Dimension, &Dimension) -> bool) -> bool {
    let (Some(d), Some(e)) = (a.layered(), b.layered()) else {
        return false;
    };
    d.letter == e.letter && test(d, e)
}
