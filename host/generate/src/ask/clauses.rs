//! Rows 20 to 23: questions that are refused. Each clause takes a question
//! and spoils it; the least number of several clauses is the one given.

use super::draw::{about, lend};
use super::select::selects;
use super::Ask;
use crate::format::PIXEL_TYPES;
use crate::random::Random;
use crate::sound::{EntryPlace, Sound};
use crate::tile::Tile;
use reference::Masks;

/// A clause of the refusal table for a question.
pub struct AskClause {
    /// The number and the words.
    pub name: &'static str,
    /// The number that a composer must give.
    pub number: u32,
    make: fn(&Sound, &mut Random, Ask) -> Option<Ask>,
}

impl AskClause {
    const fn new(
        name: &'static str,
        number: u32,
        make: fn(&Sound, &mut Random, Ask) -> Option<Ask>,
    ) -> AskClause {
        AskClause { name, number, make }
    }

    /// The question spoiled, or nothing where the file has no tile for it.
    /// Where several clauses are wanted, the greater number is applied first.
    pub fn spoil(&self, sound: &Sound, random: &mut Random, ask: Ask) -> Option<Ask> {
        (self.make)(sound, random, ask)
    }
}

/// All clauses that refuse a question, in the table's order.
pub fn ask_clauses() -> &'static [AskClause] {
    CLAUSES
}

const CLAUSES: &[AskClause] = &[
    AskClause::new("20: width 0", 20, |_, _, mut ask| {
        ask.question.width = 0;
        Some(ask)
    }),
    AskClause::new("20: height 0", 20, |_, _, mut ask| {
        ask.question.height = 0;
        Some(ask)
    }),
    AskClause::new("20: width over 65,536", 20, |_, random, mut ask| {
        ask.question.width = random.pick(&[65_537, 1 << 31, u32::MAX]);
        Some(ask)
    }),
    AskClause::new("20: height over 65,536", 20, |_, random, mut ask| {
        ask.question.height = random.pick(&[65_537, 1 << 31, u32::MAX]);
        Some(ask)
    }),
    AskClause::new("20: right edge above 2^31 - 1", 20, |_, random, mut ask| {
        ask.question.left = past_the_edge(random, ask.question.width);
        Some(ask)
    }),
    AskClause::new(
        "20: bottom edge above 2^31 - 1",
        20,
        |_, random, mut ask| {
            ask.question.top = past_the_edge(random, ask.question.height);
            Some(ask)
        },
    ),
    AskClause::new("21: asked type not listed", 21, |_, random, mut ask| {
        let high = ask.question.pixel_type | 1 << (8 + random.below(24));
        ask.question.pixel_type = random.pick(&[5, 6, 7, 12, 13, 14, u32::MAX, high]);
        Some(ask)
    }),
    AskClause::new(
        "21: background shorter than a pixel",
        21,
        |_, random, mut ask| {
            let length = ask.question.background.len();
            let shorter = random.below(length);
            ask.question
                .background
                .truncate(random.pick(&[length - 1, shorter]));
            Some(ask)
        },
    ),
    AskClause::new(
        "21: background longer than a pixel",
        21,
        |_, random, mut ask| {
            let more = random.pick(&[1, 1, 2, 8]);
            ask.question.background.extend(random.bytes(more));
            Some(ask)
        },
    ),
    AskClause::new("22: target too short", 22, |_, random, mut ask| {
        let shorter = random.below(ask.target_needed());
        ask.target = random.pick(&[ask.target_needed() - 1, shorter]);
        Some(ask)
    }),
    AskClause::new("22: map too short", 22, |_, random, mut ask| {
        let shorter = random.below(ask.map_needed());
        ask.map = random.pick(&[ask.map_needed() - 1, shorter]);
        Some(ask)
    }),
    AskClause::new("23: a selected tile has another type", 23, another_type),
    AskClause::new("23: below a tile that covers the window", 23, hidden_type),
    AskClause::new("23: where the mask hides all of the tile", 23, masked_type),
    AskClause::new(
        "23: a tile of another type at its last layer",
        23,
        layered_type,
    ),
];

/// A left or top from which the window passes the last column or row.
fn past_the_edge(random: &mut Random, length: u32) -> i32 {
    let least = i64::from(i32::MAX) - i64::from(length) + 1;
    let least = least.min(i64::from(i32::MAX)) as i32;
    random.pick(&[least, i32::MAX])
}

fn full_tiles(sound: &Sound) -> impl Iterator<Item = (usize, &EntryPlace, &Tile)> {
    let entries = sound.entries.iter().enumerate();
    let tiles = entries.map(|(index, entry)| (index, entry, sound.tile(entry)));
    tiles.filter(|(_, _, tile)| !tile.is_pyramid_tile())
}

fn other_type(random: &mut Random, tile: &Tile) -> i32 {
    let others = PIXEL_TYPES.iter().filter(|t| t.0 != tile.pixel_type);
    random.pick_from(others.map(|t| t.0).collect()).unwrap_or(0)
}

/// A question that selects the tile, with that one pixel as window.
fn at_pixel(random: &mut Random, tile: &Tile, pixel_type: i32, u: i32, v: i32) -> Option<Ask> {
    let mut ask = about(Some(tile), pixel_type, random);
    ask.question.left = u;
    ask.question.top = v;
    ask.question.width = 1;
    ask.question.height = 1;
    lend(&mut ask, random);
    // Now and then a question about a tile asks for another start.
    selects(&ask.question, tile).then_some(ask)
}

fn another_type(sound: &Sound, random: &mut Random, _: Ask) -> Option<Ask> {
    let (_, _, tile) = random.pick_from(full_tiles(sound).collect())?;
    let pixel_type = other_type(random, tile);
    let u = tile.x().start + random.below(tile.x().size as usize) as i32;
    let v = tile.y().start + random.below(tile.y().size as usize) as i32;
    let mut ask = at_pixel(random, tile, pixel_type, u, v)?;
    // To the right and below more may be in the window.
    let more = |first: i32, random: &mut Random| {
        let most = (i64::from(i32::MAX) - i64::from(first)).min(12);
        random.between(1, most) as u32
    };
    ask.question.width = more(u, random);
    ask.question.height = more(v, random);
    lend(&mut ask, random);
    Some(ask)
}

/// The window is a pixel of a tile with layers, of which the last is asked for.
fn layered_type(sound: &Sound, random: &mut Random, _: Ask) -> Option<Ask> {
    let layered = full_tiles(sound).filter(|(_, _, tile)| tile.layered().is_some());
    let (_, _, tile) = random.pick_from(layered.collect())?;
    let pixel_type = other_type(random, tile);
    let mut ask = at_pixel(random, tile, pixel_type, tile.x().start, tile.y().start)?;
    let d = tile.layered()?;
    ask.question
        .starts
        .resize(26.max(ask.question.starts.len()), 0);
    ask.question.starts[usize::from(d.letter - b'A')] = d.start + (d.size - 1);
    Some(ask)
}

/// The tile on top has the asked type, the one below it another.
fn hidden_type(sound: &Sound, random: &mut Random, _: Ask) -> Option<Ask> {
    let mut pairs = Vec::new();
    for (k, _, top) in full_tiles(sound) {
        for (j, _, below) in full_tiles(sound) {
            let u = top.x().start.max(below.x().start);
            let v = top.y().start.max(below.y().start);
            let is_hidden = (below.m(), j) < (top.m(), k);
            if is_hidden
                && covers(top, u, v)
                && covers(below, u, v)
                && top.pixel_type != below.pixel_type
            {
                pairs.push((top, below, u, v));
            }
        }
    }
    let (top, below, u, v) = random.pick_from(pairs)?;
    let mut ask = at_pixel(random, top, top.pixel_type, u, v)?;
    ask.question.masks = Masks::Off;
    selects(&ask.question, below).then_some(ask)
}

fn covers(tile: &Tile, u: i32, v: i32) -> bool {
    (tile.x().start..tile.x().start + tile.x().size).contains(&u)
        && (tile.y().start..tile.y().start + tile.y().size).contains(&v)
}

/// The window is a pixel of the tile that its mask does not reach.
fn masked_type(sound: &Sound, random: &mut Random, _: Ask) -> Option<Ask> {
    let beyond = |tile: &Tile| {
        tile.mask()
            .is_some_and(|m| m.width < tile.x().size || m.height < tile.y().size)
    };
    let masked = full_tiles(sound).filter(|(_, _, tile)| beyond(tile));
    let (_, _, tile) = random.pick_from(masked.collect())?;
    let pixel_type = other_type(random, tile);
    let u = tile.x().start + tile.x().size - 1;
    let v = tile.y().start + tile.y().size - 1;
    let mut ask = at_pixel(random, tile, pixel_type, u, v)?;
    ask.question.masks = Masks::On;
    Some(ask)
}
