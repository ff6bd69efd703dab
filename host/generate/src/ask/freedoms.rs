//! The freedoms that a question has, and which of them one takes.

use super::select::{layer, meets, selects};
use super::Ask;
use crate::sound::Sound;
use crate::tile::{Dimension, Tile};
use reference::{Masks, Question};

/// The names of all freedoms of a question.
pub fn ask_freedoms() -> Vec<&'static str> {
    let of_asks = OF_ASKS.iter().map(|f| f.0);
    let of_tiles = OF_TILES.iter().map(|f| f.0);
    let of_layers = OF_LAYERS.iter().map(|f| f.0);
    of_asks.chain(of_tiles).chain(of_layers).collect()
}

/// The freedoms that the question to that file takes, each once.
pub fn ask_freedoms_of(sound: &Sound, ask: &Ask) -> Vec<&'static str> {
    let tiles: Vec<&Tile> = sound.entries.iter().map(|e| sound.tile(e)).collect();
    let mut taken = Vec::new();
    for &(name, test) in OF_ASKS {
        if test(ask) {
            taken.push(name);
        }
    }
    for &(name, test) in OF_TILES {
        if test(&ask.question, &tiles) {
            taken.push(name);
        }
    }
    let layered = layered(&ask.question, &tiles);
    for &(name, test) in OF_LAYERS {
        if layered.iter().any(|l| test(&ask.question, l, &tiles)) {
            taken.push(name);
        }
    }
    taken
}

type OfAsk = (&'static str, fn(&Ask) -> bool);

const OF_ASKS: &[OfAsk] = &[
    ("masks on", |a| a.question.masks == Masks::On),
    ("masks off", |a| a.question.masks == Masks::Off),
    ("masks not chosen", |a| a.question.masks == Masks::NotChosen),
    ("any scene", |a| a.question.any_scene),
    ("no starts", |a| a.question.starts.is_empty()),
    ("starts for fewer than 26 letters", |a| {
        (1..26).contains(&a.question.starts.len())
    }),
    ("starts past Z", |a| a.question.starts.len() > 26),
    ("a start for X, Y or M", |a| {
        b"XYM".iter().any(|l| start(&a.question, *l) != 0)
    }),
    ("left at -2^31", |a| a.question.left == i32::MIN),
    ("top at -2^31", |a| a.question.top == i32::MIN),
    ("right edge at 2^31 - 1", |a| {
        a.question.right() == i64::from(i32::MAX)
    }),
    ("bottom edge at 2^31 - 1", |a| {
        a.question.bottom() == i64::from(i32::MAX)
    }),
    ("a width of 65,536", |a| a.question.width == 65_536),
    ("a height of 65,536", |a| a.question.height == 65_536),
    ("a window of one pixel", |a| a.question.pixels() == 1),
    ("pixels a multiple of 8", |a| a.question.pixels() % 8 == 0),
    ("pixels not a multiple of 8", |a| {
        a.question.pixels() % 8 != 0
    }),
    ("a target exactly long enough", |a| {
        a.target == a.target_needed()
    }),
    ("a longer target", |a| a.target > a.target_needed()),
    ("a map exactly long enough", |a| a.map == a.map_needed()),
    ("a longer map", |a| a.map > a.map_needed()),
];

fn start(question: &Question, letter: u8) -> i32 {
    let index = usize::from(letter - b'A');
    question.starts.get(index).copied().unwrap_or(0)
}

type OfTiles = (&'static str, fn(&Question, &[&Tile]) -> bool);

const OF_TILES: &[OfTiles] = &[
    ("the window cuts a selected tile", |q, tiles| {
        shown(q, tiles).any(|t| is_cut(q, t))
    }),
    ("the window lies in a selected tile", |q, tiles| {
        shown(q, tiles).any(|t| in_tile(q, t))
    }),
    ("the window holds a selected tile", |q, tiles| {
        shown(q, tiles).any(|t| holds(q, t))
    }),
    ("several selected tiles meet the window", |q, tiles| {
        shown(q, tiles).count() >= 2
    }),
    ("selected tiles, none meets the window", |q, tiles| {
        shown(q, tiles).next().is_none() && tiles.iter().any(|t| selects(q, t))
    }),
    ("no tile is selected", |q, tiles| {
        !tiles.iter().any(|t| selects(q, t))
    }),
    ("masks on for a tile with a mask", |q, tiles| {
        q.masks == Masks::On && shown(q, tiles).any(|t| t.mask().is_some())
    }),
    ("masks not on for a tile with a mask", |q, tiles| {
        q.masks != Masks::On && shown(q, tiles).any(|t| t.mask().is_some())
    }),
    ("a pyramid tile in the window", |q, tiles| {
        tiles.iter().any(|t| t.is_pyramid_tile() && meets(q, t))
    }),
    (
        "a pyramid tile of another type in the window",
        |q, tiles| {
            tiles
                .iter()
                .any(|t| t.is_pyramid_tile() && meets(q, t) && other_type(q, t))
        },
    ),
    (
        "a tile of another type that is not selected in the window",
        |q, tiles| {
            tiles
                .iter()
                .any(|t| !t.is_pyramid_tile() && !selects(q, t) && meets(q, t) && other_type(q, t))
        },
    ),
    (
        "a selected tile of another type outside the window",
        |q, tiles| {
            tiles
                .iter()
                .any(|t| selects(q, t) && !meets(q, t) && other_type(q, t))
        },
    ),
    (
        "a selected tile over 2^31 columns or rows away",
        |q, tiles| {
            let far = |first: i32, d: &Dimension| first.checked_sub(d.start).is_none();
            tiles
                .iter()
                .any(|t| selects(q, t) && (far(q.left, t.x()) || far(q.top, t.y())))
        },
    ),
    ("any scene, tiles of several scenes", |q, tiles| {
        let mut scenes: Vec<_> = shown(q, tiles)
            .map(|t| t.find(b'S').map(|d| d.start))
            .collect();
        scenes.dedup();
        q.any_scene && scenes.len() >= 2
    }),
    (
        "a start not 0 for a letter that a tile lacks",
        |q, tiles| {
            let lacks = |t: &&Tile, l| t.find(l).is_none() && start(q, l) != 0;
            let letters = (b'A'..=b'Z').filter(|l| !b"XYMS".contains(l));
            let mut lacking = letters.filter(|l| tiles.iter().any(|t| meets(q, t) && lacks(t, *l)));
            lacking.next().is_some()
        },
    ),
];

/// A tile with layers that meets the window, and that the question selects or would at
/// another start of the layers' letter.
struct Layered<'a> {
    tile: &'a Tile,
    d: &'a Dimension,
    /// How far the question's start lies past that of the layers.
    past: i64,
    asked: i32,
    is_selected: bool,
}

impl Layered<'_> {
    /// Does the question ask for its last layer?
    fn is_last(&self) -> bool {
        self.past == i64::from(self.d.size) - 1
    }
}

fn layered<'a>(q: &Question, tiles: &[&'a Tile]) -> Vec<Layered<'a>> {
    let of = |tile: &&'a Tile| {
        let tile: &'a Tile = tile;
        let d = tile.layered()?;
        let mut moved = q.clone();
        moved.starts.resize(26.max(moved.starts.len()), 0);
        moved.starts[usize::from(d.letter - b'A')] = d.start;
        let asked = start(q, d.letter);
        let is_meant = selects(&moved, tile) || tile.is_pyramid_tile();
        (is_meant && meets(q, tile)).then(|| Layered {
            tile,
            d,
            past: i64::from(asked) - i64::from(d.start),
            asked,
            is_selected: selects(q, tile),
        })
    };
    tiles.iter().filter_map(of).collect()
}

type OfLayered = (&'static str, fn(&Question, &Layered, &[&Tile]) -> bool);

const OF_LAYERS: &[OfLayered] = &[
    ("layers asked one before their start", |_, l, _| {
        l.past == -1
    }),
    ("layers asked at their start", |_, l, _| {
        l.is_selected && l.past == 0
    }),
    ("layers asked between the first and the last", |_, l, _| {
        l.is_selected && l.past > 0 && !l.is_last()
    }),
    ("layers asked at the last", |_, l, _| {
        l.is_selected && l.is_last()
    }),
    ("layers asked one past the last", |_, l, _| {
        l.past == i64::from(l.d.size)
    }),
    ("1,024 layers asked at the last", |_, l, _| {
        l.is_selected && l.is_last() && l.d.size == 1_024
    }),
    ("1,024 layers asked one past the last", |_, l, _| {
        l.past == 1_024 && l.d.size == 1_024
    }),
    ("layers from -2^31 on asked at their start", |_, l, _| {
        l.is_selected && l.asked == i32::MIN
    }),
    ("layers to 2^31 - 2 asked at the last", |_, l, _| {
        l.is_selected && l.asked == i32::MAX - 1
    }),
    ("layers to 2^31 - 2 asked at 2^31 - 1", |_, l, _| {
        l.asked == i32::MAX && l.past == i64::from(l.d.size)
    }),
    ("layers that hold 0, no start given for them", |q, l, _| {
        let is_given = usize::from(l.d.letter - b'A') < q.starts.len();
        l.is_selected && l.past > 0 && !is_given
    }),
    (
        "masks on for layers with a mask, past the first",
        |q, l, _| q.masks == Masks::On && l.is_selected && l.past > 0 && l.tile.mask().is_some(),
    ),
    (
        "masks not on for layers with a mask, past the first",
        |q, l, _| q.masks != Masks::On && l.is_selected && l.past > 0 && l.tile.mask().is_some(),
    ),
    ("layers past the first, cut by the window", |q, l, _| {
        l.is_selected && l.past > 0 && is_cut(q, l.tile)
    }),
    (
        "any scene, layers of a scene that is not asked for",
        |q, l, _| {
            let scene = l.tile.find(b'S').map(|d| d.start);
            l.is_selected && q.any_scene && scene.is_some_and(|s| s != start(q, b'S'))
        },
    ),
    ("a pyramid tile with the asked layer", |_, l, _| {
        l.tile.is_pyramid_tile() && (0..i64::from(l.d.size)).contains(&l.past)
    }),
    (
        "layers and a tile without them in the window",
        |q, l, tiles| l.is_selected && shown(q, tiles).any(|t| t.layered().is_none()),
    ),
    (
        "two tiles in the window, asked at other layers",
        |q, l, tiles| {
            let is_other = |t: &Tile| t.layered().is_some() && layer(q, t) as i64 != l.past;
            l.is_selected && shown(q, tiles).any(is_other)
        },
    ),
    ("layers along two letters in the window", |q, l, tiles| {
        let is_other = |t: &Tile| t.layered().is_some_and(|d| d.letter != l.d.letter);
        l.is_selected && shown(q, tiles).any(is_other)
    }),
];

/// The tiles that are selected and meet the window.
fn shown<'a>(q: &'a Question, tiles: &'a [&'a Tile]) -> impl Iterator<Item = &'a Tile> {
    tiles
        .iter()
        .copied()
        .filter(|t| selects(q, t) && meets(q, t))
}

fn other_type(q: &Question, tile: &Tile) -> bool {
    tile.pixel_type as u32 != q.pixel_type
}

fn end(d: &Dimension) -> i64 {
    i64::from(d.start) + i64::from(d.size)
}

fn in_tile(q: &Question, t: &Tile) -> bool {
    t.x().start <= q.left
        && q.right() <= end(t.x())
        && t.y().start <= q.top
        && q.bottom() <= end(t.y())
}

fn holds(q: &Question, t: &Tile) -> bool {
    q.left <= t.x().start
        && end(t.x()) <= q.right()
        && q.top <= t.y().start
        && end(t.y()) <= q.bottom()
}

/// Some of the tile and some of the window lie apart.
fn is_cut(q: &Question, t: &Tile) -> bool {
    !in_tile(q, t) && !holds(q, t)
}
