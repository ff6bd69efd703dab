//! Row 11 for the dimension of an entry that has layers.

use super::order::Step;
use super::{Clause, Damage, Order};
use crate::layers::LETTERS;
use crate::random::Random;
use crate::sound::Sound;
use crate::tile::{Dimension, Tile};
use crate::MOST_LAYERS;

pub(super) const CLAUSES: &[Clause] = &[
    Clause::new("11: layers along M", 11, |s, r| of_letter(s, r, b'M')),
    Clause::new("11: layers along S", 11, |s, r| of_letter(s, r, b'S')),
    Clause::new("11: layers before X", 11, before_x),
    Clause::new("11: layers between X and Y", 11, between),
    Clause::new("11: other layers before those behind Y", 11, second_before),
    Clause::new("11: other layers behind those behind Y", 11, second_behind),
    Clause::new("11: layers before Y and others behind it", 11, both_sides),
    Clause::new("11: two letters of Size 1 get layers", 11, two),
    Clause::new("11: 1,025 layers", 11, one_more),
    Clause::new("11: more than 1,025 layers", 11, many),
    Clause::new("11: Size 0 of layers", 11, none),
    Clause::new("11: Size of layers negative", 11, negative),
    Clause::new("11: layers stored otherwise than Size", 11, stored),
    Clause::new("11: StoredSize of layers negative", 11, stored_negative),
    Clause::new("11: Start + Size of layers over", 11, end_over),
];

/// A dimension of an entry, and where it stands.
struct Spot<'a> {
    /// The entry's number and its place.
    index: usize,
    place: usize,
    tile: &'a Tile,
    /// The dimension's number.
    k: usize,
}

impl Spot<'_> {
    fn d(&self) -> &Dimension {
        &self.tile.dimensions[self.k]
    }

    fn place_of(&self, letter: u8) -> usize {
        let place = self.tile.dimensions.iter().position(|d| d.letter == letter);
        place.expect("every tile has X and Y")
    }

    fn is_behind_y(&self) -> bool {
        self.k > self.place_of(b'Y')
    }

    /// A letter that may have layers, and has none.
    fn is_free(&self) -> bool {
        LETTERS.contains(&self.d().letter) && self.d().size == 1
    }

    fn is_layered(&self) -> bool {
        !b"XY".contains(&self.d().letter) && self.d().size > 1
    }

    /// Would Start + Size stay within bounds with that Size?
    fn holds(&self, size: i32) -> bool {
        self.d().start <= i32::MAX - size
    }

    fn damage(&self) -> Damage {
        Damage::new(self.place, Order::entry(self.index, Step::WellFormed))
    }

    fn at(&self) -> usize {
        self.place + 32 + 20 * self.k
    }

    /// The dimension gets a Size and a StoredSize.
    fn sized(&self, damage: Damage, size: i32, stored: i32) -> Damage {
        damage.int(self.at() + 8, size).int(self.at() + 16, stored)
    }

    /// The dimension gets layers, which are its only fault.
    fn with_layers(&self, damage: Damage, random: &mut Random) -> Damage {
        let fitting = [2, 3, 7, MOST_LAYERS]
            .into_iter()
            .filter(|n| self.holds(*n));
        let size = random.pick_from(fitting.collect()).unwrap_or(2);
        let stored = random.pick(&[0, size]);
        self.sized(damage, size, stored)
    }
}

fn some<'a>(
    sound: &'a Sound,
    random: &mut Random,
    test: impl Fn(&Spot) -> bool,
) -> Option<Spot<'a>> {
    let mut found = Vec::new();
    for (index, entry) in sound.entries.iter().enumerate() {
        let tile = sound.tile(entry);
        for k in 0..tile.dimensions.len() {
            let spot = Spot {
                index,
                place: entry.place,
                tile,
                k,
            };
            if test(&spot) {
                found.push(spot);
            }
        }
    }
    random.pick_from(found)
}

/// Some dimension of a tile without layers gets them.
fn gets_layers(sound: &Sound, random: &mut Random, test: impl Fn(&Spot) -> bool) -> Option<Damage> {
    let spot = some(sound, random, |s| {
        s.tile.layered().is_none() && s.holds(2) && test(s)
    })?;
    Some(spot.with_layers(spot.damage(), random))
}

fn of_letter(sound: &Sound, random: &mut Random, letter: u8) -> Option<Damage> {
    gets_layers(sound, random, |s| s.d().letter == letter && s.is_behind_y())
}

fn before_x(sound: &Sound, random: &mut Random) -> Option<Damage> {
    gets_layers(sound, random, |s| s.is_free() && s.k < s.place_of(b'X'))
}

fn between(sound: &Sound, random: &mut Random) -> Option<Damage> {
    gets_layers(sound, random, |s| {
        s.is_free() && s.k > s.place_of(b'X') && !s.is_behind_y()
    })
}

/// Another letter of a tile with layers gets some too.
fn second(
    sound: &Sound,
    random: &mut Random,
    test: impl Fn(&Spot, usize) -> bool,
) -> Option<Damage> {
    let spot = some(sound, random, |s| {
        let layered = s.tile.layered().map(|d| s.place_of(d.letter));
        layered.is_some_and(|at| s.is_free() && s.holds(2) && test(s, at))
    })?;
    Some(spot.with_layers(spot.damage(), random))
}

fn second_before(sound: &Sound, random: &mut Random) -> Option<Damage> {
    second(sound, random, |s, at| s.is_behind_y() && s.k < at)
}

fn second_behind(sound: &Sound, random: &mut Random) -> Option<Damage> {
    second(sound, random, |s, at| s.k > at)
}

fn both_sides(sound: &Sound, random: &mut Random) -> Option<Damage> {
    second(sound, random, |s, _| !s.is_behind_y())
}

/// Two letters behind Y, neither of which has layers.
fn two(sound: &Sound, random: &mut Random) -> Option<Damage> {
    let is_free =
        |s: &Spot| s.tile.layered().is_none() && s.is_free() && s.is_behind_y() && s.holds(2);
    let first = some(sound, random, is_free)?;
    let other = some(sound, random, |s| {
        is_free(s) && s.index == first.index && s.k != first.k
    })?;
    let damage = first.with_layers(first.damage(), random);
    Some(other.with_layers(damage, random))
}

/// A letter that has layers, or that might.
fn some_letter<'a>(sound: &'a Sound, random: &mut Random, size: i32) -> Option<Spot<'a>> {
    some(sound, random, |s| {
        let might = s.tile.layered().is_none() && s.is_free() && s.is_behind_y();
        (might || s.is_layered()) && s.holds(size)
    })
}

/// That many layers, stored so.
fn of_size(sound: &Sound, random: &mut Random, size: i32) -> Option<Damage> {
    let spot = some_letter(sound, random, size)?;
    let stored = random.pick(&[0, size]);
    Some(spot.sized(spot.damage(), size, stored))
}

fn one_more(sound: &Sound, random: &mut Random) -> Option<Damage> {
    of_size(sound, random, MOST_LAYERS + 1)
}

/// Some are within bounds if they are cut to 16 or 24 bits.
fn many(sound: &Sound, random: &mut Random) -> Option<Damage> {
    let size = random.pick(&[1_026, 2_048, 65_538, (1 << 24) + 3, 1 << 30]);
    of_size(sound, random, size)
}

fn none(sound: &Sound, random: &mut Random) -> Option<Damage> {
    let spot = some(sound, random, |s| s.is_layered())?;
    let stored = random.pick(&[0, spot.d().size]);
    Some(spot.sized(spot.damage(), 0, stored))
}

fn negative(sound: &Sound, random: &mut Random) -> Option<Damage> {
    let spot = some(sound, random, |s| s.is_layered())?;
    let right = spot.d().size;
    let size = random.pick(&[-1, -right, right | i32::MIN, i32::MIN]);
    let stored = random.pick(&[0, right]);
    Some(spot.sized(spot.damage(), size, stored))
}

fn stored(sound: &Sound, random: &mut Random) -> Option<Damage> {
    let spot = some_letter(sound, random, 3)?;
    let size = spot.d().size.max(3);
    let wrong = random.pick(&[1, size - 1, size + 1, 2 * size, 65_536 + size, i32::MAX]);
    Some(spot.sized(spot.damage(), size, wrong))
}

fn stored_negative(sound: &Sound, random: &mut Random) -> Option<Damage> {
    let spot = some(sound, random, |s| s.is_layered())?;
    let size = spot.d().size;
    let wrong = random.pick(&[-1, -size, size | i32::MIN, i32::MIN]);
    Some(spot.sized(spot.damage(), size, wrong))
}

fn end_over(sound: &Sound, random: &mut Random) -> Option<Damage> {
    let spot = some(sound, random, |s| s.is_layered())?;
    let least = i32::MAX - spot.d().size + 1;
    let start = random.pick(&[least, least, i32::MAX - 1, i32::MAX]);
    Some(spot.damage().int(spot.at() + 4, start))
}
