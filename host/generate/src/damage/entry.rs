//! Rows 11, 12, 13, 7 and 14 for an entry of the sub-block directory.

use super::order::Step;
use super::position::{no_header, other_kind};
use super::{Clause, Damage, Order};
use crate::format::{Kind, PIXEL_TYPES};
use crate::random::Random;
use crate::sound::{EntryPlace, Sound};
use crate::tile::Dimension;

pub(super) const CLAUSES: &[Clause] = &[
    Clause::new("11: an entry without its mark", 11, mark),
    Clause::new("11: DimensionCount under 1", 11, count_under),
    Clause::new("11: DimensionCount over 16", 11, count_over),
    Clause::new("11: a letter not one of A to Z", 11, letter),
    Clause::new("11: a letter without three zero bytes", 11, letter_padding),
    Clause::new("11: a letter twice", 11, letter_twice),
    Clause::new("11: no X", 11, no_x),
    Clause::new("11: no Y", 11, no_y),
    Clause::new("11: Y before X", 11, y_before_x),
    Clause::new("11: X Size under 1", 11, x_size),
    Clause::new("11: Y Size under 1", 11, y_size),
    Clause::new("11: Start + Size of X over", 11, x_end),
    Clause::new("11: Start + Size of Y over", 11, y_end),
    Clause::new("11: Start + Size of another letter over", 11, other_end),
    Clause::new("11: StoredSize of X or Y negative", 11, stored_negative),
    Clause::new(
        "11: StoredSize of another letter negative",
        11,
        other_stored_negative,
    ),
    Clause::new("11: Size of another letter under 1", 11, other_size),
    Clause::new(
        "11: stored size not 1 of another letter of Size 1",
        11,
        other_stored,
    ),
    Clause::new("12: pixel type not listed", 12, pixel_type),
    Clause::new("12: a planned pixel type", 12, planned_type),
    Clause::new("13: compression not 0", 13, compression),
    Clause::new("7: FilePart of an entry", 7, file_part),
    Clause::new("14: an entry names no segment", 14, nowhere),
    Clause::new("14: an entry names another kind", 14, other),
    Clause::new("14: an entry names the file segment", 14, file_segment),
    Clause::new("14: an entry names a DELETED segment", 14, deleted),
];

/// Damage at some entry.
fn some_entry<'a>(
    sound: &'a Sound,
    random: &mut Random,
    step: Step,
) -> Option<(Damage, &'a EntryPlace)> {
    let index = random.pick_from((0..sound.entries.len()).collect())?;
    let entry = &sound.entries[index];
    let damage = Damage::new(entry.place, Order::entry(index, step));
    Some((damage, entry))
}

/// Damage at some dimension that passes the test, with its offset in the file.
fn some_dimension(
    sound: &Sound,
    random: &mut Random,
    test: impl Fn(&Dimension) -> bool,
) -> Option<(Damage, usize, Dimension)> {
    let mut found = Vec::new();
    for (index, entry) in sound.entries.iter().enumerate() {
        for (k, d) in sound.tile(entry).dimensions.iter().enumerate() {
            if test(d) {
                found.push((index, entry.place, entry.place + 32 + 20 * k, *d));
            }
        }
    }
    let (index, place, at, d) = random.pick_from(found)?;
    let damage = Damage::new(place, Order::entry(index, Step::WellFormed));
    Some((damage, at, d))
}

fn is_side(d: &Dimension) -> bool {
    b"XY".contains(&d.letter)
}

fn is_other(d: &Dimension) -> bool {
    !is_side(d)
}

fn mark(sound: &Sound, random: &mut Random) -> Option<Damage> {
    let (damage, entry) = some_entry(sound, random, Step::MarkAndCount)?;
    let mark = random.pick(&[b"DW", b"AV", b"VD", b"dv", b"A1", b"\0\0"]);
    Some(damage.write(entry.place, mark))
}

fn count_under(sound: &Sound, random: &mut Random) -> Option<Damage> {
    let (damage, entry) = some_entry(sound, random, Step::MarkAndCount)?;
    let right = sound.tile(entry).dimensions.len() as i32;
    let count = random.pick(&[0, -1, i32::MIN, right | i32::MIN]);
    Some(damage.int(entry.place + 28, count))
}

fn count_over(sound: &Sound, random: &mut Random) -> Option<Damage> {
    let (damage, entry) = some_entry(sound, random, Step::MarkAndCount)?;
    let right = sound.tile(entry).dimensions.len() as i32;
    let count = random.pick(&[17, 18, 256 + right, 65_536 + right, i32::MAX]);
    Some(damage.int(entry.place + 28, count))
}

fn letter(sound: &Sound, random: &mut Random) -> Option<Damage> {
    let (damage, at, d) = some_dimension(sound, random, |_| true)?;
    let small = d.letter.to_ascii_lowercase();
    let wrong = random.pick(&[b'@', b'[', small, b'0', 0, d.letter | 0x80]);
    Some(damage.write(at, &[wrong]))
}

fn letter_padding(sound: &Sound, random: &mut Random) -> Option<Damage> {
    let (damage, at, _) = some_dimension(sound, random, |_| true)?;
    let byte = 1 + random.below(3);
    Some(damage.write(at + byte, &[random.pick(&[1, b' ', b'Z', 0x80])]))
}

/// A dimension other than X and Y takes the letter of another one.
fn letter_twice(sound: &Sound, random: &mut Random) -> Option<Damage> {
    let (damage, entry) = some_entry(sound, random, Step::WellFormed)?;
    let dimensions = &sound.tile(entry).dimensions;
    let others = (0..dimensions.len()).filter(|&k| is_other(&dimensions[k]));
    let k = random.pick_from(others.collect())?;
    let letters = (0..dimensions.len()).filter(|&j| j != k);
    let letter = random.pick_from(letters.map(|j| dimensions[j].letter).collect())?;
    // A Y here would make up for one that is lost elsewhere.
    Some(damage.write(entry.place + 32 + 20 * k, &[letter]).alone())
}

/// X or Y takes a letter that the entry lacks; one of Size 1 where there is
/// one, so that its absence is the only fault.
fn no_side(sound: &Sound, random: &mut Random, letter: u8) -> Option<Damage> {
    let alone = |d: &Dimension| d.letter == letter && d.size == 1 && d.stored() == 1;
    let (damage, at, _) = some_dimension(sound, random, alone)
        .or_else(|| some_dimension(sound, random, |d| d.letter == letter))?;
    let entry = sound.entries.iter().find(|e| e.place == damage.place)?;
    let tile = sound.tile(entry);
    let lacking = (b'A'..=b'Z').filter(|&l| tile.find(l).is_none());
    let other = random.pick_from(lacking.collect())?;
    Some(damage.write(at, &[other]))
}

fn no_x(sound: &Sound, random: &mut Random) -> Option<Damage> {
    no_side(sound, random, b'X')
}

fn no_y(sound: &Sound, random: &mut Random) -> Option<Damage> {
    no_side(sound, random, b'Y')
}

fn y_before_x(sound: &Sound, random: &mut Random) -> Option<Damage> {
    let (mut damage, entry) = some_entry(sound, random, Step::WellFormed)?;
    for (k, d) in sound.tile(entry).dimensions.iter().enumerate() {
        let at = entry.place + 32 + 20 * k;
        match d.letter {
            b'X' => damage = damage.write(at, b"Y"),
            b'Y' => damage = damage.write(at, b"X"),
            _ => {}
        }
    }
    Some(damage)
}

fn size_under(sound: &Sound, random: &mut Random, letter: u8) -> Option<Damage> {
    let (damage, at, d) = some_dimension(sound, random, |d| d.letter == letter)?;
    Some(damage.int(at + 8, random.pick(&[0, -1, -d.size, i32::MIN])))
}

fn x_size(sound: &Sound, random: &mut Random) -> Option<Damage> {
    size_under(sound, random, b'X')
}

fn y_size(sound: &Sound, random: &mut Random) -> Option<Damage> {
    size_under(sound, random, b'Y')
}

fn end_over(sound: &Sound, random: &mut Random, letter: u8) -> Option<Damage> {
    let (damage, at, d) = some_dimension(sound, random, |d| d.letter == letter)?;
    let least = i32::MAX - d.size + 1;
    Some(damage.int(at + 4, random.pick(&[least, i32::MAX])))
}

fn x_end(sound: &Sound, random: &mut Random) -> Option<Damage> {
    end_over(sound, random, b'X')
}

fn y_end(sound: &Sound, random: &mut Random) -> Option<Damage> {
    end_over(sound, random, b'Y')
}

fn other_end(sound: &Sound, random: &mut Random) -> Option<Damage> {
    let (damage, at, _) = some_dimension(sound, random, is_other)?;
    Some(damage.int(at + 4, i32::MAX))
}

fn stored_negative(sound: &Sound, random: &mut Random) -> Option<Damage> {
    let (damage, at, d) = some_dimension(sound, random, is_side)?;
    let high = d.stored() | i32::MIN;
    Some(damage.int(at + 16, random.pick(&[-1, i32::MIN, high])))
}

fn other_stored_negative(sound: &Sound, random: &mut Random) -> Option<Damage> {
    let (damage, at, _) = some_dimension(sound, random, is_other)?;
    Some(damage.int(at + 16, random.pick(&[-1, i32::MIN])))
}

/// With a StoredSize of 1 the Size is the only fault.
fn other_size(sound: &Sound, random: &mut Random) -> Option<Damage> {
    let (damage, at, _) = some_dimension(sound, random, is_other)?;
    let size = random.pick(&[0, -1, i32::MIN]);
    Some(damage.int(at + 8, size))
}

fn other_stored(sound: &Sound, random: &mut Random) -> Option<Damage> {
    let is_single = |d: &Dimension| is_other(d) && d.size == 1;
    let (damage, at, _) = some_dimension(sound, random, is_single)?;
    Some(damage.int(at + 16, random.pick(&[2, 3, 1024, i32::MAX])))
}

fn pixel_type(sound: &Sound, random: &mut Random) -> Option<Damage> {
    let (damage, entry) = some_entry(sound, random, Step::PixelType)?;
    let right = sound.tile(entry).pixel_type;
    let wide = right + (1 << (8 + random.below(23)));
    let wrong = random.pick(&[5, 6, 7, 14, -1, wide, right | i32::MIN]);
    debug_assert!(PIXEL_TYPES.iter().all(|t| t.0 != wrong));
    Some(damage.int(entry.place + 2, wrong))
}

fn planned_type(sound: &Sound, random: &mut Random) -> Option<Damage> {
    let (damage, entry) = some_entry(sound, random, Step::PixelType)?;
    Some(damage.int(entry.place + 2, random.pick(&[12, 13])))
}

fn compression(sound: &Sound, random: &mut Random) -> Option<Damage> {
    let (damage, entry) = some_entry(sound, random, Step::Compression)?;
    let any = random.not_zero();
    Some(damage.int(entry.place + 18, random.pick(&[1, 2, 4, 5, 6, any])))
}

fn file_part(sound: &Sound, random: &mut Random) -> Option<Damage> {
    let (damage, entry) = some_entry(sound, random, Step::FilePart)?;
    Some(damage.int(entry.place + 14, random.not_zero()))
}

fn nowhere(sound: &Sound, random: &mut Random) -> Option<Damage> {
    let (damage, entry) = some_entry(sound, random, Step::FilePosition)?;
    let right = sound.sub_block(entry).position;
    Some(damage.long(entry.place + 6, no_header(sound, random, right)))
}

fn other(sound: &Sound, random: &mut Random) -> Option<Damage> {
    let (damage, entry) = some_entry(sound, random, Step::FilePosition)?;
    let position = other_kind(sound, random, Kind::SubBlock)?;
    Some(damage.long(entry.place + 6, position))
}

fn file_segment(sound: &Sound, random: &mut Random) -> Option<Damage> {
    let (damage, entry) = some_entry(sound, random, Step::FilePosition)?;
    Some(damage.long(entry.place + 6, 0))
}

/// The named sub-block itself becomes a DELETED segment.
fn deleted(sound: &Sound, random: &mut Random) -> Option<Damage> {
    let firsts = (0..sound.entries.len()).filter(|&k| sound.entries[k].first);
    let index = random.pick_from(firsts.collect())?;
    let entry = &sound.entries[index];
    let damage = Damage::new(entry.place, Order::entry(index, Step::FilePosition));
    let header = sound.sub_block(entry).position;
    Some(damage.write(header, Kind::Deleted.name()))
}
