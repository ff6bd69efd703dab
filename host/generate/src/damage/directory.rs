//! Row 10 for the sub-block directory.

use super::order::Step;
use super::{Clause, Damage, Order};
use crate::limits::{directory_of, shortest_entry};
use crate::random::Random;
use crate::sound::Sound;

pub(super) const CLAUSES: &[Clause] = &[
    Clause::new(
        "10: the directory's fixed part doesn't fit its room",
        10,
        fixed_part,
    ),
    Clause::new(
        "10: the directory's EntryCount negative",
        10,
        count_negative,
    ),
    Clause::new("10: the directory's EntryCount over 4,096", 10, count_over),
    Clause::new(
        "10: 4,097 entries that fit the directory",
        10,
        count_over_that_fits,
    ),
    Clause::new(
        "10: an entry's first 32 bytes don't fit the directory",
        10,
        first_bytes,
    ),
    Clause::new("10: an entry more than fits the directory", 10, one_more),
    Clause::new(
        "10: the rest of an entry doesn't fit the directory",
        10,
        rest,
    ),
    Clause::new(
        "10: more dimensions than fit the directory",
        10,
        more_dimensions,
    ),
];

/// Damage before the first entry.
fn whole(sound: &Sound) -> Damage {
    let position = sound.segments[sound.directory].position;
    Damage::new(position, Order::DIRECTORY)
}

/// Damage at an entry.
fn at_entry(sound: &Sound, index: usize, step: Step) -> Damage {
    let position = sound.segments[sound.directory].position;
    Damage::new(position, Order::entry(index, step))
}

fn count_at(sound: &Sound) -> usize {
    sound.segments[sound.directory].content()
}

fn used_at(sound: &Sound) -> usize {
    sound.segments[sound.directory].position + 24
}

fn fixed_part(sound: &Sound, random: &mut Random) -> Option<Damage> {
    let used = random.pick(&[1, 3, 4, 96, 127]);
    Some(whole(sound).long(used_at(sound), used))
}

fn count_negative(sound: &Sound, random: &mut Random) -> Option<Damage> {
    let count = random.pick(&[-1, i32::MIN, sound.entries.len() as i32 | i32::MIN]);
    Some(whole(sound).int(count_at(sound), count))
}

fn count_over(sound: &Sound, random: &mut Random) -> Option<Damage> {
    let count = random.pick(&[4_097, 65_536, i32::MAX]);
    Some(whole(sound).int(count_at(sound), count))
}

/// A large file, so in one of ten only.
fn count_over_that_fits(sound: &Sound, random: &mut Random) -> Option<Damage> {
    if !random.percent(10) {
        return None;
    }
    let entry = shortest_entry(sound)?;
    let position = sound.bytes.len();
    let damage = Damage::new(position, Order::DIRECTORY).long(84, position as i64);
    Some(damage.append(directory_of(sound, entry, 4_097)))
}

/// The room ends within some entry.
fn first_bytes(sound: &Sound, random: &mut Random) -> Option<Damage> {
    let index = random.pick_from((0..sound.entries.len()).collect())?;
    let offset = sound.entries[index].place - count_at(sound);
    let room = offset + random.pick(&[0, 1, 28, 31]);
    let damage = at_entry(sound, index, Step::FirstBytes);
    Some(damage.long(used_at(sound), room as i64))
}

/// Fewer than 32 bytes are left behind the last entry.
fn one_more(sound: &Sound, _: &mut Random) -> Option<Damage> {
    let directory = sound.segments[sound.directory];
    if directory.room() - directory.needed >= 32 {
        return None;
    }
    let count = sound.entries.len();
    let damage = at_entry(sound, count, Step::FirstBytes);
    Some(damage.int(count_at(sound), count as i32 + 1))
}

fn rest(sound: &Sound, random: &mut Random) -> Option<Damage> {
    let index = random.pick_from((0..sound.entries.len()).collect())?;
    let entry = &sound.entries[index];
    let offset = entry.place - count_at(sound);
    let length = sound.tile(entry).entry_length();
    let held = 32 + random.below(length - 32);
    let room = offset + random.pick(&[32, held, length - 1]);
    let damage = at_entry(sound, index, Step::Rest);
    Some(damage.long(used_at(sound), room as i64))
}

/// The last entry's DimensionCount rises until the entry is over the room.
fn more_dimensions(sound: &Sound, random: &mut Random) -> Option<Damage> {
    let index = sound.entries.len().checked_sub(1)?;
    let entry = &sound.entries[index];
    let offset = entry.place - count_at(sound);
    let room = sound.segments[sound.directory].room();
    let too_many = (1..=16).filter(|count| offset + 32 + 20 * count > room);
    let count = random.pick_from(too_many.collect())?;
    let damage = at_entry(sound, index, Step::Rest);
    Some(damage.int(entry.place + 28, count as i32))
}
