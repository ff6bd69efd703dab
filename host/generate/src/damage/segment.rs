//! Rows 1 to 5: the length and the walk.

use super::{Clause, Damage, Order};
use crate::format::Kind;
use crate::random::Random;
use crate::sound::Sound;

/// The most segments of a file.
const MOST_SEGMENTS: usize = 8_192;

pub(super) const CLAUSES: &[Clause] = &[
    Clause::new("1: length 0", 1, length_zero),
    Clause::new("1: length not a multiple of 32", 1, length_ragged),
    Clause::new("2: unknown name", 2, name_unknown),
    Clause::new("2: a name in small letters", 2, name_small),
    Clause::new("2: a name not padded with zero bytes", 2, name_padding),
    Clause::new("2: no name", 2, name_empty),
    Clause::new("3: AllocatedSize negative", 3, allocated_negative),
    Clause::new("3: AllocatedSize not a multiple of 32", 3, allocated_ragged),
    Clause::new("3: UsedSize negative", 3, used_negative),
    Clause::new("3: UsedSize larger than AllocatedSize", 3, used_larger),
    Clause::new("3: end past the file", 3, end_past),
    Clause::new("3: end past 2^63", 3, end_past_long),
    Clause::new("3: the file cut short", 3, file_cut),
    Clause::new("4: more than 8,192 segments", 4, too_many),
    Clause::new("5: the first isn't the file segment", 5, first_is_not_file),
    Clause::new("5: a later one is the file segment", 5, later_is_file),
    Clause::new("5: the file segment's room under 80", 5, room_under_80),
    Clause::new(
        "5: the file segment's room under 80 by UsedSize 0",
        5,
        room_under_80_unused,
    ),
];

fn length_zero(_: &Sound, _: &mut Random) -> Option<Damage> {
    Some(Damage::new(0, Order::LENGTH).cut(0))
}

fn length_ragged(sound: &Sound, random: &mut Random) -> Option<Damage> {
    let ragged = Damage::new(0, Order::LENGTH);
    let by = 1 + random.below(31);
    Some(if random.percent(50) {
        ragged.cut(sound.bytes.len() - by)
    } else {
        ragged.append(random.bytes(by))
    })
}

/// Damage to some segment with the offset of its header.
fn some_segment(sound: &Sound, random: &mut Random, number: u32) -> (Damage, usize) {
    let index = random.below(sound.segments.len());
    let position = sound.segments[index].position;
    let damage = Damage::new(position, Order::segment(index, number));
    (damage, index)
}

fn name_unknown(sound: &Sound, random: &mut Random) -> Option<Damage> {
    let (damage, index) = some_segment(sound, random, 2);
    let segment = sound.segments[index];
    let letters = letters(segment.kind);
    let at = segment.position + random.below(letters);
    let change = 1 << random.below(8);
    Some(damage.write(at, &[sound.bytes[at] ^ change]))
}

fn name_small(sound: &Sound, random: &mut Random) -> Option<Damage> {
    let (damage, index) = some_segment(sound, random, 2);
    let segment = sound.segments[index];
    Some(damage.write(segment.position, &segment.kind.name().to_ascii_lowercase()))
}

fn name_padding(sound: &Sound, random: &mut Random) -> Option<Damage> {
    let (damage, index) = some_segment(sound, random, 2);
    let segment = sound.segments[index];
    let letters = letters(segment.kind);
    let at = segment.position + letters + random.below(16 - letters);
    Some(damage.write(at, &[random.pick(&[1, b' ', b'A', 0x80])]))
}

fn name_empty(sound: &Sound, random: &mut Random) -> Option<Damage> {
    let (damage, index) = some_segment(sound, random, 2);
    Some(damage.write(sound.segments[index].position, &[0; 16]))
}

/// The length of a name without its padding.
fn letters(kind: Kind) -> usize {
    kind.name().iter().take_while(|&&b| b != 0).count()
}

/// Damage to some segment's AllocatedSize.
fn allocated(
    sound: &Sound,
    random: &mut Random,
    size: impl Fn(&mut Random, usize) -> i64,
) -> Option<Damage> {
    let (damage, index) = some_segment(sound, random, 3);
    let at = sound.segments[index].position + 16;
    Some(damage.long(at, size(random, index)))
}

/// Damage to some segment's UsedSize.
fn used(
    sound: &Sound,
    random: &mut Random,
    size: impl Fn(&mut Random, usize) -> i64,
) -> Option<Damage> {
    let (damage, index) = some_segment(sound, random, 3);
    let at = sound.segments[index].position + 24;
    Some(damage.long(at, size(random, index)))
}

fn allocated_negative(sound: &Sound, random: &mut Random) -> Option<Damage> {
    allocated(sound, random, |random, index| {
        let right = sound.segments[index].allocated as i64;
        random.pick(&[-32, -64, -right - 32, i64::MIN, right | i64::MIN])
    })
}

fn allocated_ragged(sound: &Sound, random: &mut Random) -> Option<Damage> {
    allocated(sound, random, |random, index| {
        let right = sound.segments[index].allocated as i64;
        let by = random.between(1, 31);
        if right >= 32 {
            right - by
        } else {
            right + by
        }
    })
}

fn used_negative(sound: &Sound, random: &mut Random) -> Option<Damage> {
    used(sound, random, |random, index| {
        let right = sound.segments[index].used as i64;
        random.pick(&[-1, -32, i64::MIN, right | i64::MIN])
    })
}

fn used_larger(sound: &Sound, random: &mut Random) -> Option<Damage> {
    used(sound, random, |random, index| {
        let allocated = sound.segments[index].allocated as i64;
        let wide = allocated + (1 << 32);
        random.pick(&[allocated + 1, allocated + 32, wide, i64::MAX])
    })
}

fn end_past(sound: &Sound, random: &mut Random) -> Option<Damage> {
    allocated(sound, random, |random, index| {
        let segment = sound.segments[index];
        let whole = (sound.bytes.len() - segment.content()) as i64;
        let wide = segment.allocated as i64 + (1 << 32);
        random.pick(&[whole + 32, whole + 32, whole + 64, wide, 1 << 40])
    })
}

fn end_past_long(sound: &Sound, random: &mut Random) -> Option<Damage> {
    allocated(sound, random, |_, _| i64::MAX - 31)
}

fn file_cut(sound: &Sound, random: &mut Random) -> Option<Damage> {
    let index = sound.segments.len() - 1;
    let last = sound.segments[index];
    if last.allocated == 0 {
        return None;
    }
    let lost = 32 * (1 + random.below(last.allocated / 32));
    let damage = Damage::new(last.position, Order::segment(index, 3));
    Some(damage.cut(sound.bytes.len() - lost))
}

/// A large file, so in one of ten only.
fn too_many(sound: &Sound, random: &mut Random) -> Option<Damage> {
    if !random.percent(10) {
        return None;
    }
    let more = MOST_SEGMENTS - sound.segments.len();
    let place = sound.bytes.len() + 32 * more;
    let damage = Damage::new(place, Order::segment(MOST_SEGMENTS, 4));
    let mut tail = Kind::Deleted.name().to_vec();
    tail.extend([0; 16]);
    let mut tail = tail.repeat(more);
    // Nothing of the last one is read.
    let last = match random.below(3) {
        0 => [Kind::Deleted.name(), &[0; 16][..]].concat(),
        1 => [Kind::File.name(), &[0xFF; 16][..]].concat(),
        _ => random.bytes(32),
    };
    tail.extend(last);
    Some(damage.append(tail))
}

fn first_is_not_file(_: &Sound, random: &mut Random) -> Option<Damage> {
    let damage = Damage::new(0, Order::segment(0, 5));
    let kind = random.pick(&Kind::ALL[1..]);
    Some(damage.write(0, kind.name()))
}

fn later_is_file(sound: &Sound, random: &mut Random) -> Option<Damage> {
    let index = 1 + random.below(sound.segments.len() - 1);
    let position = sound.segments[index].position;
    let damage = Damage::new(position, Order::segment(index, 5));
    Some(damage.write(position, Kind::File.name()))
}

fn room_under_80(_: &Sound, random: &mut Random) -> Option<Damage> {
    let used = random.pick(&[1, 32, 78, 79]);
    Some(Damage::new(0, Order::segment(0, 5)).long(24, used))
}

/// What stands behind the shorter segment is not looked at any more.
fn room_under_80_unused(_: &Sound, random: &mut Random) -> Option<Damage> {
    let allocated = random.pick(&[0, 32, 64]);
    let damage = Damage::new(0, Order::segment(0, 5));
    Some(damage.long(16, allocated).long(24, 0))
}
