//! Rows 10, 11, 7, 14, 15 and 16 for attachments and their directory.

use super::order::Step;
use super::position::{no_header, other_kind};
use super::{Clause, Damage, Order};
use crate::format::Kind;
use crate::limits::attachment_directory_of;
use crate::random::Random;
use crate::segment::SegmentPlace;
use crate::sound::{AttachmentPlace, Sound};

pub(super) const CLAUSES: &[Clause] = &[
    Clause::new(
        "10: the attachment directory's fixed part doesn't fit its room",
        10,
        fixed_part,
    ),
    Clause::new(
        "10: the attachment directory's EntryCount negative",
        10,
        count_negative,
    ),
    Clause::new(
        "10: the attachment directory's EntryCount over 4,096",
        10,
        count_over,
    ),
    Clause::new(
        "10: 4,097 entries that fit the attachment directory",
        10,
        count_over_that_fits,
    ),
    Clause::new(
        "10: the entries don't fit the attachment directory",
        10,
        room_short,
    ),
    Clause::new(
        "10: more entries than fit the attachment directory",
        10,
        more,
    ),
    Clause::new("11: an attachment's entry without its mark", 11, mark),
    Clause::new("11: an attachment's name without a zero byte", 11, name),
    Clause::new("7: FilePart of an attachment's entry", 7, file_part),
    Clause::new("14: an attachment's entry names no segment", 14, nowhere),
    Clause::new("14: an attachment's entry names another kind", 14, other),
    Clause::new(
        "14: an attachment's entry names a DELETED segment",
        14,
        deleted,
    ),
    Clause::new(
        "15: an attachment's fixed part doesn't fit the room",
        15,
        attachment_fixed_part,
    ),
    Clause::new("15: an attachment's copy differs", 15, copy),
    Clause::new(
        "15: an attachment's copy differs in a byte that an entry DV spares",
        15,
        copy_spare,
    ),
    Clause::new(
        "15: an attachment's copy differs behind the name's end",
        15,
        copy_name_end,
    ),
    Clause::new("16: an attachment's DataSize negative", 16, data_negative),
    Clause::new("16: an attachment's DataSize doesn't fit", 16, data_over),
    Clause::new(
        "16: an attachment's data doesn't fit its room",
        16,
        data_room_short,
    ),
];

/// The directory, and damage to it.
fn directory(sound: &Sound) -> Option<(Damage, SegmentPlace)> {
    let segment = sound.segments[sound.attachment_directory?];
    let damage = Damage::new(segment.position, Order::ATTACHMENT_DIRECTORY);
    Some((damage, segment))
}

fn fixed_part(sound: &Sound, random: &mut Random) -> Option<Damage> {
    let (damage, segment) = directory(sound)?;
    let used = random.pick(&[1, 3, 4, 128, 255]);
    Some(damage.long(segment.position + 24, used))
}

fn count_negative(sound: &Sound, random: &mut Random) -> Option<Damage> {
    let (damage, segment) = directory(sound)?;
    let high = sound.attachments.len() as i32 | i32::MIN;
    Some(damage.int(segment.content(), random.pick(&[-1, i32::MIN, high])))
}

fn count_over(sound: &Sound, random: &mut Random) -> Option<Damage> {
    let (damage, segment) = directory(sound)?;
    // 2^25 entries of 128 bytes are 2^32.
    let wraps = (1 << 25) + sound.attachments.len() as i32;
    let count = random.pick(&[4_097, wraps, i32::MAX]);
    Some(damage.int(segment.content(), count))
}

/// A large file, so in one of ten only.
fn count_over_that_fits(sound: &Sound, random: &mut Random) -> Option<Damage> {
    if !random.percent(10) {
        return None;
    }
    let attachment = sound.attachments.first()?;
    let position = sound.bytes.len();
    let damage = Damage::new(position, Order::ATTACHMENT_DIRECTORY).long(104, position as i64);
    Some(damage.append(attachment_directory_of(sound, attachment, 4_097)))
}

fn room_short(sound: &Sound, random: &mut Random) -> Option<Damage> {
    let (damage, segment) = directory(sound)?;
    let entries = 128 * sound.attachments.len();
    if entries == 0 {
        return None;
    }
    let held = random.below(entries);
    let used = 256 + random.pick(&[held, entries - 1]);
    Some(damage.long(segment.position + 24, used as i64))
}

fn more(sound: &Sound, random: &mut Random) -> Option<Damage> {
    let (damage, segment) = directory(sound)?;
    let fitting = ((segment.room() - 256) / 128) as i32;
    Some(damage.int(segment.content(), random.pick(&[fitting + 1, 4_096])))
}

/// Damage at some entry.
fn some_entry<'a>(
    sound: &'a Sound,
    random: &mut Random,
    step: Step,
) -> Option<(Damage, &'a AttachmentPlace)> {
    let index = random.pick_from((0..sound.attachments.len()).collect())?;
    let entry = &sound.attachments[index];
    let damage = Damage::new(entry.place, Order::attachment(index, step));
    Some((damage, entry))
}

fn mark(sound: &Sound, random: &mut Random) -> Option<Damage> {
    let (damage, entry) = some_entry(sound, random, Step::WellFormed)?;
    let mark = random.pick(&[b"A2", b"B1", b"1A", b"a1", b"DV", b"\0\0"]);
    Some(damage.write(entry.place, mark))
}

fn name(sound: &Sound, random: &mut Random) -> Option<Damage> {
    let (damage, entry) = some_entry(sound, random, Step::WellFormed)?;
    let name = random.bytes(80).iter().map(|b| b | 1).collect::<Vec<u8>>();
    // The file type before it may end in a zero byte, which is none of the name's.
    let before = random.pick(&[0, 0x41]);
    Some(damage.write(entry.place + 47, &[&[before], &name[..]].concat()))
}

fn file_part(sound: &Sound, random: &mut Random) -> Option<Damage> {
    let (damage, entry) = some_entry(sound, random, Step::FilePart)?;
    Some(damage.int(entry.place + 20, random.not_zero()))
}

fn nowhere(sound: &Sound, random: &mut Random) -> Option<Damage> {
    let (damage, entry) = some_entry(sound, random, Step::FilePosition)?;
    let right = sound.segments[entry.segment].position;
    Some(damage.long(entry.place + 12, no_header(sound, random, right)))
}

fn other(sound: &Sound, random: &mut Random) -> Option<Damage> {
    let (damage, entry) = some_entry(sound, random, Step::FilePosition)?;
    let position = other_kind(sound, random, Kind::Attachment)?;
    Some(damage.long(entry.place + 12, position))
}

/// An entry that no earlier one shares its attachment with, its segment, and
/// damage at the entry and at the segment.
fn first_entry(
    sound: &Sound,
    random: &mut Random,
    step: Step,
) -> Option<(Damage, AttachmentPlace, SegmentPlace)> {
    let firsts = (0..sound.attachments.len()).filter(|&k| sound.attachments[k].first);
    let index = random.pick_from(firsts.collect())?;
    let entry = sound.attachments[index];
    let segment = sound.segments[entry.segment];
    let damage = Damage::new(segment.position, Order::attachment(index, step));
    Some((damage, entry, segment))
}

/// The named attachment itself becomes a DELETED segment.
fn deleted(sound: &Sound, random: &mut Random) -> Option<Damage> {
    let (mut damage, entry, segment) = first_entry(sound, random, Step::FilePosition)?;
    damage.place = entry.place;
    Some(damage.write(segment.position, Kind::Deleted.name()))
}

fn attachment_fixed_part(sound: &Sound, random: &mut Random) -> Option<Damage> {
    let (damage, _, segment) = first_entry(sound, random, Step::Copy)?;
    let used = random.pick(&[1, 16, 144, 255]);
    Some(damage.long(segment.position + 24, used))
}

/// Another byte at an offset of the copy.
fn copy_byte(sound: &Sound, random: &mut Random, offset: usize) -> Option<Damage> {
    let (damage, _, segment) = first_entry(sound, random, Step::Copy)?;
    let at = segment.content() + 16 + offset;
    let change = 1 << random.below(8);
    Some(damage.write(at, &[sound.bytes[at] ^ change]))
}

fn copy(sound: &Sound, random: &mut Random) -> Option<Damage> {
    let offset = random.below(128);
    copy_byte(sound, random, offset)
}

fn copy_spare(sound: &Sound, random: &mut Random) -> Option<Damage> {
    let offset = random.pick(&[23, 24, 25, 26, 27]);
    copy_byte(sound, random, offset)
}

fn copy_name_end(sound: &Sound, random: &mut Random) -> Option<Damage> {
    copy_byte(sound, random, 127)
}

fn data_negative(sound: &Sound, random: &mut Random) -> Option<Damage> {
    let (damage, entry, segment) = first_entry(sound, random, Step::Sizes)?;
    let high = entry.data_size as i32 | i32::MIN;
    Some(damage.int(segment.content(), random.pick(&[-1, i32::MIN, high])))
}

fn data_over(sound: &Sound, random: &mut Random) -> Option<Damage> {
    let (damage, _, segment) = first_entry(sound, random, Step::Sizes)?;
    let least = (segment.room() - 256 + 1) as i32;
    Some(damage.int(segment.content(), random.pick(&[least, i32::MAX])))
}

fn data_room_short(sound: &Sound, random: &mut Random) -> Option<Damage> {
    let (damage, entry, segment) = first_entry(sound, random, Step::Sizes)?;
    if entry.data_size == 0 {
        return None;
    }
    let used = 256 + random.below(entry.data_size);
    Some(damage.long(segment.position + 24, used as i64))
}
