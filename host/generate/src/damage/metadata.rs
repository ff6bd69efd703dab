//! Row 10 for the metadata segment.

use super::{Clause, Damage, Order};
use crate::random::Random;
use crate::segment::SegmentPlace;
use crate::sound::{MetadataPlace, Sound};

pub(super) const CLAUSES: &[Clause] = &[
    Clause::new(
        "10: the metadata's fixed part doesn't fit its room",
        10,
        fixed_part,
    ),
    Clause::new("10: XmlSize negative", 10, xml_negative),
    Clause::new(
        "10: the XML's AttachmentSize negative",
        10,
        attachment_negative,
    ),
    Clause::new(
        "10: the metadata's sizes don't fit its room",
        10,
        room_short,
    ),
    Clause::new("10: XmlSize doesn't fit", 10, xml_over),
    Clause::new(
        "10: the XML's AttachmentSize doesn't fit",
        10,
        attachment_over,
    ),
    Clause::new(
        "10: the metadata's sizes fit modulo 2^32 only",
        10,
        sizes_wrap,
    ),
];

fn parts(sound: &Sound) -> Option<(Damage, MetadataPlace, SegmentPlace)> {
    let metadata = sound.metadata?;
    let segment = sound.segments[metadata.segment];
    let damage = Damage::new(segment.position, Order::METADATA);
    Some((damage, metadata, segment))
}

fn fixed_part(sound: &Sound, random: &mut Random) -> Option<Damage> {
    let (damage, _, segment) = parts(sound)?;
    let used = random.pick(&[1, 7, 8, 255]);
    Some(damage.long(segment.position + 24, used))
}

fn xml_negative(sound: &Sound, random: &mut Random) -> Option<Damage> {
    let (damage, metadata, segment) = parts(sound)?;
    let size = random.pick(&[-1, i32::MIN, metadata.xml_size as i32 | i32::MIN]);
    Some(damage.int(segment.content(), size))
}

fn attachment_negative(sound: &Sound, random: &mut Random) -> Option<Damage> {
    let (damage, metadata, segment) = parts(sound)?;
    let size = random.pick(&[-1, i32::MIN, metadata.attachment_size as i32 | i32::MIN]);
    Some(damage.int(segment.content() + 4, size))
}

/// The room ends behind the fixed part and before the attachment's end.
fn room_short(sound: &Sound, random: &mut Random) -> Option<Damage> {
    let (damage, metadata, segment) = parts(sound)?;
    let both = metadata.xml_size + metadata.attachment_size;
    if both == 0 {
        return None;
    }
    let used = 256 + random.below(both);
    Some(damage.long(segment.position + 24, used as i64))
}

/// The least size that is over the room, beside the other size.
fn least(segment: &SegmentPlace, other: usize) -> i32 {
    (segment.room() - 256 - other + 1) as i32
}

fn xml_over(sound: &Sound, random: &mut Random) -> Option<Damage> {
    let (damage, metadata, segment) = parts(sound)?;
    let least = least(&segment, metadata.attachment_size);
    Some(damage.int(segment.content(), random.pick(&[least, i32::MAX])))
}

fn attachment_over(sound: &Sound, random: &mut Random) -> Option<Damage> {
    let (damage, metadata, segment) = parts(sound)?;
    let least = least(&segment, metadata.xml_size);
    Some(damage.int(segment.content() + 4, random.pick(&[least, i32::MAX])))
}

fn sizes_wrap(sound: &Sound, _: &mut Random) -> Option<Damage> {
    let (damage, _, segment) = parts(sound)?;
    let content = segment.content();
    Some(damage.int(content, i32::MAX).int(content + 4, i32::MAX))
}
