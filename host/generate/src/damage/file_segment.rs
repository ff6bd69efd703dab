//! Rows 6 to 9: the file segment's fields.

use super::position::{no_header, other_kind};
use super::{Clause, Damage, Order};
use crate::format::Kind;
use crate::random::Random;
use crate::sound::Sound;

/// The offsets of the three positions in the file.
const DIRECTORY: usize = 84;
const METADATA: usize = 92;
const ATTACHMENTS: usize = 104;

pub(super) const CLAUSES: &[Clause] = &[
    Clause::new("6: Major not 1", 6, major),
    Clause::new("7: FilePart of the file segment", 7, file_part),
    Clause::new("8: UpdatePending not 0", 8, update_pending),
    Clause::new(
        "9: DirectoryPosition names no segment",
        9,
        directory_nowhere,
    ),
    Clause::new(
        "9: DirectoryPosition names another kind",
        9,
        directory_other,
    ),
    Clause::new("9: DirectoryPosition is 0", 9, directory_zero),
    Clause::new(
        "9: DirectoryPosition names a DELETED segment",
        9,
        directory_deleted,
    ),
    Clause::new("9: MetadataPosition names no segment", 9, metadata_nowhere),
    Clause::new("9: MetadataPosition names another kind", 9, metadata_other),
    Clause::new(
        "9: MetadataPosition names a DELETED segment",
        9,
        metadata_deleted,
    ),
    Clause::new(
        "9: AttachmentDirectoryPosition names no segment",
        9,
        attachments_nowhere,
    ),
    Clause::new(
        "9: AttachmentDirectoryPosition names another kind",
        9,
        attachments_other,
    ),
    Clause::new(
        "9: AttachmentDirectoryPosition names a DELETED segment",
        9,
        attachments_deleted,
    ),
];

fn major(_: &Sound, random: &mut Random) -> Option<Damage> {
    let wide = 1 + (1 << (8 + random.below(24)));
    let major = random.pick(&[0, 2, -1, 256, wide]);
    Some(Damage::new(0, Order::MAJOR).int(32, major))
}

fn file_part(_: &Sound, random: &mut Random) -> Option<Damage> {
    let part = random.not_zero();
    Some(Damage::new(0, Order::FILE_PART).int(32 + 48, part))
}

fn update_pending(_: &Sound, random: &mut Random) -> Option<Damage> {
    let pending = random.not_zero();
    Some(Damage::new(0, Order::UPDATE_PENDING).int(32 + 68, pending))
}

fn nowhere(
    sound: &Sound,
    random: &mut Random,
    field: usize,
    right: Option<usize>,
) -> Option<Damage> {
    let right = right.map_or(0, |index| sound.segments[index].position);
    let position = no_header(sound, random, right);
    Some(Damage::new(field, Order::position(field)).long(field, position))
}

fn other(sound: &Sound, random: &mut Random, field: usize, kind: Kind) -> Option<Damage> {
    let position = other_kind(sound, random, kind)?;
    Some(Damage::new(field, Order::position(field)).long(field, position))
}

/// The named segment itself becomes a DELETED one.
fn deleted(sound: &Sound, field: usize, named: Option<usize>) -> Option<Damage> {
    let header = sound.segments[named?].position;
    let damage = Damage::new(field, Order::position(field));
    Some(damage.write(header, Kind::Deleted.name()))
}

fn directory_nowhere(sound: &Sound, random: &mut Random) -> Option<Damage> {
    nowhere(sound, random, DIRECTORY, Some(sound.directory))
}

fn directory_other(sound: &Sound, random: &mut Random) -> Option<Damage> {
    other(sound, random, DIRECTORY, Kind::Directory)
}

fn directory_zero(_: &Sound, _: &mut Random) -> Option<Damage> {
    Some(Damage::new(DIRECTORY, Order::position(DIRECTORY)).long(DIRECTORY, 0))
}

fn directory_deleted(sound: &Sound, _: &mut Random) -> Option<Damage> {
    deleted(sound, DIRECTORY, Some(sound.directory))
}

fn metadata_nowhere(sound: &Sound, random: &mut Random) -> Option<Damage> {
    nowhere(sound, random, METADATA, sound.metadata.map(|m| m.segment))
}

fn metadata_other(sound: &Sound, random: &mut Random) -> Option<Damage> {
    other(sound, random, METADATA, Kind::Metadata)
}

fn metadata_deleted(sound: &Sound, _: &mut Random) -> Option<Damage> {
    deleted(sound, METADATA, sound.metadata.map(|m| m.segment))
}

fn attachments_nowhere(sound: &Sound, random: &mut Random) -> Option<Damage> {
    nowhere(sound, random, ATTACHMENTS, sound.attachment_directory)
}

fn attachments_other(sound: &Sound, random: &mut Random) -> Option<Damage> {
    other(sound, random, ATTACHMENTS, Kind::AttachmentDirectory)
}

fn attachments_deleted(sound: &Sound, _: &mut Random) -> Option<Damage> {
    deleted(sound, ATTACHMENTS, sound.attachment_directory)
}
