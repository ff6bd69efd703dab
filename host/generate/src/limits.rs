//! Files at the limits: the most segments, entries, attachments, and bytes of a listing.

use crate::format::Kind;
use crate::random::Random;
use crate::sound::{AttachmentPlace, EntryPlace, Sound};

/// A limit, and how a sound file is brought to it.
pub struct Limit {
    /// What the file reaches.
    pub name: &'static str,
    make: fn(&Sound, &mut Random) -> Option<Vec<u8>>,
}

impl Limit {
    /// The file at the limit, which a reader must accept, or nothing where
    /// this one can't be brought to it.
    pub fn reach(&self, sound: &Sound, random: &mut Random) -> Option<Vec<u8>> {
        (self.make)(sound, random)
    }
}

/// Files that must be accepted, and listed.
pub const LIMITS: &[Limit] = &[
    Limit {
        name: "8,192 segments",
        make: most_segments,
    },
    Limit {
        name: "4,096 entries",
        make: most_entries,
    },
    Limit {
        name: "4,096 attachments",
        make: most_attachments,
    },
    Limit {
        name: "65,536 bytes",
        make: longest_listed,
    },
];

/// Inputs of which the listing says 30.
pub const LISTING_CLAUSES: &[Limit] = &[
    Limit {
        name: "30: an accepted file over 65,536 bytes",
        make: longer_than_listed,
    },
    Limit {
        name: "30: other bytes over 65,536",
        make: bytes_longer_than_listed,
    },
];

/// Accepted files whose clean file has 8,192 segments.
pub const REPACK_LIMITS: &[Limit] = &[
    Limit {
        name: "8,192 segments: 4,096 sub-blocks, 4,092 attachments, metadata",
        make: |sound, _| repacked(sound, true, 4_096, 4_092),
    },
    Limit {
        name: "8,192 segments: 4,093 sub-blocks, 4,096 attachments, no metadata",
        make: |sound, _| repacked(sound, false, 4_093, 4_096),
    },
];

/// Accepted files whose clean file would have more.
pub const REPACK_CLAUSES: &[Limit] = &[
    Limit {
        name: "36: 4,096 sub-blocks, 4,093 attachments, metadata",
        make: |sound, _| repacked(sound, true, 4_096, 4_093),
    },
    Limit {
        name: "36: 4,096 sub-blocks, 4,094 attachments, no metadata",
        make: |sound, _| repacked(sound, false, 4_096, 4_094),
    },
    Limit {
        name: "36: 4,093 sub-blocks, 4,096 attachments, metadata",
        make: |sound, _| repacked(sound, true, 4_093, 4_096),
    },
    Limit {
        name: "36: 4,096 sub-blocks, 4,096 attachments, no metadata",
        make: |sound, _| repacked(sound, false, 4_096, 4_096),
    },
];

/// So many entries of one sub-block, so many of one attachment, for a file with or without
/// a metadata segment.
fn repacked(sound: &Sound, metadata: bool, tiles: usize, attachments: usize) -> Option<Vec<u8>> {
    if sound.metadata.is_some() != metadata {
        return None;
    }
    let directory = directory_of(sound, shortest_entry(sound)?, tiles);
    let listed = attachment_directory_of(sound, sound.attachments.first()?, attachments);
    let bytes = with_named(&sound.bytes, 84, &directory);
    Some(with_named(&bytes, 104, &listed))
}

fn most_segments(sound: &Sound, _: &mut Random) -> Option<Vec<u8>> {
    let more = 8_192 - sound.segments.len();
    let mut bytes = sound.bytes.clone();
    bytes.extend(segment(Kind::Deleted, 0, &[]).repeat(more));
    Some(bytes)
}

fn most_entries(sound: &Sound, _: &mut Random) -> Option<Vec<u8>> {
    let directory = directory_of(sound, shortest_entry(sound)?, 4_096);
    Some(with_named(&sound.bytes, 84, &directory))
}

fn most_attachments(sound: &Sound, _: &mut Random) -> Option<Vec<u8>> {
    let directory = attachment_directory_of(sound, sound.attachments.first()?, 4_096);
    Some(with_named(&sound.bytes, 104, &directory))
}

fn longest_listed(sound: &Sound, random: &mut Random) -> Option<Vec<u8>> {
    Some(padded(sound, random, 65_536))
}

fn longer_than_listed(sound: &Sound, random: &mut Random) -> Option<Vec<u8>> {
    Some(padded(sound, random, 65_568))
}

fn bytes_longer_than_listed(sound: &Sound, random: &mut Random) -> Option<Vec<u8>> {
    let mut bytes = sound.bytes.clone();
    bytes.resize(65_537 + random.below(40), 0);
    Some(bytes)
}

/// The sound file with a DELETED segment behind it, so long in all.
fn padded(sound: &Sound, random: &mut Random, length: usize) -> Vec<u8> {
    let rest = length - sound.bytes.len() - 32;
    let used = random.below(rest + 1);
    let mut bytes = sound.bytes.clone();
    bytes.extend(segment(Kind::Deleted, used, &vec![0; rest]));
    bytes
}

/// The file with a segment behind it that the position at `field` names.
fn with_named(file: &[u8], field: usize, segment: &[u8]) -> Vec<u8> {
    let position = file.len() as i64;
    let mut bytes = file.to_vec();
    bytes[field..field + 8].copy_from_slice(&position.to_le_bytes());
    bytes.extend(segment);
    bytes
}

/// The entry of the fewest dimensions.
pub(crate) fn shortest_entry(sound: &Sound) -> Option<&EntryPlace> {
    let length = |entry: &&EntryPlace| sound.tile(entry).entry_length();
    sound.entries.iter().min_by_key(length)
}

/// A directory that lists one entry again and again.
pub(crate) fn directory_of(sound: &Sound, entry: &EntryPlace, count: usize) -> Vec<u8> {
    let length = sound.tile(entry).entry_length();
    listing(sound, Kind::Directory, 128, entry.place, length, count)
}

/// An attachment directory that lists one attachment again and again.
pub(crate) fn attachment_directory_of(
    sound: &Sound,
    entry: &AttachmentPlace,
    count: usize,
) -> Vec<u8> {
    listing(
        sound,
        Kind::AttachmentDirectory,
        256,
        entry.place,
        128,
        count,
    )
}

fn listing(
    sound: &Sound,
    kind: Kind,
    fixed: usize,
    entry: usize,
    length: usize,
    count: usize,
) -> Vec<u8> {
    let mut content = (count as i32).to_le_bytes().to_vec();
    content.resize(fixed, 0);
    for _ in 0..count {
        content.extend(&sound.bytes[entry..entry + length]);
    }
    let used = content.len();
    content.resize(used.next_multiple_of(32), 0);
    segment(kind, used, &content)
}

/// A segment whose content is as long as it is allocated.
fn segment(kind: Kind, used: usize, content: &[u8]) -> Vec<u8> {
    let mut bytes = kind.name().to_vec();
    bytes.extend((content.len() as i64).to_le_bytes());
    bytes.extend((used as i64).to_le_bytes());
    bytes.extend(content);
    bytes
}
