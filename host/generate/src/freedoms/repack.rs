//! Freedoms that a repack has to cope with: dead segments, orders, slack, and spare bytes
//! that are not zero.

use super::file::{named, OfFile};
use crate::format::Kind;
use crate::segment::SegmentPlace;
use crate::sound::Sound;

pub(super) const OF_REPACKS: &[OfFile] = &[
    ("no dead segment", |s| named(s).len() == s.segments.len()),
    ("a DELETED segment before all named ones", |s| {
        deleted(s).any(|k| named(s)[1..].iter().all(|n| k < *n))
    }),
    ("a DELETED segment between named ones", |s| {
        let [first, last] = [named(s)[1], *named(s).last().expect("a directory")];
        deleted(s).any(|k| first < k && k < last)
    }),
    ("a DELETED segment behind all named ones", |s| {
        deleted(s).any(|k| named(s).iter().all(|n| *n < k))
    }),
    ("a dead directory with sound entries", |s| {
        dead(s, Kind::Directory, |g| {
            g.needed > 128 && s.bytes[g.content() + 128..].starts_with(b"DV")
        })
    }),
    ("a dead sub-block whose copy names it", |s| {
        dead(s, Kind::SubBlock, |g| names_itself(s, g, 6))
    }),
    ("a dead metadata segment with sound sizes", |s| {
        dead(s, Kind::Metadata, |g| g.needed >= 256 && sizes_fit(s, g))
    }),
    ("a dead attachment directory with sound entries", |s| {
        dead(s, Kind::AttachmentDirectory, |g| {
            g.needed > 256 && s.bytes[g.content() + 256..].starts_with(b"A1")
        })
    }),
    ("a dead attachment whose copy names it", |s| {
        dead(s, Kind::Attachment, |g| names_itself(s, g, 12))
    }),
    // Orders.
    ("the directory before all listed sub-blocks", |s| {
        !s.entries.is_empty() && s.entries.iter().all(|e| s.directory < e.segment)
    }),
    ("the metadata segment before the directory", |s| {
        s.metadata.is_some_and(|m| m.segment < s.directory)
    }),
    ("the attachment directory before the directory", |s| {
        s.attachment_directory.is_some_and(|k| k < s.directory)
    }),
    ("an attachment before its directory", |s| {
        s.attachments
            .iter()
            .any(|a| Some(a.segment) < s.attachment_directory)
    }),
    ("an attachment behind its directory", |s| {
        s.attachments
            .iter()
            .any(|a| Some(a.segment) > s.attachment_directory)
    }),
    ("entries A1 in another order than attachments", |s| {
        s.attachments
            .windows(2)
            .any(|w| w[0].segment > w[1].segment)
    }),
    // Slack, by kind.
    ("UsedSize 0 of the metadata segment", |s| {
        any(s, Kind::Metadata, |g| g.used == 0)
    }),
    ("UsedSize 0 of the attachment directory", |s| {
        any(s, Kind::AttachmentDirectory, |g| g.used == 0)
    }),
    ("UsedSize 0 of an attachment", |s| {
        any(s, Kind::Attachment, |g| g.used == 0)
    }),
    ("UsedSize exact of the file segment", |s| {
        any(s, Kind::File, exact)
    }),
    ("UsedSize exact of the directory", |s| {
        any(s, Kind::Directory, exact)
    }),
    ("UsedSize exact of a sub-block", |s| {
        any(s, Kind::SubBlock, exact)
    }),
    ("UsedSize exact of the metadata segment", |s| {
        any(s, Kind::Metadata, exact)
    }),
    ("UsedSize exact of the attachment directory", |s| {
        any(s, Kind::AttachmentDirectory, exact)
    }),
    ("UsedSize exact of an attachment", |s| {
        any(s, Kind::Attachment, exact)
    }),
    ("room behind the XML's attachment", |s| {
        any(s, Kind::Metadata, |g| g.room() > g.needed)
    }),
    ("room behind the last entry A1", |s| {
        any(s, Kind::AttachmentDirectory, |g| g.room() > g.needed)
    }),
    ("more allocated than needed for the directory", |s| {
        any(s, Kind::Directory, large)
    }),
    ("more allocated than needed for a sub-block", |s| {
        any(s, Kind::SubBlock, large)
    }),
    ("more allocated than needed for the metadata segment", |s| {
        any(s, Kind::Metadata, large)
    }),
    (
        "more allocated than needed for the attachment directory",
        |s| any(s, Kind::AttachmentDirectory, large),
    ),
    ("more allocated than needed for an attachment", |s| {
        any(s, Kind::Attachment, large)
    }),
    ("the file segment allocated under 512 bytes", |s| {
        s.segments[0].allocated < 512
    }),
    ("the file segment allocated 512 bytes", |s| {
        s.segments[0].allocated == 512
    }),
    ("the file segment allocated over 512 bytes", |s| {
        s.segments[0].allocated > 512
    }),
    // Lengths, by the padding that they get.
    ("a listed sub-block that needs no padding", |s| {
        any(s, Kind::SubBlock, |g| g.needed % 32 == 0)
    }),
    ("a listed sub-block that needs 31 bytes of padding", |s| {
        any(s, Kind::SubBlock, |g| g.needed % 32 == 1)
    }),
    ("an attachment that needs 31 bytes of padding", |s| {
        any(s, Kind::Attachment, |g| g.needed % 32 == 1)
    }),
    ("XML that needs 31 bytes of padding", |s| {
        any(s, Kind::Metadata, |g| g.needed % 32 == 1)
    }),
    ("no XML and no attachment of it", |s| {
        any(s, Kind::Metadata, |g| g.needed == 256)
    }),
    ("metadata, pixels and an attachment in a sub-block", |s| {
        s.entries.iter().any(|e| {
            let tile = s.tile(e);
            !tile.metadata.bytes.is_empty() && !tile.attachment().is_empty()
        })
    }),
    // Bytes that are kept.
    ("Minor 0", |s| zero(s, 36, 40)),
    ("Minor not 0", |s| !zero(s, 36, 40)),
    (
        "GUIDs of the file segment not zero, and not the same",
        |s| {
            let [primary, file] = [&s.bytes[48..64], &s.bytes[64..80]];
            !zero(s, 48, 64) && !zero(s, 64, 80) && primary != file
        },
    ),
    ("bytes behind the zero byte of an attachment's name", |s| {
        s.attachments.iter().any(|a| {
            let name = &s.bytes[a.place + 48..a.place + 128];
            let end = name.iter().position(|byte| *byte == 0);
            end.is_some_and(|end| name[end..].iter().any(|byte| *byte != 0))
        })
    }),
    // Spare bytes that are not zero, each of which a repack leaves out.
    ("spare bytes 8 to 15 of the file segment", |s| {
        !zero(s, 40, 48)
    }),
    ("spare bytes of the file segment past 80", |s| {
        let room = s.segments[0].room().min(512);
        !zero(s, 32 + 80, 32 + room)
    }),
    ("spare bytes of the directory", |s| {
        let at = s.segments[s.directory].content();
        !zero(s, at + 4, at + 128)
    }),
    ("spare bytes of an entry, zero in its copy", |s| {
        spares(s).any(|(entry, copy)| entry != [0; 5] && copy == [0; 5])
    }),
    ("spare bytes of a copy, zero in its entry", |s| {
        spares(s).any(|(entry, copy)| entry == [0; 5] && copy != [0; 5])
    }),
    ("spare bytes of an entry, others in its copy", |s| {
        spares(s).any(|(entry, copy)| entry != copy && entry != [0; 5] && copy != [0; 5])
    }),
    ("a sub-block listed twice, with other spare bytes", |s| {
        s.entries.iter().any(|e| {
            let mut same = s.entries.iter().filter(|o| o.segment == e.segment);
            same.any(|o| five(s, o.place + 23) != five(s, e.place + 23))
        })
    }),
    ("spare bytes of a sub-block behind its copy", |s| {
        s.entries.iter().any(|e| {
            let tile = s.tile(e);
            let at = s.sub_block(e).content();
            !zero(s, at + 16 + tile.entry_length(), at + tile.fixed_part())
        })
    }),
    ("spare bytes of the metadata segment", |s| {
        any(s, Kind::Metadata, |g| {
            !zero(s, g.content() + 8, g.content() + 256)
        })
    }),
    ("spare bytes of the attachment directory", |s| {
        any(s, Kind::AttachmentDirectory, |g| {
            !zero(s, g.content() + 4, g.content() + 256)
        })
    }),
    ("spare bytes of an entry A1", |s| {
        s.attachments
            .iter()
            .any(|a| !zero(s, a.place + 2, a.place + 12))
    }),
    ("spare bytes of an attachment before its copy", |s| {
        any(s, Kind::Attachment, |g| {
            !zero(s, g.content() + 4, g.content() + 16)
        })
    }),
    ("spare bytes of an attachment behind its copy", |s| {
        any(s, Kind::Attachment, |g| {
            !zero(s, g.content() + 144, g.content() + 256)
        })
    }),
    ("bytes behind the content that are not zero", |s| {
        let named = named(s);
        let mut all = named.iter().map(|k| &s.segments[*k]);
        all.any(|g| !zero(s, g.content() + g.needed, g.end()))
    }),
];

fn zero(sound: &Sound, at: usize, end: usize) -> bool {
    sound.bytes[at..end].iter().all(|byte| *byte == 0)
}

fn five(sound: &Sound, at: usize) -> &[u8] {
    &sound.bytes[at..at + 5]
}

/// The spare bytes of each entry and of its copy.
fn spares(sound: &Sound) -> impl Iterator<Item = (&[u8], &[u8])> {
    sound.entries.iter().map(|e| {
        let copy = sound.sub_block(e).content() + 16;
        (five(sound, e.place + 23), five(sound, copy + 23))
    })
}

/// Is there a named segment of that kind like that?
fn any(sound: &Sound, kind: Kind, test: impl Fn(&SegmentPlace) -> bool) -> bool {
    let named = named(sound);
    let mut all = named.iter().map(|k| &sound.segments[*k]);
    all.any(|g| g.kind == kind && test(g))
}

/// UsedSize is the content's length.
fn exact(segment: &SegmentPlace) -> bool {
    segment.used == segment.needed
}

/// AllocatedSize could be less by 32.
fn large(segment: &SegmentPlace) -> bool {
    segment.allocated >= segment.needed.next_multiple_of(32) + 32
}

fn deleted(sound: &Sound) -> impl Iterator<Item = usize> + '_ {
    let all = 0..sound.segments.len();
    all.filter(|k| sound.segments[*k].kind == Kind::Deleted)
}

/// Is there a segment of that kind like that, and nothing names it?
fn dead(sound: &Sound, kind: Kind, test: impl Fn(&SegmentPlace) -> bool) -> bool {
    let named = named(sound);
    let mut all = sound.segments.iter().enumerate();
    all.any(|(k, g)| g.kind == kind && !named.contains(&k) && test(g))
}

/// Does the copy of the entry have the segment's position, at that offset?
fn names_itself(sound: &Sound, segment: &SegmentPlace, offset: usize) -> bool {
    let at = segment.content() + 16 + offset;
    let position = (segment.position as i64).to_le_bytes();
    segment.needed >= 256 && sound.bytes[at..].starts_with(&position)
}

/// Are both sizes those of the content?
fn sizes_fit(sound: &Sound, segment: &SegmentPlace) -> bool {
    let size = |at: usize| {
        let four = sound.bytes[at..at + 4].try_into();
        i64::from(i32::from_le_bytes(four.expect("four bytes")))
    };
    let both = size(segment.content()) + size(segment.content() + 4);
    256 + both == segment.needed as i64
}
