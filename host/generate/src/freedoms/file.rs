//! Freedoms of a whole file: its segments, directories and attachments.

use crate::format::Kind;
use crate::sound::Sound;

pub(super) type OfFile = (&'static str, fn(&Sound) -> bool);

pub(super) const OF_FILES: &[OfFile] = &[
    ("no entries", |s| s.entries.is_empty()),
    ("only pyramid tiles", |s| {
        !s.entries.is_empty() && s.entries.iter().all(|e| s.tile(e).is_pyramid_tile())
    }),
    ("a sub-block listed twice", |s| {
        s.entries.iter().any(|e| !e.first)
    }),
    ("a sub-block with layers listed twice", |s| {
        s.entries
            .iter()
            .any(|e| !e.first && s.tile(e).layered().is_some())
    }),
    ("a sound sub-block that is not listed", |s| {
        (0..s.tiles.len()).any(|k| s.entries.iter().all(|e| e.tile != k))
    }),
    ("a copy that differs in its spare bytes", |s| {
        s.entries
            .iter()
            .any(|e| spare_differs(s, e.place, s.sub_block(e).content() + 16))
    }),
    ("entries in another order than sub-blocks", |s| {
        s.entries.windows(2).any(|w| w[0].segment > w[1].segment)
    }),
    ("the directory behind a sub-block", |s| {
        s.entries.iter().any(|e| e.segment < s.directory)
    }),
    ("room behind the last entry", |s| roomy(s, s.directory)),
    ("a further entry behind the last one", |s| {
        s.segments[s.directory].room() >= s.segments[s.directory].needed + 72 && tail_is_entry(s)
    }),
    ("room behind a sub-block's attachment", |s| {
        s.entries.iter().any(|e| roomy(s, e.segment))
    }),
    ("UsedSize 0", |s| {
        s.segments.iter().any(|g| g.used == 0 && g.allocated > 0)
    }),
    ("UsedSize 0 of the file segment", |s| {
        s.segments[0].used == 0
    }),
    ("UsedSize 0 of the directory", |s| {
        s.segments[s.directory].used == 0
    }),
    ("UsedSize 0 of a sub-block", |s| {
        s.entries.iter().any(|e| s.sub_block(e).used == 0)
    }),
    ("UsedSize exact and under AllocatedSize", |s| {
        s.segments
            .iter()
            .any(|g| g.used == g.needed && g.used < g.allocated && g.used > 0)
    }),
    ("32 allocated bytes or more past the room", |s| {
        s.segments.iter().any(|g| g.allocated >= g.room() + 32)
    }),
    ("a segment of AllocatedSize 0", |s| {
        s.segments.iter().any(|g| g.allocated == 0)
    }),
    ("a DELETED segment", |s| {
        s.segments.iter().any(|g| g.kind == Kind::Deleted)
    }),
    ("an unnamed sub-block", |s| unnamed(s, Kind::SubBlock)),
    ("an unnamed directory", |s| unnamed(s, Kind::Directory)),
    ("an unnamed metadata segment", |s| {
        unnamed(s, Kind::Metadata)
    }),
    ("an unnamed attachment", |s| unnamed(s, Kind::Attachment)),
    ("an unnamed attachment directory", |s| {
        unnamed(s, Kind::AttachmentDirectory)
    }),
    ("a metadata segment in the file, none named", |s| {
        s.metadata.is_none() && s.segments.iter().any(|g| g.kind == Kind::Metadata)
    }),
    ("no metadata segment named", |s| s.metadata.is_none()),
    ("XML with an attachment", |s| {
        s.metadata
            .is_some_and(|m| m.xml_size > 0 && m.attachment_size > 0)
    }),
    ("XML without an attachment", |s| {
        s.metadata
            .is_some_and(|m| m.xml_size > 0 && m.attachment_size == 0)
    }),
    ("an attachment of empty XML", |s| {
        s.metadata
            .is_some_and(|m| m.xml_size == 0 && m.attachment_size > 0)
    }),
    ("no attachment directory named", |s| {
        s.attachment_directory.is_none()
    }),
    ("an empty attachment directory", |s| {
        s.attachment_directory.is_some() && s.attachments.is_empty()
    }),
    ("an attachment", |s| !s.attachments.is_empty()),
    ("several attachments", |s| s.attachments.len() >= 2),
    ("an attachment listed twice", |s| {
        s.attachments.iter().any(|a| !a.first)
    }),
    ("an attachment without data", |s| {
        s.attachments.iter().any(|a| a.data_size == 0)
    }),
    ("room behind an attachment's data", |s| {
        s.attachments.iter().any(|a| roomy(s, a.segment))
    }),
    ("an attachment's name of no bytes", |s| {
        s.attachments.iter().any(|a| s.bytes[a.place + 48] == 0)
    }),
    ("an attachment's name of 79 bytes", |s| {
        s.attachments
            .iter()
            .any(|a| !s.bytes[a.place + 48..][..79].contains(&0))
    }),
];

fn spare_differs(sound: &Sound, entry: usize, copy: usize) -> bool {
    sound.bytes[entry + 23..entry + 28] != sound.bytes[copy + 23..copy + 28]
}

fn roomy(sound: &Sound, segment: usize) -> bool {
    let place = &sound.segments[segment];
    place.room() > place.needed
}

fn tail_is_entry(sound: &Sound) -> bool {
    let place = &sound.segments[sound.directory];
    sound.bytes[place.content() + place.needed..].starts_with(b"DV")
}

/// The file segment and all that it or an entry names, in the file's order.
pub(super) fn named(sound: &Sound) -> Vec<usize> {
    let mut named = vec![0, sound.directory];
    named.extend(sound.entries.iter().map(|e| e.segment));
    named.extend(sound.metadata.map(|m| m.segment));
    named.extend(sound.attachment_directory);
    named.extend(sound.attachments.iter().map(|a| a.segment));
    named.sort();
    named.dedup();
    named
}

/// Is there a segment of that kind that nothing names?
fn unnamed(sound: &Sound, kind: Kind) -> bool {
    let named = named(sound);
    let of_kind = |k: &usize| sound.segments[*k].kind == kind;
    (0..sound.segments.len()).any(|k| of_kind(&k) && !named.contains(&k))
}
