//! The walk over the segments: refusals 2, 3, 4 and 5.

use crate::bytes::{long, part};
use crate::refusal::{refuse_if, Refusal};

/// What a segment is, by its name.
#[derive(Clone, Copy, Debug, PartialEq, Eq)]
pub enum Kind {
    /// `ZISRAWFILE`
    File,
    /// `ZISRAWDIRECTORY`, the sub-block directory
    Directory,
    /// `ZISRAWSUBBLOCK`
    SubBlock,
    /// `ZISRAWMETADATA`
    Metadata,
    /// `ZISRAWATTACH`
    Attachment,
    /// `ZISRAWATTDIR`
    AttachmentDirectory,
    /// `DELETED`
    Deleted,
}

/// A walked segment.
#[derive(Clone, Copy, Debug, PartialEq, Eq)]
pub struct Segment {
    /// What it is.
    pub kind: Kind,
    /// The offset of its header.
    pub position: u64,
    /// AllocatedSize.
    pub allocated: u64,
    /// UsedSize, or AllocatedSize where that is 0.
    pub room: u64,
}

/// The length of a segment's header.
pub(crate) const HEADER: u64 = 32;

/// No file has more segments.
const MOST_SEGMENTS: usize = 8_192;

/// The names; in a header they are padded with zero bytes to 16.
const NAMES: [(&str, Kind); 7] = [
    ("ZISRAWFILE", Kind::File),
    ("ZISRAWDIRECTORY", Kind::Directory),
    ("ZISRAWSUBBLOCK", Kind::SubBlock),
    ("ZISRAWMETADATA", Kind::Metadata),
    ("ZISRAWATTACH", Kind::Attachment),
    ("ZISRAWATTDIR", Kind::AttachmentDirectory),
    ("DELETED", Kind::Deleted),
];

impl Segment {
    /// Offsets of fields count from the end of the header; this is offset 0.
    pub fn content(&self) -> u64 {
        self.position + HEADER
    }
}

/// A name as it stands in a header.
fn padded(name: &str) -> [u8; 16] {
    let mut padded = [0; 16];
    padded[..name.len()].copy_from_slice(name.as_bytes());
    padded
}

/// The kind that the 16 bytes name.
fn kind_of(name: &[u8]) -> Option<Kind> {
    let known = NAMES.iter().find(|(known, _)| name == padded(known));
    known.map(|(_, kind)| *kind)
}

/// The 16 bytes that name the kind.
pub(crate) fn name_of(kind: Kind) -> [u8; 16] {
    let known = NAMES.iter().find(|(_, known)| *known == kind);
    known.map_or([0; 16], |(name, _)| padded(name))
}

/// Walks the whole file: for each segment 4, 2, 3, 5. The file's length is a
/// multiple of 32, so a header that begins in the file lies in it.
pub(crate) fn walk(file: &[u8]) -> Result<Vec<Segment>, Refusal> {
    let length = file.len() as u64;
    let mut segments = Vec::new();
    let mut position = 0;
    while position < length {
        // 4: more than 8,192 segments; nothing of the 8,193rd is read.
        refuse_if(segments.len() == MOST_SEGMENTS, 4, position)?;
        let segment = read_segment(file, position)?;
        // 5: first isn't the file segment, a later one is, or its room is under 80.
        let is_file = segment.kind == Kind::File;
        let is_first = segments.is_empty();
        refuse_if(is_file != is_first, 5, position)?;
        refuse_if(is_file && segment.room < 80, 5, position)?;
        segments.push(segment);
        position = segment.content() + segment.allocated;
    }
    Ok(segments)
}

/// One header: 2, then 3.
fn read_segment(file: &[u8], position: u64) -> Result<Segment, Refusal> {
    // 2: unknown name.
    let Some(kind) = kind_of(part(file, position, 16)) else {
        return Err(Refusal::new(2, position));
    };
    let allocated = long(file, position + 16);
    let used = long(file, position + 24);
    // 3: AllocatedSize negative or not a multiple of 32; UsedSize negative or
    // larger; end past the file.
    refuse_if(allocated < 0 || allocated % 32 != 0, 3, position)?;
    refuse_if(used < 0 || used > allocated, 3, position)?;
    let end = position as i128 + 32 + allocated as i128;
    refuse_if(end > file.len() as i128, 3, position)?;
    let room = if used == 0 { allocated } else { used };
    Ok(Segment {
        kind,
        position,
        allocated: allocated as u64,
        room: room as u64,
    })
}

/// The walked segment of that kind whose header begins at `position`.
pub(crate) fn named(segments: &[Segment], position: i64, kind: Kind) -> Option<Segment> {
    segments
        .iter()
        .find(|s| s.position as i128 == position as i128 && s.kind == kind)
        .copied()
}
