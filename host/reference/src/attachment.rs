//! The attachment directory, its entries A1 and the attachments: refusals 10,
//! 11, 7, 14, 15 and 16.

use crate::bytes::{int, long, part, View};
use crate::directory::MOST_ENTRIES;
use crate::refusal::{refuse_if, Refusal};
use crate::segment::{named, Kind, Segment};

/// An entry of the attachment directory with the attachment that it names.
#[derive(Clone, Copy, Debug, PartialEq, Eq)]
pub struct Attachment {
    /// The place of its entry.
    pub place: u64,
    /// FilePosition, the place of its segment.
    pub file_position: u64,
    /// The content GUID, as it stands in the entry.
    pub content_guid: [u8; 16],
    /// The content file type.
    pub file_type: [u8; 8],
    /// The name; a zero byte ends it.
    pub name: [u8; 80],
    /// Its data.
    pub data: View,
}

/// 10 for the fixed part and for all entries, then each A1 entry.
pub(crate) fn read_attachments(
    file: &[u8],
    segments: &[Segment],
    directory: &Segment,
) -> Result<Vec<Attachment>, Refusal> {
    refuse_if(256 > directory.room, 10, directory.position)?;
    let count = int(file, directory.content());
    refuse_if(!(0..=MOST_ENTRIES).contains(&count), 10, directory.position)?;
    let end = 256 + 128 * count as u64;
    refuse_if(end > directory.room, 10, directory.position)?;

    let first = directory.content() + 256;
    (0..count as u64)
        .map(|k| read_attachment(file, segments, first + 128 * k))
        .collect()
}

/// One A1 entry: 11, 7, 14, 15, 16.
fn read_attachment(file: &[u8], segments: &[Segment], place: u64) -> Result<Attachment, Refusal> {
    // 11: well formed is the mark and a zero byte in the name.
    let entry = part(file, place, 128);
    refuse_if(entry[..2] != *b"A1", 11, place)?;
    refuse_if(!entry[48..].contains(&0), 11, place)?;
    refuse_if(int(file, place + 20) != 0, 7, place)?;
    let segment =
        named(segments, long(file, place + 12), Kind::Attachment).ok_or(Refusal::new(14, place))?;

    // 15: fixed part doesn't fit the room, or the copy differs, in any of the 128.
    refuse_if(256 > segment.room, 15, segment.position)?;
    let copy = part(file, segment.content() + 16, 128);
    refuse_if(entry != copy, 15, segment.position)?;

    // 16: size negative, or doesn't fit.
    let data_size = int(file, segment.content());
    refuse_if(data_size < 0, 16, segment.position)?;
    let data = View {
        start: segment.content() + 256,
        length: data_size as u64,
    };
    let room_end = segment.content() + segment.room;
    refuse_if(data.end() > room_end, 16, segment.position)?;
    Ok(Attachment {
        place,
        file_position: segment.position,
        content_guid: bytes_of(entry, 24),
        file_type: bytes_of(entry, 40),
        name: bytes_of(entry, 48),
        data,
    })
}

/// A field of so many bytes, by its offset in the entry.
fn bytes_of<const N: usize>(entry: &[u8], at: usize) -> [u8; N] {
    std::array::from_fn(|k| entry[at + k])
}
