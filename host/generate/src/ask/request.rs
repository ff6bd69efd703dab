//! Row 24: requests for an entry or a dimension that the file does not have.

use crate::random::Random;
use crate::sound::Sound;

/// A request for a record or a view, by number counted from 0.
#[derive(Clone, Copy, Debug, PartialEq, Eq)]
pub enum Request {
    /// The record of a tile.
    Tile(u64),
    /// The record of a tile's dimension.
    Dimension(u64, u64),
    /// A tile's pixels.
    TilePixels(u64),
    /// The metadata of a tile's sub-block.
    TileMetadata(u64),
    /// The attachment of a tile's sub-block.
    TileAttachment(u64),
    /// The record of an attachment.
    Attachment(u64),
    /// The data of an attachment.
    AttachmentData(u64),
}

/// A clause of row 24.
pub struct RequestClause {
    /// The number and the words.
    pub name: &'static str,
    make: fn(&Sound, &mut Random) -> Option<Request>,
}

impl RequestClause {
    /// A request that must be refused as 24, or nothing where the file has no room for it.
    pub fn draw(&self, sound: &Sound, random: &mut Random) -> Option<Request> {
        (self.make)(sound, random)
    }
}

/// All clauses of row 24.
pub const REQUEST_CLAUSES: &[RequestClause] = &[
    RequestClause {
        name: "24: no tile of that number",
        make: |sound, random| {
            let number = past(random, sound.entries.len());
            Some(random.pick(&[
                Request::Tile(number),
                Request::TilePixels(number),
                Request::TileMetadata(number),
                Request::TileAttachment(number),
            ]))
        },
    },
    RequestClause {
        name: "24: a dimension of no tile",
        make: |sound, random| Some(Request::Dimension(past(random, sound.entries.len()), 0)),
    },
    RequestClause {
        name: "24: no dimension of that number",
        make: |sound, random| {
            let entry = random.pick_from((0..sound.entries.len()).collect())?;
            let count = sound.tile(&sound.entries[entry]).dimensions.len();
            Some(Request::Dimension(entry as u64, past(random, count)))
        },
    },
    RequestClause {
        name: "24: no attachment of that number",
        make: |sound, random| {
            sound.attachment_directory?;
            let number = past(random, sound.attachments.len());
            Some(an_attachment(random, number))
        },
    },
    RequestClause {
        name: "24: an attachment where no directory is named",
        make: |sound, random| match sound.attachment_directory {
            Some(_) => None,
            None => {
                let number = past(random, 0);
                Some(an_attachment(random, number))
            }
        },
    },
];

/// One of the requests for an attachment.
fn an_attachment(random: &mut Random, number: u64) -> Request {
    random.pick(&[Request::Attachment(number), Request::AttachmentData(number)])
}

/// A number that is not under the count.
fn past(random: &mut Random, count: usize) -> u64 {
    let count = count as u64;
    random.pick(&[count, count, count + 1, 4_096, 1 << 32, u64::MAX])
}
