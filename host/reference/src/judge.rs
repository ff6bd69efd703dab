//! The whole judgement in the paper's order, and an accepted file.

use crate::attachment::{read_attachments, Attachment};
use crate::bytes::View;
use crate::directory::read_directory;
use crate::entry::Dimension;
use crate::file_segment::read_file_segment;
use crate::metadata::{read_metadata, Metadata};
use crate::refusal::{refuse_if, Refusal};
use crate::release::Release;
use crate::segment::{walk, Segment};
use crate::tile::Tile;

/// No file is longer.
const LONGEST: u64 = 1 << 40;

/// An accepted file.
pub struct File<'a> {
    /// The lent bytes.
    pub bytes: &'a [u8],
    /// All walked segments in order.
    pub segments: Vec<Segment>,
    /// All tiles in the directory's order.
    pub tiles: Vec<Tile>,
    /// The common XML.
    pub xml: View,
    /// The common XML's attachment.
    pub xml_attachment: View,
    /// All attachments in their directory's order.
    pub attachments: Vec<Attachment>,
}

/// Judges a file by a release: 1; the segments; 6, 7, 8; 9; the directory; the
/// metadata segment; the attachment directory.
pub fn judge(bytes: &[u8], release: Release) -> Result<File<'_>, Refusal> {
    // 1: length 0, not a multiple of 32, or above 2^40.
    let length = bytes.len() as u64;
    refuse_if(
        length == 0 || !length.is_multiple_of(32) || length > LONGEST,
        1,
        0,
    )?;
    let segments = walk(bytes)?;
    let names = read_file_segment(bytes, &segments)?;
    let tiles = read_directory(bytes, &segments, &names.directory, release)?;
    let metadata = match names.metadata {
        Some(segment) => read_metadata(bytes, &segment)?,
        None => Metadata::default(),
    };
    let attachments = match names.attachment_directory {
        Some(directory) => read_attachments(bytes, &segments, &directory)?,
        None => Vec::new(),
    };
    Ok(File {
        bytes,
        segments,
        tiles,
        xml: metadata.xml,
        xml_attachment: metadata.attachment,
        attachments,
    })
}

/// The requests for a record or a view. 24: no entry of that number, counted from 0.
impl File<'_> {
    /// The record of a tile.
    pub fn tile(&self, entry: u64) -> Result<&Tile, Refusal> {
        numbered(&self.tiles, entry)
    }

    /// The record of a tile's dimension.
    pub fn dimension(&self, entry: u64, dimension: u64) -> Result<&Dimension, Refusal> {
        numbered(&self.tile(entry)?.dimensions, dimension)
    }

    /// A tile's pixels.
    pub fn tile_pixels(&self, entry: u64) -> Result<View, Refusal> {
        self.tile(entry).map(|t| t.pixels)
    }

    /// The metadata of a tile's sub-block.
    pub fn tile_metadata(&self, entry: u64) -> Result<View, Refusal> {
        self.tile(entry).map(|t| t.metadata)
    }

    /// The attachment of a tile's sub-block.
    pub fn tile_attachment(&self, entry: u64) -> Result<View, Refusal> {
        self.tile(entry).map(|t| t.attachment)
    }

    /// The record of an attachment, counted in the attachment directory.
    pub fn attachment(&self, entry: u64) -> Result<&Attachment, Refusal> {
        numbered(&self.attachments, entry)
    }

    /// The data of an attachment.
    pub fn attachment_data(&self, entry: u64) -> Result<View, Refusal> {
        self.attachment(entry).map(|a| a.data)
    }
}

fn numbered<T>(all: &[T], number: u64) -> Result<&T, Refusal> {
    let index = usize::try_from(number).ok();
    index.and_then(|k| all.get(k)).ok_or(Refusal::new(24, 0))
}
