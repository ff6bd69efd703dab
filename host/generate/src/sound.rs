//! Sound files, which a reader must accept, with all that is known of them.

use crate::segment::SegmentPlace;
use crate::tile::Tile;

/// An entry of the sub-block directory.
#[derive(Clone, Copy, Debug)]
pub struct EntryPlace {
    /// Its place in the file.
    pub place: usize,
    /// Its tile, by number among the planned tiles.
    pub tile: usize,
    /// Its sub-block, by number among the segments.
    pub segment: usize,
    /// No earlier entry names the same sub-block.
    pub first: bool,
}

/// An entry of the attachment directory.
#[derive(Clone, Copy, Debug)]
pub struct AttachmentPlace {
    /// Its place in the file.
    pub place: usize,
    /// Its attachment, by number among the segments.
    pub segment: usize,
    /// The length of the attachment's data.
    pub data_size: usize,
    /// No earlier entry names the same attachment.
    pub first: bool,
}

/// The metadata segment.
#[derive(Clone, Copy, Debug)]
pub struct MetadataPlace {
    /// Its number among the segments.
    pub segment: usize,
    /// The length of the common XML.
    pub xml_size: usize,
    /// The length of its attachment.
    pub attachment_size: usize,
}

/// A file that a reader must accept, with all that is known of it.
#[derive(Clone, Debug)]
pub struct Sound {
    /// The file.
    pub bytes: Vec<u8>,
    /// The segments in order.
    pub segments: Vec<SegmentPlace>,
    /// The sub-block directory, by number among the segments.
    pub directory: usize,
    /// The planned tiles, each in a sub-block of its own.
    pub tiles: Vec<Tile>,
    /// The entries of the sub-block directory.
    pub entries: Vec<EntryPlace>,
    /// The metadata segment, where one is named.
    pub metadata: Option<MetadataPlace>,
    /// The attachment directory by number among the segments, where one is named.
    pub attachment_directory: Option<usize>,
    /// The entries of the attachment directory.
    pub attachments: Vec<AttachmentPlace>,
}

impl Sound {
    /// The tile of an entry.
    pub fn tile(&self, entry: &EntryPlace) -> &Tile {
        &self.tiles[entry.tile]
    }

    /// The sub-block of an entry.
    pub fn sub_block(&self, entry: &EntryPlace) -> &SegmentPlace {
        &self.segments[entry.segment]
    }

    /// The offset of an entry's metadata in the file.
    pub fn metadata_at(&self, entry: &EntryPlace) -> usize {
        self.sub_block(entry).content() + self.tile(entry).fixed_part()
    }

    /// The offset of an entry's pixels in the file.
    pub fn pixels_at(&self, entry: &EntryPlace) -> usize {
        self.metadata_at(entry) + self.tile(entry).metadata.bytes.len()
    }

    /// The offset of an entry's attachment in the file.
    pub fn attachment_at(&self, entry: &EntryPlace) -> usize {
        self.pixels_at(entry) + self.tile(entry).pixels.len()
    }
}
