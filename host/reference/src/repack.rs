//! Repack without the dead segments: Req 04.

use crate::attachment::Attachment;
use crate::bytes::{long, part};
use crate::judge::File;
use crate::refusal::{refuse_if, Refusal};
use crate::segment::{name_of, Kind, HEADER};
use crate::sub_block::fixed_part;
use crate::tile::Tile;

/// No clean file has more segments.
const MOST_SEGMENTS: u128 = 8_192;

/// No clean file is longer.
const LONGEST: u128 = 1 << 40;

/// The file segment is allocated so, and its UsedSize is as much.
const FILE_SEGMENT: u128 = 512;

impl File<'_> {
    /// How long the clean file is. Nothing of it is built.
    pub fn repack_size(&self) -> Result<u64, Refusal> {
        self.lay().map(|layout| layout.length as u64)
    }

    /// Writes the clean file into the lent buffer, or changes nothing. Answers how many
    /// bytes were written; those past them stay.
    pub fn repack(&self, out: &mut [u8]) -> Result<u64, Refusal> {
        let layout = self.lay()?;
        // 25: exactly when the buffer is shorter.
        refuse_if((out.len() as u128) < layout.length, 25, 0)?;
        let clean = self.clean(&layout);
        out[..clean.len()].copy_from_slice(&clean);
        Ok(clean.len() as u64)
    }

    /// Where the segments of the clean file stand.
    fn lay(&self) -> Result<Layout, Refusal> {
        let layout = Layout::of(self);
        // 36: exactly when it would have over 8,192 segments or 2^40 bytes.
        refuse_if(layout.segments > MOST_SEGMENTS, 36, 0)?;
        refuse_if(layout.length > LONGEST, 36, 0)?;
        Ok(layout)
    }

    /// File segment, directory, each entry's sub-block in directory order, metadata,
    /// attachment directory, attachments in order.
    fn clean(&self, layout: &Layout) -> Vec<u8> {
        let mut clean = Vec::new();
        append(&mut clean, Kind::File, self.file_segment(layout));
        append(&mut clean, Kind::Directory, self.directory(layout));
        for (tile, position) in self.tiles.iter().zip(&layout.sub_blocks) {
            let content = self.sub_block(tile, *position);
            append(&mut clean, Kind::SubBlock, content);
        }
        if layout.metadata.is_some() {
            append(&mut clean, Kind::Metadata, self.metadata());
        }
        if layout.attachment_directory.is_some() {
            let content = self.attachment_directory(layout);
            append(&mut clean, Kind::AttachmentDirectory, content);
        }
        for (attachment, position) in self.attachments.iter().zip(&layout.attachments) {
            let content = self.attached(attachment, *position);
            append(&mut clean, Kind::Attachment, content);
        }
        assert_eq!(clean.len() as u128, layout.length, "laid and written alike");
        clean
    }

    /// 512 bytes: Major, Minor and both GUIDs are kept, the positions are the new ones, an
    /// absent one's stays 0. FilePart and UpdatePending are 0 in an accepted file, and all
    /// that document 01 doesn't name is.
    fn file_segment(&self, layout: &Layout) -> Vec<u8> {
        let mut content = vec![0; FILE_SEGMENT as usize];
        content[0..8].copy_from_slice(part(self.bytes, HEADER, 8));
        content[16..48].copy_from_slice(part(self.bytes, HEADER + 16, 32));
        put_position(&mut content, 52, layout.directory);
        put_position(&mut content, 60, layout.metadata.unwrap_or(0));
        put_position(&mut content, 72, layout.attachment_directory.unwrap_or(0));
        content
    }

    /// EntryCount, spare bytes to 128, the entries.
    fn directory(&self, layout: &Layout) -> Vec<u8> {
        let mut content = (self.tiles.len() as i32).to_le_bytes().to_vec();
        content.resize(128, 0);
        for (tile, position) in self.tiles.iter().zip(&layout.sub_blocks) {
            content.extend(self.entry(tile, *position));
        }
        content
    }

    /// The entry DV with its new position, its spare bytes zero.
    fn entry(&self, tile: &Tile, position: u128) -> Vec<u8> {
        let mut entry = part(self.bytes, tile.place, entry_length(tile)).to_vec();
        put_position(&mut entry, 6, position);
        entry[23..=27].fill(0);
        entry
    }

    /// The sizes, the copy of the entry, spare bytes to F; metadata, pixels, attachment.
    fn sub_block(&self, tile: &Tile, position: u128) -> Vec<u8> {
        let mut content = (tile.metadata.length as i32).to_le_bytes().to_vec();
        content.extend((tile.attachment.length as i32).to_le_bytes());
        content.extend((tile.pixels.length as i64).to_le_bytes());
        content.extend(self.entry(tile, position));
        content.resize(fixed_part(tile.dimensions.len() as u64) as usize, 0);
        content.extend(tile.metadata.of(self.bytes));
        content.extend(tile.pixels.of(self.bytes));
        content.extend(tile.attachment.of(self.bytes));
        content
    }

    /// Both sizes, spare bytes to 256, the common XML and its attachment.
    fn metadata(&self) -> Vec<u8> {
        let mut content = (self.xml.length as i32).to_le_bytes().to_vec();
        content.extend((self.xml_attachment.length as i32).to_le_bytes());
        content.resize(256, 0);
        content.extend(self.xml.of(self.bytes));
        content.extend(self.xml_attachment.of(self.bytes));
        content
    }

    /// EntryCount, spare bytes to 256, the entries.
    fn attachment_directory(&self, layout: &Layout) -> Vec<u8> {
        let mut content = (self.attachments.len() as i32).to_le_bytes().to_vec();
        content.resize(256, 0);
        for (attachment, position) in self.attachments.iter().zip(&layout.attachments) {
            content.extend(entry_a1(attachment, *position));
        }
        content
    }

    /// DataSize, spare bytes to 16, the copy of the entry, spare bytes to 256, the data.
    fn attached(&self, attachment: &Attachment, position: u128) -> Vec<u8> {
        let mut content = (attachment.data.length as i32).to_le_bytes().to_vec();
        content.resize(16, 0);
        content.extend(entry_a1(attachment, position));
        content.resize(256, 0);
        content.extend(attachment.data.of(self.bytes));
        content
    }
}

/// The entry A1: mark, spare bytes to 12, the new position, part 0, content GUID, file
/// type, and the name with whatever stands behind its zero byte.
fn entry_a1(attachment: &Attachment, position: u128) -> Vec<u8> {
    let mut entry = b"A1".to_vec();
    entry.resize(24, 0);
    put_position(&mut entry, 12, position);
    entry.extend(attachment.content_guid);
    entry.extend(attachment.file_type);
    entry.extend(attachment.name);
    entry
}

/// Where the segments of a clean file stand, in whole numbers.
struct Layout {
    directory: u128,
    /// By entry: a segment listed twice is written twice.
    sub_blocks: Vec<u128>,
    metadata: Option<u128>,
    attachment_directory: Option<u128>,
    /// By entry A1.
    attachments: Vec<u128>,
    segments: u128,
    length: u128,
}

impl Layout {
    fn of(file: &File) -> Layout {
        let (mut segments, mut length) = (0, 0);
        // The next segment, its content so long; answers where it stands.
        let mut next = |content: u128| {
            let position = length;
            segments += 1;
            length += u128::from(HEADER) + allocated(content);
            position
        };
        next(FILE_SEGMENT);
        let entries = file.tiles.iter().map(|tile| u128::from(entry_length(tile)));
        let directory = next(128 + entries.sum::<u128>());
        let sub_blocks = file.tiles.iter().map(|tile| next(sub_block_length(tile)));
        let sub_blocks = sub_blocks.collect();
        // Absent ones stay absent: 0 means none.
        let is_there = |field| long(file.bytes, HEADER + field) != 0;
        let both = u128::from(file.xml.length) + u128::from(file.xml_attachment.length);
        let metadata = is_there(60).then(|| next(256 + both));
        let listed = file.attachments.len() as u128;
        let attachment_directory = is_there(72).then(|| next(256 + 128 * listed));
        let data = file.attachments.iter().map(|a| u128::from(a.data.length));
        let attachments = data.map(|length| next(256 + length)).collect();
        Layout {
            directory,
            sub_blocks,
            metadata,
            attachment_directory,
            attachments,
            segments,
            length,
        }
    }
}

/// The length of an entry DV.
fn entry_length(tile: &Tile) -> u64 {
    32 + 20 * tile.dimensions.len() as u64
}

/// The length of a sub-block's content: F and its parts.
fn sub_block_length(tile: &Tile) -> u128 {
    let parts = [tile.metadata, tile.pixels, tile.attachment];
    let parts: u128 = parts.iter().map(|view| u128::from(view.length)).sum();
    u128::from(fixed_part(tile.dimensions.len() as u64)) + parts
}

/// AllocatedSize: the smallest multiple of 32 that holds the content.
fn allocated(content: u128) -> u128 {
    content.next_multiple_of(32)
}

/// Appends a segment: UsedSize exact, padding zero.
fn append(clean: &mut Vec<u8>, kind: Kind, content: Vec<u8>) {
    let allocated = allocated(content.len() as u128);
    clean.extend(name_of(kind));
    clean.extend((allocated as i64).to_le_bytes());
    clean.extend((content.len() as i64).to_le_bytes());
    let end = clean.len() + allocated as usize;
    clean.extend(content);
    clean.resize(end, 0);
}

/// Writes a position, a Long.
fn put_position(content: &mut [u8], at: usize, position: u128) {
    content[at..at + 8].copy_from_slice(&(position as i64).to_le_bytes());
}
