//! A tile as it is planned: its entry, its sub-block, its mask.

use crate::format::{bytes_a_pixel, MASK_GUID};
use crate::markup::Metadata;

/// A dimension as it is written.
#[derive(Clone, Copy, Debug)]
pub struct Dimension {
    /// The letter.
    pub letter: u8,
    /// Start.
    pub start: i32,
    /// Size.
    pub size: i32,
    /// The bits of StartCoordinate.
    pub coordinate: u32,
    /// StoredSize; 0 is read as Size.
    pub stored_size: i32,
}

impl Dimension {
    /// The stored size as it is read.
    pub fn stored(&self) -> i32 {
        if self.stored_size == 0 {
            self.size
        } else {
            self.stored_size
        }
    }
}

/// The shape of a mask.
#[derive(Clone, Copy, Debug)]
pub struct MaskShape {
    /// Width in pixels.
    pub width: i32,
    /// Height in pixels.
    pub height: i32,
    /// A line's length in bytes.
    pub stride: i32,
}

/// A chunk of a container.
#[derive(Clone, Debug)]
pub struct Chunk {
    /// Its kind.
    pub guid: [u8; 16],
    /// What it holds.
    pub payload: Vec<u8>,
    /// The shape that its payload has, if it was written as a mask's; a chunk
    /// of another kind may have one too.
    pub shape: Option<MaskShape>,
}

impl Chunk {
    /// Is it the mask?
    pub fn is_mask(&self) -> bool {
        self.guid == MASK_GUID
    }

    /// Its bytes.
    pub fn encode(&self) -> Vec<u8> {
        let mut bytes = self.guid.to_vec();
        bytes.extend((self.payload.len() as i32).to_le_bytes());
        bytes.extend(&self.payload);
        bytes
    }
}

/// What a sub-block's attachment is.
#[derive(Clone, Debug)]
pub enum Attached {
    /// Plain bytes: the metadata declare nothing.
    Plain(Vec<u8>),
    /// A chunk container: the metadata declare one.
    Container(Vec<Chunk>),
}

/// A tile and all that its sub-block holds.
#[derive(Clone, Debug)]
pub struct Tile {
    /// The pixel type.
    pub pixel_type: i32,
    /// The pyramid byte.
    pub pyramid: u8,
    /// The dimensions in order.
    pub dimensions: Vec<Dimension>,
    /// The sub-block's metadata.
    pub metadata: Metadata,
    /// The pixels, of all layers.
    pub pixels: Vec<u8>,
    /// The sub-block's attachment.
    pub attached: Attached,
}

impl Tile {
    /// The dimension of that letter.
    pub fn find(&self, letter: u8) -> Option<&Dimension> {
        self.dimensions.iter().find(|d| d.letter == letter)
    }

    /// X.
    pub fn x(&self) -> &Dimension {
        self.find(b'X').expect("every tile has an X")
    }

    /// Y.
    pub fn y(&self) -> &Dimension {
        self.find(b'Y').expect("every tile has a Y")
    }

    /// The start of M, if there is one.
    pub fn m(&self) -> Option<i32> {
        self.find(b'M').map(|d| d.start)
    }

    /// Is it a pyramid tile?
    pub fn is_pyramid_tile(&self) -> bool {
        self.x().stored() != self.x().size || self.y().stored() != self.y().size
    }

    /// The number of bytes that the stored pixels need.
    pub fn data_size(&self) -> usize {
        let stored = self.x().stored() as usize * self.y().stored() as usize;
        stored * self.layers() * bytes_a_pixel(self.pixel_type)
    }

    /// F, the length of the sub-block's fixed part.
    pub fn fixed_part(&self) -> usize {
        (48 + 20 * self.dimensions.len()).max(256)
    }

    /// The entry's length.
    pub fn entry_length(&self) -> usize {
        32 + 20 * self.dimensions.len()
    }

    /// The chunks, if the attachment is a container.
    pub fn chunks(&self) -> Option<&[Chunk]> {
        match &self.attached {
            Attached::Plain(_) => None,
            Attached::Container(chunks) => Some(chunks),
        }
    }

    /// The mask's shape, if the tile has a mask.
    pub fn mask(&self) -> Option<MaskShape> {
        let mask = self.chunks()?.iter().find(|c| c.is_mask())?;
        mask.shape
    }

    /// The attachment's bytes.
    pub fn attachment(&self) -> Vec<u8> {
        match &self.attached {
            Attached::Plain(bytes) => bytes.clone(),
            Attached::Container(chunks) => chunks.iter().flat_map(Chunk::encode).collect(),
        }
    }

    /// The entry's bytes, its FilePosition still 0.
    pub fn encode_entry(&self, spare: [u8; 5]) -> Vec<u8> {
        let mut entry = b"DV".to_vec();
        entry.extend(self.pixel_type.to_le_bytes());
        // FilePosition, FilePart, Compression.
        entry.extend([0; 16]);
        entry.push(self.pyramid);
        entry.extend(spare);
        entry.extend((self.dimensions.len() as i32).to_le_bytes());
        for d in &self.dimensions {
            entry.extend([d.letter, 0, 0, 0]);
            entry.extend(d.start.to_le_bytes());
            entry.extend(d.size.to_le_bytes());
            entry.extend(d.coordinate.to_le_bytes());
            entry.extend(d.stored_size.to_le_bytes());
        }
        entry
    }

    /// The sub-block's content, FilePosition of its copy still 0; `filler`
    /// stands between the copy and the metadata.
    pub fn encode_sub_block(&self, spare: [u8; 5], filler: u8) -> Vec<u8> {
        let attachment = self.attachment();
        let mut content = (self.metadata.bytes.len() as i32).to_le_bytes().to_vec();
        content.extend((attachment.len() as i32).to_le_bytes());
        content.extend((self.pixels.len() as i64).to_le_bytes());
        content.extend(self.encode_entry(spare));
        content.resize(self.fixed_part(), filler);
        content.extend(&self.metadata.bytes);
        content.extend(&self.pixels);
        content.extend(attachment);
        content
    }
}
