//! A file of one tile whose metadata and attachment are replaced at will.

use crate::format::{Kind, MASK_GUID};

/// The tile's sides in pixels of one byte.
const WIDTH: usize = 8;
const HEIGHT: usize = 2;

/// The pixels stand right behind the metadata, and would close what is open there.
const PIXELS: &[u8; WIDTH * HEIGHT] = b">-->]]>?>\">'>/>>";

/// Where the directory, its entry, the sub-block and its metadata stand.
const DIRECTORY: usize = 32 + 96;
const ENTRY: usize = DIRECTORY + 32 + 128;
const SUB_BLOCK: usize = ENTRY + 96;
const METADATA: usize = SUB_BLOCK + 32 + 256;

/// The file, Gray8, its tile at 0, 0.
pub struct OneTile {
    bytes: Vec<u8>,
}

impl OneTile {
    /// An attachment that is no row of chunks: refused as 17 where the metadata declare one.
    pub const NO_CHUNK: [u8; 7] = [0; 7];

    /// The tile's width and height.
    pub const SIDES: (u32, u32) = (WIDTH as u32, HEIGHT as u32);

    /// The file up to the metadata.
    pub fn new() -> OneTile {
        OneTile {
            bytes: head((WIDTH, HEIGHT), 0, None),
        }
    }

    /// A file of one tile of these sides, each pixel of it a zero byte, and no metadata.
    pub fn zeros(width: usize, height: usize) -> Vec<u8> {
        let mut bytes = head((width, height), 0, None);
        let length = hold(&mut bytes, width * height);
        bytes.resize(length, 0);
        bytes
    }

    /// A file of one tile of these sides, of a type with that number and length, with so
    /// many layers along a letter from a start on.
    pub fn layered(
        (width, height): (usize, usize),
        (pixel_type, pixel): (i32, usize),
        (letter, start, size): (u8, i32, usize),
    ) -> Layered {
        let mut head = head(
            (width, height),
            pixel_type,
            Some((letter, start, size as i32)),
        );
        let layer = width * height * pixel;
        head[SUB_BLOCK + 32 + 8..][..8].copy_from_slice(&((layer * size) as i64).to_le_bytes());
        let length = hold(&mut head, layer * size);
        Layered {
            head,
            layer,
            length,
        }
    }

    /// The file with this metadata and this attachment.
    pub fn with(&mut self, metadata: &[u8], attachment: &[u8]) -> &[u8] {
        let bytes = &mut self.bytes;
        let length = hold(bytes, metadata.len() + PIXELS.len() + attachment.len());
        bytes[SUB_BLOCK + 32..][..4].copy_from_slice(&(metadata.len() as i32).to_le_bytes());
        bytes[SUB_BLOCK + 36..][..4].copy_from_slice(&(attachment.len() as i32).to_le_bytes());
        bytes.truncate(METADATA);
        bytes.extend_from_slice(metadata);
        bytes.extend_from_slice(PIXELS);
        bytes.extend_from_slice(attachment);
        bytes.resize(length, 0);
        bytes
    }

    /// Where the attachment of that metadata stands.
    pub fn attachment_at(metadata: &[u8]) -> u64 {
        (METADATA + metadata.len() + PIXELS.len()) as u64
    }

    /// A container with a mask as large as the tile, of these two lines.
    pub fn mask(lines: [u8; HEIGHT]) -> Vec<u8> {
        let mut chunk = MASK_GUID.to_vec();
        chunk.extend((16 + HEIGHT as i32).to_le_bytes());
        for field in [WIDTH as i32, HEIGHT as i32, 0, 1] {
            chunk.extend(field.to_le_bytes());
        }
        chunk.extend(lines);
        chunk
    }
}

/// A file of one tile with layers, whose pixels are still to be said.
pub struct Layered {
    /// The file up to its pixels.
    pub head: Vec<u8>,
    /// The length of a layer.
    pub layer: usize,
    /// The file's length.
    pub length: usize,
}

impl Layered {
    /// The offset of the layer of that number.
    pub fn at(&self, number: usize) -> usize {
        METADATA + number * self.layer
    }
}

/// The sub-block holds so many bytes behind its fixed part. Answers the file's length.
fn hold(head: &mut [u8], bytes: usize) -> usize {
    let held = 256 + bytes;
    let allocated = held.next_multiple_of(32);
    head[SUB_BLOCK + 16..][..8].copy_from_slice(&(allocated as i64).to_le_bytes());
    head[SUB_BLOCK + 24..][..8].copy_from_slice(&(held as i64).to_le_bytes());
    METADATA + allocated - 256
}

/// The file up to the metadata, its tile of these sides and of that type, with layers: a
/// letter, start and size.
fn head(
    (width, height): (usize, usize),
    pixel_type: i32,
    layers: Option<(u8, i32, i32)>,
) -> Vec<u8> {
    let mut file = vec![0; 96];
    file[0] = 1;
    file[52..60].copy_from_slice(&(DIRECTORY as i64).to_le_bytes());
    let mut entry = b"DV".to_vec();
    entry.extend(pixel_type.to_le_bytes());
    entry.extend((SUB_BLOCK as i64).to_le_bytes());
    entry.extend([0; 14]);
    let sides = [(b'X', 0, width as i32), (b'Y', 0, height as i32)];
    let dimensions: Vec<_> = sides.into_iter().chain(layers).collect();
    entry.extend((dimensions.len() as i32).to_le_bytes());
    for (letter, start, size) in dimensions {
        entry.extend([letter, 0, 0, 0]);
        entry.extend(start.to_le_bytes());
        entry.extend(size.to_le_bytes());
        entry.extend([0; 8]);
    }
    let mut directory = 1i32.to_le_bytes().to_vec();
    directory.resize(128, 0);
    directory.extend(&entry);
    let mut sub_block = vec![0; 8];
    sub_block.extend(((width * height) as i64).to_le_bytes());
    sub_block.extend(&entry);
    sub_block.resize(256, 0);
    let mut bytes = Vec::new();
    for (kind, content) in [
        (Kind::File, file),
        (Kind::Directory, directory),
        (Kind::SubBlock, sub_block),
    ] {
        let allocated = content.len().next_multiple_of(32);
        bytes.extend(kind.name());
        bytes.extend((allocated as i64).to_le_bytes());
        bytes.extend((content.len() as i64).to_le_bytes());
        bytes.extend(&content);
        bytes.resize(bytes.len() + allocated - content.len(), 0);
    }
    assert_eq!(bytes.len(), METADATA);
    bytes
}

impl Default for OneTile {
    fn default() -> OneTile {
        OneTile::new()
    }
}

#[cfg(test)]
mod tests {
    use super::OneTile;
    use crate::format::SECTION;
    use reference::{judge, Refusal, Release};

    #[test]
    fn metadata_and_attachment_are_replaced() {
        let mut file = OneTile::new();
        let refused = Refusal::new(17, OneTile::attachment_at(SECTION));
        let bytes = file.with(SECTION, &OneTile::NO_CHUNK);
        assert_eq!(judge(bytes, Release::V1_2).err(), Some(refused));
        assert_eq!(judge(bytes, Release::V1_02).err(), None);
        for (metadata, masked) in [(SECTION, true), (b"", false), (b"text", false)] {
            let bytes = file.with(metadata, &OneTile::mask([0xF0, 0x0F]));
            let judged = judge(bytes, Release::V1_2).expect("an accepted file");
            let tile = judged.tile(0).expect("its tile");
            assert_eq!(tile.metadata.of(bytes), metadata);
            assert_eq!(tile.attachment.start, OneTile::attachment_at(metadata));
            assert_eq!(tile.mask.is_some(), masked);
        }
    }

    #[test]
    fn a_tile_with_layers() {
        let file = OneTile::layered((3, 2), (1, 2), (b'Z', -4, 5));
        let mut bytes = file.head.clone();
        bytes.resize(file.length, 7);
        let judged = judge(&bytes, Release::V1_2).expect("an accepted file");
        let tile = judged.tile(0).expect("its tile");
        let layers = tile.layers.expect("its layers");
        assert_eq!((layers.letter, layers.start, layers.size), (b'Z', -4, 5));
        assert_eq!(
            (tile.pixels.start, tile.pixels.length),
            (file.at(0) as u64, 60)
        );
        assert_eq!((file.layer, file.at(4) - file.at(0)), (12, 48));
    }

    #[test]
    fn a_tile_of_any_sides() {
        let bytes = OneTile::zeros(300, 70);
        let judged = judge(&bytes, Release::V1_2).expect("an accepted file");
        let tile = judged.tile(0).expect("its tile");
        assert_eq!((tile.x.size, tile.y.size), (300, 70));
        assert_eq!(tile.pixels.length, 21_000);
    }
}
