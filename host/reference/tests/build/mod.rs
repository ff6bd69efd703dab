//! Small files by hand for the worked cases: a file segment, the directory,
//! then one sub-block a tile.

/// Metadata that declare a chunk container: the section and nothing else.
pub const SECTION: &[u8] = b"<METADATA><AttachmentSchema><DataFormat>CHUNKCONTAINER</DataFormat>\
    </AttachmentSchema></METADATA>";

/// The bytes of a mask chunk.
pub fn mask_chunk(width: i32, height: i32, stride: i32, lines: &[u8]) -> Vec<u8> {
    let mut chunk = vec![
        0x67, 0xEA, 0xE3, 0xCB, 0xFC, 0x5B, 0x2B, 0x49, 0xA1, 0x6A, 0xEC, 0xE3, 0x78, 0x03, 0x14,
        0x48,
    ];
    chunk.extend((16 + lines.len() as i32).to_le_bytes());
    for field in [width, height, 0, stride] {
        chunk.extend(field.to_le_bytes());
    }
    chunk.extend(lines);
    chunk
}

/// A dimension: letter, Start, Size, StoredSize.
pub type Dimension = (u8, i32, i32, i32);

/// A tile and its sub-block.
#[derive(Clone)]
pub struct Tile {
    pub pixel_type: i32,
    pub dimensions: Vec<Dimension>,
    pub metadata: Vec<u8>,
    pub pixels: Vec<u8>,
    pub attachment: Vec<u8>,
}

impl Tile {
    /// A Gray8 tile with those pixels, and other letters after X and Y.
    pub fn gray8(x: i32, y: i32, width: i32, pixels: &[u8], others: &[(u8, i32)]) -> Tile {
        let height = pixels.len() as i32 / width;
        let mut dimensions = vec![(b'X', x, width, 0), (b'Y', y, height, 0)];
        dimensions.extend(others.iter().map(|&(letter, start)| (letter, start, 1, 1)));
        Tile {
            pixel_type: 0,
            dimensions,
            metadata: Vec::new(),
            pixels: pixels.to_vec(),
            attachment: Vec::new(),
        }
    }

    /// The same tile with a chunk container.
    pub fn with_container(mut self, attachment: &[u8]) -> Tile {
        self.metadata = SECTION.to_vec();
        self.attachment = attachment.to_vec();
        self
    }

    fn entry(&self, position: u64) -> Vec<u8> {
        let mut entry = b"DV".to_vec();
        entry.extend(self.pixel_type.to_le_bytes());
        entry.extend(position.to_le_bytes());
        entry.extend([0; 14]);
        entry.extend((self.dimensions.len() as i32).to_le_bytes());
        for &(letter, start, size, stored) in &self.dimensions {
            entry.extend([letter, 0, 0, 0]);
            for field in [start, size, 0, stored] {
                entry.extend(field.to_le_bytes());
            }
        }
        entry
    }

    fn sub_block(&self, position: u64) -> Vec<u8> {
        let mut content = (self.metadata.len() as i32).to_le_bytes().to_vec();
        content.extend((self.attachment.len() as i32).to_le_bytes());
        content.extend((self.pixels.len() as i64).to_le_bytes());
        content.extend(self.entry(position));
        content.resize(content.len().max(256), 0);
        content.extend(&self.metadata);
        content.extend(&self.pixels);
        content.extend(&self.attachment);
        content
    }
}

/// A segment with UsedSize exact.
pub fn segment(name: &str, content: &[u8]) -> Vec<u8> {
    let mut bytes = name.as_bytes().to_vec();
    bytes.resize(16, 0);
    let allocated = content.len().next_multiple_of(32);
    bytes.extend((allocated as i64).to_le_bytes());
    bytes.extend((content.len() as i64).to_le_bytes());
    bytes.extend(content);
    bytes.resize(32 + allocated, 0);
    bytes
}

/// The whole file. The directory stands at 128, its first entry at 288.
pub fn file(tiles: &[Tile]) -> Vec<u8> {
    let mut head = vec![0; 96];
    head[0] = 1;
    head[52] = 128;
    let mut bytes = segment("ZISRAWFILE", &head);
    let entries: usize = tiles.iter().map(|t| t.entry(0).len()).sum();
    let mut position = 128 + 32 + (128 + entries).next_multiple_of(32);
    let mut directory = (tiles.len() as i32).to_le_bytes().to_vec();
    directory.resize(128, 0);
    let mut sub_blocks = Vec::new();
    for tile in tiles {
        directory.extend(tile.entry(position as u64));
        let sub_block = segment("ZISRAWSUBBLOCK", &tile.sub_block(position as u64));
        position += sub_block.len();
        sub_blocks.extend(sub_block);
    }
    bytes.extend(segment("ZISRAWDIRECTORY", &directory));
    bytes.extend(sub_blocks);
    bytes
}
