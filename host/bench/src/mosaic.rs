//! Files to measure with: square tiles of drawn pixels, with masks or without.

use czi::PixelType;
use generate::{Kind, Random, MASK_GUID, SECTION};

/// The valid pixels of a tile.
#[derive(Clone, Copy, Debug, PartialEq, Eq)]
pub enum TileMask {
    /// All, and there is no mask.
    None,
    /// All, by a mask.
    AllValid,
    /// Eight pixels of a line, then eight that are not.
    HalfValid,
    /// Every second pixel.
    Alternating,
    /// Each by lot, half of them.
    Random,
}

/// A square tile.
#[derive(Clone, Copy, Debug)]
pub struct Tile {
    /// Its left column.
    pub left: usize,
    /// Its top row.
    pub top: usize,
    /// Its side in pixels.
    pub side: usize,
    /// Its M: a tile of a higher one lies above. It decides the pixels too.
    pub m: usize,
    /// Its mask.
    pub mask: TileMask,
}

/// A file, and where in it each tile's pixels begin.
pub struct Mosaic {
    /// The file.
    pub bytes: Vec<u8>,
    /// Bytes a pixel.
    pub pixel: usize,
    /// The tiles, the bottom one first, each with the place of its pixels.
    pub tiles: Vec<(Tile, usize)>,
}

/// Layers of each tile along Z, from 0 on: one has the drawn pixels, and the others have zeros.
#[derive(Clone, Copy, Debug)]
pub struct Layers {
    /// How many.
    pub size: usize,
    /// Which has the pixels.
    pub drawn: usize,
}

/// What a file has beside its tiles.
#[derive(Clone, Copy, Default)]
struct Beside<'a> {
    /// So many DELETED segments.
    deleted: usize,
    /// Letters of each tile behind X, Y and M.
    letters: &'a [u8],
    /// A DELETED segment behind each sub-block, of its size.
    dead: bool,
    /// Layers of each tile.
    layers: Option<Layers>,
}

/// The metadata of a sub-block that is named often.
const METADATA: usize = 4 << 20;

/// So many columns, and as many rows, of tiles of one side, one every `step` pixels.
pub fn grid(columns: usize, side: usize, step: usize, mask: TileMask) -> Vec<Tile> {
    (0..columns * columns)
        .map(|n| Tile {
            left: n % columns * step,
            top: n / columns * step,
            side,
            m: n,
            mask,
        })
        .collect()
}

impl Mosaic {
    /// A file of these tiles, and so many DELETED segments.
    pub fn new(pixel_type: PixelType, tiles: &[Tile], deleted: usize) -> Mosaic {
        Mosaic::with_letters(pixel_type, tiles, deleted, b"")
    }

    /// The same, each tile with these letters behind X, Y and M, all of which start at 0.
    pub fn with_letters(
        pixel_type: PixelType,
        tiles: &[Tile],
        deleted: usize,
        letters: &[u8],
    ) -> Mosaic {
        let beside = Beside {
            deleted,
            letters,
            ..Beside::default()
        };
        Mosaic::written(pixel_type, tiles, beside)
    }

    /// A file of these tiles, behind each a DELETED segment of the sub-block's size.
    pub fn with_dead(pixel_type: PixelType, tiles: &[Tile]) -> Mosaic {
        let beside = Beside {
            dead: true,
            ..Beside::default()
        };
        Mosaic::written(pixel_type, tiles, beside)
    }

    /// A file of these tiles, each with layers.
    pub fn with_layers(pixel_type: PixelType, tiles: &[Tile], layers: Layers) -> Mosaic {
        let beside = Beside {
            layers: Some(layers),
            ..Beside::default()
        };
        Mosaic::written(pixel_type, tiles, beside)
    }

    fn written(pixel_type: PixelType, tiles: &[Tile], beside: Beside) -> Mosaic {
        let mut bytes = file_segment();
        let mut entries = Vec::new();
        let mut places = Vec::new();
        for tile in tiles {
            let entry = tile.entry(pixel_type, bytes.len(), &beside);
            let (content, pixels) = tile.content(pixel_type, &entry, beside.layers);
            places.push((*tile, bytes.len() + 32 + pixels));
            segment(&mut bytes, Kind::SubBlock, &content);
            if beside.dead {
                segment(&mut bytes, Kind::Deleted, &content);
            }
            entries.push(entry);
        }
        for _ in 0..beside.deleted {
            segment(&mut bytes, Kind::Deleted, &[]);
        }
        directory(&mut bytes, &entries);
        Mosaic {
            bytes,
            pixel: pixel_type.bytes(),
            tiles: places,
        }
    }
}

/// A file of one sub-block that so many entries name; it has an attachment and long metadata without the section.
pub fn named_often(entries: usize) -> Vec<u8> {
    let tile = grid(1, 16, 16, TileMask::None)[0];
    let mut bytes = file_segment();
    let entry = tile.entry(PixelType::Gray8, bytes.len(), &Beside::default());
    let (content, _) = sub_block(&entry, &vec![b' '; METADATA], &[0; 256], &[0; 32]);
    segment(&mut bytes, Kind::SubBlock, &content);
    directory(&mut bytes, &vec![entry; entries]);
    bytes
}

impl Tile {
    fn entry(&self, pixel_type: PixelType, position: usize, beside: &Beside) -> Vec<u8> {
        let mut entry = b"DV".to_vec();
        entry.extend(pixel_type.number().to_le_bytes());
        entry.extend((position as i64).to_le_bytes());
        entry.extend([0; 14]);
        let mut dimensions = vec![
            (b'X', self.left, self.side),
            (b'Y', self.top, self.side),
            (b'M', self.m, 1),
        ];
        dimensions.extend(beside.letters.iter().map(|letter| (*letter, 0, 1)));
        dimensions.extend(beside.layers.map(|layers| (b'Z', 0, layers.size)));
        entry.extend((dimensions.len() as i32).to_le_bytes());
        for (letter, start, size) in dimensions {
            entry.extend([letter, 0, 0, 0]);
            entry.extend((start as i32).to_le_bytes());
            entry.extend((size as i32).to_le_bytes());
            entry.extend([0; 8]);
        }
        entry
    }

    /// A sub-block's content, and where in it the pixels begin.
    fn content(
        &self,
        pixel_type: PixelType,
        entry: &[u8],
        layers: Option<Layers>,
    ) -> (Vec<u8>, usize) {
        let random = &mut Random::new(1 + self.m as u64);
        let mut pixels = random.bytes(self.side * self.side * pixel_type.bytes());
        if let Some(Layers { size, drawn }) = layers {
            let mut all = vec![0; size * pixels.len()];
            all[drawn * pixels.len()..][..pixels.len()].copy_from_slice(&pixels);
            pixels = all;
        }
        let (metadata, attachment) = self.attached(random);
        sub_block(entry, &metadata, &pixels, &attachment)
    }

    /// Metadata and attachment.
    fn attached(&self, random: &mut Random) -> (Vec<u8>, Vec<u8>) {
        let stride = self.side.div_ceil(8);
        let mut valid: Box<dyn FnMut(usize) -> u8> = match self.mask {
            TileMask::None => return (b"<METADATA/>".to_vec(), Vec::new()),
            TileMask::AllValid => Box::new(|_| 0xFF),
            TileMask::HalfValid => Box::new(|n| if n % 2 == 0 { 0xFF } else { 0 }),
            TileMask::Alternating => Box::new(|_| 0xAA),
            TileMask::Random => Box::new(|_| random.word() as u8),
        };
        let mut payload = Vec::new();
        for number in [self.side as i32, self.side as i32, 0, stride as i32] {
            payload.extend(number.to_le_bytes());
        }
        for _ in 0..self.side {
            payload.extend((0..stride).map(&mut valid));
        }
        let mut chunk = MASK_GUID.to_vec();
        chunk.extend((payload.len() as i32).to_le_bytes());
        chunk.extend(payload);
        (SECTION.to_vec(), chunk)
    }
}

/// A sub-block's content, and where in it the pixels begin.
fn sub_block(entry: &[u8], metadata: &[u8], pixels: &[u8], attachment: &[u8]) -> (Vec<u8>, usize) {
    let mut content = Vec::with_capacity(512 + metadata.len() + pixels.len() + attachment.len());
    content.extend((metadata.len() as i32).to_le_bytes());
    content.extend((attachment.len() as i32).to_le_bytes());
    content.extend((pixels.len() as i64).to_le_bytes());
    content.extend(entry);
    content.resize(256, 0);
    content.extend(metadata);
    let place = content.len();
    content.extend(pixels);
    content.extend(attachment);
    (content, place)
}

/// A file that has its first segment alone.
fn file_segment() -> Vec<u8> {
    let mut content = vec![0; 512];
    content[0] = 1;
    let mut bytes = Vec::new();
    segment(&mut bytes, Kind::File, &content);
    bytes
}

/// Adds the directory of these entries, and names it in the first segment.
fn directory(bytes: &mut Vec<u8>, entries: &[Vec<u8>]) {
    let position = bytes.len() as i64;
    let mut content = (entries.len() as i32).to_le_bytes().to_vec();
    content.resize(128, 0);
    content.extend(entries.concat());
    segment(bytes, Kind::Directory, &content);
    bytes[84..92].copy_from_slice(&position.to_le_bytes());
}

fn segment(bytes: &mut Vec<u8>, kind: Kind, content: &[u8]) {
    let allocated = content.len().next_multiple_of(32);
    bytes.extend(kind.name());
    bytes.extend((allocated as i64).to_le_bytes());
    bytes.extend((content.len() as i64).to_le_bytes());
    bytes.extend(content);
    bytes.resize(bytes.len() + allocated - content.len(), 0);
}
