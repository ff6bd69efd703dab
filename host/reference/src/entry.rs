//! Entries DV of the sub-block directory: refusals 10, 11, 12, 13 and 7.

use crate::bytes::{int, long, part};
use crate::pixel::bytes_a_pixel;
use crate::refusal::{refuse_if, Refusal};
use crate::segment::Segment;

/// The most layers of a tile.
const MOST_LAYERS: i32 = 1_024;

/// One dimension of an entry.
#[derive(Clone, Copy, Debug, PartialEq, Eq)]
pub struct Dimension {
    /// One of A to Z.
    pub letter: u8,
    /// Start.
    pub start: i32,
    /// Size.
    pub size: i32,
    /// The bits of StartCoordinate, a 32-bit float that is not judged.
    pub coordinate_bits: u32,
    /// StoredSize, or Size where that is 0.
    pub stored: i32,
}

impl Dimension {
    /// StartCoordinate itself.
    pub fn coordinate(&self) -> f32 {
        f32::from_bits(self.coordinate_bits)
    }
}

/// A well-formed entry DV.
pub(crate) struct Entry {
    pub place: u64,
    pub pixel_type: i32,
    pub bytes_a_pixel: u64,
    pub file_position: i64,
    pub pyramid: u8,
    pub dimensions: Vec<Dimension>,
}

impl Entry {
    /// The entry's length in bytes.
    pub fn length(&self) -> u64 {
        entry_length(self.dimensions.len() as u64)
    }

    /// The dimension of that letter.
    pub fn find(&self, letter: u8) -> Option<&Dimension> {
        self.dimensions.iter().find(|d| d.letter == letter)
    }

    /// The dimension that has layers, if there is one.
    pub fn layered(&self) -> Option<&Dimension> {
        self.dimensions.iter().find(|d| has_layers(d))
    }
}

/// Is it a letter besides X and Y with a Size of 2 or more?
fn has_layers(d: &Dimension) -> bool {
    !b"XY".contains(&d.letter) && d.size >= 2
}

fn entry_length(dimension_count: u64) -> u64 {
    32 + 20 * dimension_count
}

/// Reads the entry that begins `offset` bytes into the directory's content:
/// 10 for its first 32 bytes, 11 for mark and count, 10 for the rest, 11, 12,
/// 13, 7. A place of 10 is the directory, of the others the entry.
pub(crate) fn read_entry(file: &[u8], directory: &Segment, offset: u64) -> Result<Entry, Refusal> {
    let place = directory.content() + offset;
    refuse_if(offset + 32 > directory.room, 10, directory.position)?;

    let count = int(file, place + 28);
    refuse_if(part(file, place, 2) != b"DV", 11, place)?;
    refuse_if(!(1..=16).contains(&count), 11, place)?;

    let length = entry_length(count as u64);
    refuse_if(offset + length > directory.room, 10, directory.position)?;

    let dimensions = read_dimensions(file, place, count as u64).ok_or(Refusal::new(11, place))?;

    let pixel_type = int(file, place + 2);
    let bytes_a_pixel = bytes_a_pixel(pixel_type.into()).ok_or(Refusal::new(12, place))?;
    refuse_if(int(file, place + 18) != 0, 13, place)?;
    refuse_if(int(file, place + 14) != 0, 7, place)?;
    Ok(Entry {
        place,
        pixel_type,
        bytes_a_pixel,
        file_position: long(file, place + 6),
        pyramid: part(file, place + 22, 1)[0],
        dimensions,
    })
}

/// The dimensions, or nothing where they are not well formed.
fn read_dimensions(file: &[u8], place: u64, count: u64) -> Option<Vec<Dimension>> {
    let mut dimensions = Vec::new();
    for k in 0..count {
        dimensions.push(read_dimension(file, place + 32 + 20 * k)?);
    }
    // No letter twice.
    for (k, d) in dimensions.iter().enumerate() {
        if dimensions[..k].iter().any(|e| e.letter == d.letter) {
            return None;
        }
    }
    // X and Y present with X before Y.
    let x = dimensions.iter().position(|d| d.letter == b'X')?;
    let y = dimensions.iter().position(|d| d.letter == b'Y')?;
    if x > y {
        return None;
    }
    // One letter may have layers, stored after X and Y: a second such letter, or one
    // before Y, is 11 (Req 10).
    let layered: Vec<usize> = (0..dimensions.len())
        .filter(|k| has_layers(&dimensions[*k]))
        .collect();
    let is_allowed = match layered[..] {
        [] => true,
        [only] => only > y,
        _ => false,
    };
    is_allowed.then_some(dimensions)
}

/// One dimension, or nothing where it is not well formed by itself.
fn read_dimension(file: &[u8], at: u64) -> Option<Dimension> {
    // Each letter one of A to Z and three zero bytes.
    let name = part(file, at, 4);
    let letter = name[0];
    if !letter.is_ascii_uppercase() || name[1..] != [0, 0, 0] {
        return None;
    }
    let start = int(file, at + 4);
    let size = int(file, at + 8);
    let stored_size = int(file, at + 16);
    // Every Start + Size at most 2,147,483,647, StoredSize not negative.
    if i64::from(start) + i64::from(size) > 2_147_483_647 || stored_size < 0 {
        return None;
    }
    // StoredSize 0 is read as Size.
    let stored = if stored_size == 0 { size } else { stored_size };
    // X and Y Size at least 1. Every other dimension has Size 1 and stored size 1, but
    // that a letter besides X, Y, M and S may have Size 2 to 1,024, with stored size 0 or
    // equal to Size (Req 10).
    let sizes_are_good = match letter {
        b'X' | b'Y' => size >= 1,
        b'M' | b'S' => size == 1 && stored == 1,
        _ => (1..=MOST_LAYERS).contains(&size) && stored == size,
    };
    sizes_are_good.then_some(Dimension {
        letter,
        start,
        size,
        coordinate_bits: int(file, at + 12) as u32,
        stored,
    })
}
