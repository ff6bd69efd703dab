//! All tiles of a file, with their dimensions or without, and all dimensions of
//! one tile.

use crate::calls::{self, DimensionRecord, TileRecord};
use crate::calls::{DIMENSION_NUMBERS, TILE_NUMBERS, TILE_STARTS};
use crate::reader::tile;
use crate::records::{Dimension, Tile};
use crate::refusal::Refusal;
use crate::scan::Scan;
use crate::MOST_TILES;
use std::vec::IntoIter;

/// The most dimensions that a tile of an accepted file has.
const MOST_DIMENSIONS: usize = 16;

/// A tile with its dimensions.
#[derive(Clone, Debug, PartialEq)]
pub struct Record {
    /// The tile.
    pub tile: Tile,
    /// Its dimensions, as the entry has them.
    pub dimensions: Vec<Dimension>,
}

macro_rules! listed {
    ($(#[$doc:meta])* $name:ident, $item:ident) => {
        $(#[$doc])*
        #[derive(Clone, Debug)]
        pub struct $name(IntoIter<$item>);

        impl Iterator for $name {
            type Item = $item;

            fn next(&mut self) -> Option<$item> {
                self.0.next()
            }

            fn size_hint(&self) -> (usize, Option<usize>) {
                self.0.size_hint()
            }
        }

        impl ExactSizeIterator for $name {}
    };
}

listed!(
    /// The records of a file's tiles, in the order of its directory.
    Tiles,
    Tile
);
listed!(
    /// The records of a file's tiles with their dimensions, in the order of its
    /// directory.
    Records,
    Record
);

/// The records of all tiles, in the order of the directory. The file is judged
/// once.
///
/// Refusals: those of [`judge`](crate::judge).
pub fn tiles<'a>(scan: impl Into<Scan<'a>>) -> Result<Tiles, Refusal> {
    tile_records(scan.into()).map(|records| Tiles(records.into_iter()))
}

/// The records of all tiles with all of their dimensions, in the order of the
/// directory. The file is judged twice, whatever it has.
///
/// Refusals: those of [`judge`](crate::judge).
pub fn all_records<'a>(scan: impl Into<Scan<'a>>) -> Result<Records, Refusal> {
    let scan = scan.into();
    let tiles = tile_records(scan)?;
    let rows = tiles.iter().map(|tile| tile.dimensions as usize).sum();
    let mut dimensions = dimension_records(scan, rows)?.into_iter();
    let record = |tile: Tile| Record {
        dimensions: dimensions
            .by_ref()
            .take(tile.dimensions as usize)
            .map(|(_, dimension)| dimension)
            .collect(),
        tile,
    };
    let records: Vec<Record> = tiles.into_iter().map(record).collect();
    Ok(Records(records.into_iter()))
}

/// The records of all dimensions of a tile, as its entry has them. The file is
/// judged twice.
///
/// Refusals: those of [`judge`](crate::judge); 24 where there is no such entry.
pub fn dimensions<'a>(scan: impl Into<Scan<'a>>, entry: u64) -> Result<Vec<Dimension>, Refusal> {
    let scan = scan.into();
    tile(scan, entry)?;
    let rows = dimension_records(scan, MOST_TILES * MOST_DIMENSIONS)?;
    let own = rows.into_iter().filter(|(number, _)| *number == entry);
    Ok(own.map(|(_, dimension)| dimension).collect())
}

/// Every tile record. Zeros that are not written take no memory, so there is room
/// for as many as any file has, and the file is judged once.
fn tile_records(scan: Scan) -> Result<Vec<Tile>, Refusal> {
    let (file, release) = scan.plain();
    let mut numbers = vec![0; TILE_NUMBERS * MOST_TILES];
    let mut starts = vec![0; TILE_STARTS * MOST_TILES];
    let count = calls::tiles(file, release, &mut numbers, &mut starts).result()?;
    let (numbers, _) = numbers.as_chunks();
    let (starts, _) = starts.as_chunks();
    let rows = numbers.iter().zip(starts).take(count as usize);
    let named = |(numbers, starts): (&[u64; TILE_NUMBERS], &[i32; TILE_STARTS])| {
        let record = TileRecord {
            numbers: *numbers,
            starts: *starts,
        };
        record.named().expect("an accepted file has listed types")
    };
    Ok(rows.map(named).collect())
}

/// Every dimension record with its entry's number; there are at most so many.
fn dimension_records(scan: Scan, rows: usize) -> Result<Vec<(u64, Dimension)>, Refusal> {
    let (file, release) = scan.plain();
    let mut numbers = vec![0; DIMENSION_NUMBERS * rows];
    let mut starts = vec![0; rows];
    let count = calls::dimensions(file, release, &mut numbers, &mut starts).result()?;
    let (numbers, _) = numbers.as_chunks::<DIMENSION_NUMBERS>();
    let rows = numbers.iter().zip(starts).take(count as usize);
    let named = |(numbers, start): (&[u64; DIMENSION_NUMBERS], i32)| {
        let [entry, letter, size, coordinate_bits, stored] = *numbers;
        let record = DimensionRecord {
            letter,
            start,
            size,
            coordinate_bits: coordinate_bits as u32,
            stored,
        };
        (entry, record.named())
    };
    Ok(rows.map(named).collect())
}
