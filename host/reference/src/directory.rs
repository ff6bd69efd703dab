//! The sub-block directory with all that its entries name: refusals 10 and 14.

use crate::bytes::int;
use crate::entry::read_entry;
use crate::refusal::{refuse_if, Refusal};
use crate::release::Release;
use crate::segment::{named, Kind, Segment};
use crate::sub_block::read_sub_block;
use crate::tile::Tile;

/// The most entries of a directory, that of the attachments too.
pub(crate) const MOST_ENTRIES: i32 = 4_096;

/// 10 for the fixed part and the count, then each entry with its sub-block
/// before the next entry.
pub(crate) fn read_directory(
    file: &[u8],
    segments: &[Segment],
    directory: &Segment,
    release: Release,
) -> Result<Vec<Tile>, Refusal> {
    refuse_if(128 > directory.room, 10, directory.position)?;
    let count = int(file, directory.content());
    refuse_if(!(0..=MOST_ENTRIES).contains(&count), 10, directory.position)?;
    let mut tiles = Vec::new();
    let mut offset = 128;
    for number in 0..count as u64 {
        let entry = read_entry(file, directory, offset)?;
        offset += entry.length();
        // 14: entry names no walked segment of its kind.
        let segment = named(segments, entry.file_position, Kind::SubBlock)
            .ok_or(Refusal::new(14, entry.place))?;
        let sub_block = read_sub_block(file, &segment, &entry, release)?;
        tiles.push(Tile::new(number, entry, sub_block));
    }
    Ok(tiles)
}
