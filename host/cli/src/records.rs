//! What is asked of a tile's record.

use czi::{Record, Scan, Tile};
use std::collections::BTreeMap;

/// The starts of a tile's letters but X, Y and M, as the entry has them; of its
/// layers the first.
pub fn starts(record: &Record) -> impl Iterator<Item = (char, i32)> + '_ {
    let others = record.dimensions.iter();
    let others = others.filter(|dimension| !['X', 'Y', 'M'].contains(&dimension.letter));
    others.map(|dimension| (dimension.letter, dimension.start))
}

/// Along each letter the starts of the first and the last layer that any of the tiles
/// has, pyramid tiles aside, which no question selects.
pub fn layers(tiles: &[Tile]) -> BTreeMap<char, (i32, i32)> {
    let mut found: BTreeMap<char, (i32, i32)> = BTreeMap::new();
    for tile in tiles.iter().filter(|tile| !tile.is_pyramid_tile()) {
        if let Some(layers) = tile.layers {
            let own = (layers.start, layers.last());
            let all = found.entry(layers.letter).or_insert(own);
            *all = (all.0.min(own.0), all.1.max(own.1));
        }
    }
    found
}

/// The tile whose entry stands at that place.
pub fn at(scan: Scan, place: u64) -> Option<Tile> {
    czi::tiles(scan).ok()?.find(|tile| tile.place == place)
}

#[cfg(test)]
mod tests {
    use super::*;
    use czi::calls::TileRecord;

    /// A tile with layers along that letter, stored in that width.
    fn tile(letter: char, start: i32, size: u64, stored: u64) -> Tile {
        let mut record = TileRecord::default();
        (record.numbers[6], record.numbers[7]) = (4, stored);
        (record.numbers[22], record.numbers[23]) = (u64::from(u32::from(letter)), size);
        record.starts[3] = start;
        record.named().expect("type 0 is listed")
    }

    #[test]
    fn layers_are_found_by_letter() {
        let tiles = [
            tile('Z', 5, 3, 4),
            tile('C', -1, 2, 4),
            tile('Z', 2, 2, 4),
            tile('Z', 6, 4, 4),
            tile('Z', 0, 1024, 2),
            tile('T', 0, 2, 2),
        ];
        let wanted = BTreeMap::from([('C', (-1, 0)), ('Z', (2, 9))]);
        assert_eq!(layers(&tiles), wanted);
        assert_eq!(layers(&tiles[4..]), BTreeMap::new());
    }
}
