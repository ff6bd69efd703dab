//! The freedoms that the rules leave, and which of them a sound file takes.
//! They are read off the file that was made, not off what was meant.

mod file;
mod layers;
mod mask;
mod overlap;
mod repack;
mod tile;

use crate::sound::Sound;
use crate::tile::Tile;
use file::OF_FILES;
use layers::{OF_LAYERS, OF_LETTERS};
use mask::{OF_CHUNKS, OF_MASKS};
use overlap::{overlapping_pairs, OF_PAIRS};
use repack::OF_REPACKS;
use tile::{OF_TILES, OF_TYPES};

/// The names of all freedoms, in the order of their tables below.
pub fn freedoms() -> Vec<&'static str> {
    let mut names = Vec::new();
    names.extend(OF_TYPES.iter().map(|f| f.1));
    names.extend(OF_TILES.iter().map(|f| f.0));
    names.extend(OF_LETTERS.iter().map(|f| f.1));
    names.extend(OF_LAYERS.iter().map(|f| f.0));
    names.extend(OF_MASKS.iter().map(|f| f.0));
    names.extend(OF_CHUNKS.iter().map(|f| f.0));
    names.extend(OF_PAIRS.iter().map(|f| f.0));
    names.extend(OF_FILES.iter().map(|f| f.0));
    names.extend(OF_REPACKS.iter().map(|f| f.0));
    names
}

/// The freedoms that the file takes, each once.
pub fn freedoms_of(sound: &Sound) -> Vec<&'static str> {
    let tiles: Vec<&Tile> = sound.entries.iter().map(|e| sound.tile(e)).collect();
    let mut taken = Vec::new();
    for &(pixel_type, name) in OF_TYPES {
        if tiles.iter().any(|t| t.pixel_type == pixel_type) {
            taken.push(name);
        }
    }
    for &(name, test) in OF_TILES {
        if tiles.iter().any(|t| test(t)) {
            taken.push(name);
        }
    }
    for name in tiles.iter().flat_map(|t| layers::of_tile(t)) {
        if !taken.contains(&name) {
            taken.push(name);
        }
    }
    for &(name, test) in OF_MASKS {
        if tiles.iter().any(|t| t.mask().is_some_and(|m| test(t, m))) {
            taken.push(name);
        }
    }
    for &(name, test) in OF_CHUNKS {
        if tiles.iter().any(|t| t.chunks().is_some_and(test)) {
            taken.push(name);
        }
    }
    let pairs = overlapping_pairs(&tiles);
    for &(name, test) in OF_PAIRS {
        if pairs.iter().any(|&(below, above)| test(below, above)) {
            taken.push(name);
        }
    }
    for &(name, test) in OF_FILES.iter().chain(OF_REPACKS) {
        if test(sound) {
            taken.push(name);
        }
    }
    taken
}
