//! Small mosaics, built segment by segment as paper 01 says.

/// A tile: its pixel type, the bytes of a pixel, where it lies, and its scene.
#[derive(Clone, Copy)]
pub struct Tile {
    pub pixel_type: i32,
    pub bytes: usize,
    pub left: i32,
    pub top: i32,
    pub width: i32,
    pub height: i32,
    pub scene: i32,
}

fn put(bytes: &mut [u8], at: usize, part: &[u8]) {
    bytes[at..at + part.len()].copy_from_slice(part);
}

fn segment(name: &str, room: &[u8]) -> Vec<u8> {
    let allocated = room.len().next_multiple_of(32);
    let mut bytes = vec![0; 32 + allocated];
    put(&mut bytes, 0, name.as_bytes());
    put(&mut bytes, 16, &(allocated as i64).to_le_bytes());
    put(&mut bytes, 24, &(room.len() as i64).to_le_bytes());
    put(&mut bytes, 32, room);
    bytes
}

fn entry(tile: &Tile, position: usize) -> Vec<u8> {
    let mut bytes = vec![0; 32];
    put(&mut bytes, 0, b"DV");
    put(&mut bytes, 2, &tile.pixel_type.to_le_bytes());
    put(&mut bytes, 6, &(position as i64).to_le_bytes());
    put(&mut bytes, 28, &3_i32.to_le_bytes());
    for (letter, start, size) in [
        (b'X', tile.left, tile.width),
        (b'Y', tile.top, tile.height),
        (b'S', tile.scene, 1),
    ] {
        let numbers = [i32::from(letter), start, size, 0, size];
        bytes.extend(numbers.iter().flat_map(|number| number.to_le_bytes()));
    }
    bytes
}

/// A file with these tiles, all pixels 1.
pub fn mosaic(tiles: &[Tile]) -> Vec<u8> {
    let mut file = vec![0; 80];
    put(&mut file, 0, &1_i32.to_le_bytes());
    let mut after = Vec::new();
    let mut directory = vec![0; 128];
    put(&mut directory, 0, &(tiles.len() as i32).to_le_bytes());
    let first = segment("ZISRAWFILE", &file).len();
    for tile in tiles {
        let entry = entry(tile, first + after.len());
        let size = tile.width as usize * tile.height as usize * tile.bytes;
        let mut room = vec![0; 256];
        put(&mut room, 8, &(size as i64).to_le_bytes());
        put(&mut room, 16, &entry);
        room.extend(vec![1; size]);
        after.extend(segment("ZISRAWSUBBLOCK", &room));
        directory.extend(entry);
    }
    put(&mut file, 52, &((first + after.len()) as i64).to_le_bytes());
    let mut bytes = segment("ZISRAWFILE", &file);
    bytes.extend(after);
    bytes.extend(segment("ZISRAWDIRECTORY", &directory));
    bytes
}

/// A file with one tile of gray8 and one attachment without data, each listed so often.
/// Answers its length, and its bytes up to the tile's pixels, which are the rest and zeros.
pub fn crowded(tile: &Tile, tiles: usize, attachments: usize) -> (u64, Vec<u8>) {
    let long = |number: usize| (number as i64).to_le_bytes();
    let mut file = vec![0; 96];
    let mut bytes = segment("ZISRAWFILE", &file);
    let mut listed = vec![0; 128];
    put(&mut listed, 0, b"A1");
    put(&mut listed, 12, &long(bytes.len()));
    let mut attached = vec![0; 256];
    put(&mut attached, 16, &listed);
    bytes.extend(segment("ZISRAWATTACH", &attached));
    let mut directory = vec![0; 256];
    put(&mut directory, 0, &(attachments as i32).to_le_bytes());
    directory.extend(listed.repeat(attachments));
    put(&mut file, 72, &long(bytes.len()));
    bytes.extend(segment("ZISRAWATTDIR", &directory));
    put(&mut file, 52, &long(bytes.len()));
    let mut directory = vec![0; 128];
    put(&mut directory, 0, &(tiles as i32).to_le_bytes());
    let behind = bytes.len() + 32 + (128 + tiles * entry(tile, 0).len()).next_multiple_of(32);
    let entry = entry(tile, behind);
    directory.extend(entry.repeat(tiles));
    bytes.extend(segment("ZISRAWDIRECTORY", &directory));
    let pixels = tile.width as usize * tile.height as usize;
    let mut block = vec![0; 256];
    put(&mut block, 8, &long(pixels));
    put(&mut block, 16, &entry);
    let mut block = segment("ZISRAWSUBBLOCK", &block);
    let allocated = (256 + pixels).next_multiple_of(32);
    put(&mut block, 16, &long(allocated));
    put(&mut block, 24, &long(256 + pixels));
    bytes.extend(block);
    put(&mut file, 0, &1_i32.to_le_bytes());
    put(&mut bytes, 32, &file);
    ((behind + 32 + allocated) as u64, bytes)
}

/// A tile of gray8 in scene 0.
pub fn gray8(left: i32, top: i32, width: i32, height: i32) -> Tile {
    Tile {
        pixel_type: 0,
        bytes: 1,
        left,
        top,
        width,
        height,
        scene: 0,
    }
}

/// The same of gray16.
pub fn gray16(left: i32, top: i32, width: i32, height: i32) -> Tile {
    Tile {
        pixel_type: 1,
        bytes: 2,
        ..gray8(left, top, width, height)
    }
}
