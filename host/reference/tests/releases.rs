//! Paper 02, Req 05: files judged as of 1.02.

mod build;

use build::{file, mask_chunk, segment, Tile, SECTION};
use reference::{judge, list, Masks, Question, Release};

/// The refusals under 1.2 and under 1.02.
fn refusals(bytes: &[u8]) -> [Option<(u32, u64)>; 2] {
    let refusal = |release| judge(bytes, release).err().map(|r| (r.number, r.place));
    Release::ALL.map(refusal)
}

/// A tile of one pixel, and one whose attachment is a container.
fn plain() -> Tile {
    Tile::gray8(0, 0, 1, &[7], &[])
}

fn container(attachment: &[u8]) -> Tile {
    plain().with_container(attachment)
}

/// A chunk that is cut, and a second mask behind a whole one.
fn broken() -> [(u32, Vec<u8>); 2] {
    let mask = mask_chunk(1, 1, 1, &[0]);
    [
        (17, mask[..mask.len() - 1].to_vec()),
        (18, [&mask[..], &mask].concat()),
    ]
}

/// Where the directory's entry of that number stands; each has two dimensions.
fn entry(number: u64) -> u64 {
    288 + 72 * number
}

/// Where the first sub-block stands behind a directory of so many entries.
fn sub_block(entries: u64) -> u64 {
    entry(entries).next_multiple_of(32)
}

/// Where its attachment stands, behind the section and one pixel.
fn attachment(entries: u64) -> u64 {
    sub_block(entries) + 32 + 256 + SECTION.len() as u64 + 1
}

#[test]
fn every_attachment_is_plain_bytes() {
    for (number, held) in broken() {
        let bytes = file(&[container(&held)]);
        let place = match number {
            17 => attachment(1),
            _ => attachment(1) + held.len() as u64 / 2,
        };
        assert_eq!(refusals(&bytes), [Some((number, place)), None]);
        let judged = judge(&bytes, Release::V1_02).unwrap();
        assert_eq!(judged.tile_attachment(0).unwrap().of(&bytes), held);
        assert_eq!(judged.tile(0).unwrap().mask, None);
        let lines = format!("refused={number}\nplace={place}\n");
        assert_eq!(list(&bytes, Release::V1_2), lines);
        assert!(list(&bytes, Release::V1_02).ends_with("tiles=1\nattachments=0\nbox=0,0,1,1\n"));
    }
}

#[test]
fn what_is_sound_is_accepted_by_both_and_the_mask_is_of_one() {
    let bytes = file(&[
        container(&mask_chunk(1, 1, 1, &[0])),
        container(&[]),
        plain(),
    ]);
    assert_eq!(refusals(&bytes), [None, None]);
    let [newer, older] = Release::ALL.map(|release| judge(&bytes, release).unwrap());
    assert!(newer.tile(0).unwrap().mask.is_some());
    for k in 0..3 {
        let mut without = newer.tile(k).unwrap().clone();
        without.mask = None;
        assert_eq!(older.tile(k), Ok(&without));
    }
    assert_eq!(list(&bytes, Release::V1_2), list(&bytes, Release::V1_02));
}

#[test]
fn a_fault_behind_the_container_is_what_1_02_gives() {
    let mut compressed = file(&[container(&[0; 7]), plain(), plain()]);
    compressed[entry(2) as usize + 18] = 1;
    let wanted = [Some((17, attachment(3))), Some((13, entry(2)))];
    assert_eq!(refusals(&compressed), wanted);

    // The metadata segment and the attachment directory come behind all entries.
    for (name, field) in [("ZISRAWMETADATA", 92), ("ZISRAWATTDIR", 104)] {
        let mut bytes = file(&[container(&[0; 7])]);
        let position = bytes.len() as u64;
        bytes[field..field + 8].copy_from_slice(&position.to_le_bytes());
        bytes.extend(segment(name, &[0xFF; 256]));
        let wanted = [Some((17, attachment(1))), Some((10, position))];
        assert_eq!(refusals(&bytes), wanted, "{name}");
    }
}

#[test]
fn a_fault_before_the_container_is_what_both_give() {
    let mut bytes = file(&[plain(), container(&[0; 7])]);
    bytes[entry(0) as usize + 18] = 1;
    assert_eq!(refusals(&bytes), [Some((13, entry(0))); 2]);
    // Of the same entry: its sizes go before its chunks.
    let mut short = container(&[0; 7]);
    short.pixels = vec![7, 7];
    assert_eq!(refusals(&file(&[short])), [Some((16, sub_block(1))); 2]);
    assert_eq!(refusals(&[]), [Some((1, 0)); 2]);
}

#[test]
fn masks_on_means_the_same_as_masks_off() {
    let below = Tile::gray8(0, 0, 3, &[1, 2, 3], &[]);
    let above = Tile::gray8(1, 0, 3, &[4, 5, 6], &[]);
    let bytes = file(&[below, above.with_container(&mask_chunk(3, 1, 1, &[0x20]))]);
    let composed = |release, masks| {
        let question = Question {
            starts: Vec::new(),
            any_scene: false,
            pixel_type: 0,
            background: vec![0xEE],
            left: 0,
            top: 0,
            width: 5,
            height: 1,
            masks,
        };
        let (mut target, mut map) = ([0x55; 6], [0x55; 2]);
        let judged = judge(&bytes, release).unwrap();
        let counts = judged.compose(&question, &mut target, &mut map).unwrap();
        (target, map, counts.covered, counts.stored_plain)
    };
    let without = ([1, 4, 5, 6, 0xEE, 0x55], [0xF0, 0x55], 4, 6);
    for masks in [Masks::On, Masks::Off, Masks::NotChosen] {
        assert_eq!(composed(Release::V1_02, masks), without);
    }
    assert_eq!(composed(Release::V1_2, Masks::Off), without);
    assert_eq!(composed(Release::V1_2, Masks::NotChosen), without);
    let with = ([1, 2, 3, 6, 0xEE, 0x55], [0xF0, 0x55], 4, 4);
    assert_eq!(composed(Release::V1_2, Masks::On), with);
}
