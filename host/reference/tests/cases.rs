//! Paper 01's worked cases, "Near each edge", against the reference.
//! (P4, P5, P7 and P8 are also tested beside the definitions they speak of.)

mod build;

use build::{file, mask_chunk, Tile};
use reference::{judge, list, Masks, Question, Refusal, Release};

fn refusal(bytes: &[u8]) -> Option<(u32, u64)> {
    judge(bytes, Release::V1_2)
        .err()
        .map(|r| (r.number, r.place))
}

fn question(left: i32, top: i32, width: u32, height: u32) -> Question {
    Question {
        starts: Vec::new(),
        any_scene: false,
        pixel_type: 0,
        background: vec![0xEE],
        left,
        top,
        width,
        height,
        masks: Masks::NotChosen,
    }
}

/// The target, the map, the covered count and the plain store count.
fn compose(bytes: &[u8], q: &Question) -> Result<(Vec<u8>, Vec<u8>, u64, u64), Refusal> {
    let pixels = q.pixels() as usize;
    let mut target = vec![0x55; pixels * q.background.len()];
    let mut map = vec![0x55; pixels.div_ceil(8)];
    let counts = judge(bytes, Release::V1_2)?.compose(q, &mut target, &mut map)?;
    assert_eq!(counts.stored_quick, counts.covered);
    Ok((target, map, counts.covered, counts.stored_plain))
}

#[test]
fn p1_the_288_byte_file_is_accepted() {
    let bytes = file(&[]);
    assert_eq!(bytes.len(), 288);
    assert_eq!(refusal(&bytes), None);
    assert_eq!(
        list(&bytes, Release::V1_2),
        "bytes=288\nsegments=2\ntiles=0\nattachments=0\nbox=none\n"
    );
}

#[test]
fn p2_the_same_cut_to_256() {
    let bytes = file(&[]);
    assert_eq!(refusal(&bytes[..256]), Some((3, 128)));
    assert_eq!(list(&bytes[..256], Release::V1_2), "refused=3\nplace=128\n");
}

#[test]
fn p3_empty() {
    assert_eq!(refusal(&[]), Some((1, 0)));
}

#[test]
fn p4_p5_the_fixed_part_grows_with_the_eleventh_dimension() {
    for (count, fixed) in [(10, 256), (11, 268)] {
        let others: Vec<(u8, i32)> = (0..count - 2).map(|k| (b'A' + k, 0)).collect();
        let bytes = file(&[Tile::gray8(0, 0, 1, &[7], &others)]);
        let judged = judge(&bytes, Release::V1_2).unwrap();
        let tile = judged.tile(0).unwrap();
        assert_eq!(tile.dimensions.len(), usize::from(count));
        assert_eq!(tile.metadata.start, tile.file_position + 32 + fixed);
    }
}

#[test]
fn p6_the_window_shows_tile_columns_2_to_5() {
    let bytes = file(&[Tile::gray8(-4, 0, 8, &[0, 1, 2, 3, 4, 5, 6, 7], &[])]);
    let (target, map, covered, stored) = compose(&bytes, &question(-2, 0, 4, 1)).unwrap();
    assert_eq!(target, [2, 3, 4, 5]);
    assert_eq!((map, covered, stored), (vec![0xF0], 4, 4));
}

#[test]
fn p7_p8_masks_hide_pixels_where_asked_for() {
    let tile = Tile::gray8(0, 0, 5, &[1, 2, 3, 4, 5], &[]);
    let bytes = file(&[tile.with_container(&mask_chunk(3, 1, 2, &[0xA0, 0xFF]))]);
    let mut q = question(0, 0, 5, 1);
    assert_eq!(compose(&bytes, &q).unwrap().0, [1, 2, 3, 4, 5]);
    q.masks = Masks::On;
    let (target, map, covered, stored) = compose(&bytes, &q).unwrap();
    assert_eq!(target, [1, 0xEE, 3, 0xEE, 0xEE]);
    assert_eq!((map, covered, stored), (vec![0xA0], 2, 2));
}

#[test]
fn p9_m_minus_one_lies_over_no_m() {
    let low = Tile::gray8(0, 0, 1, &[1], &[]);
    let high = Tile::gray8(0, 0, 1, &[2], &[(b'M', -1)]);
    for tiles in [[low.clone(), high.clone()], [high, low]] {
        let (target, _, covered, stored) = compose(&file(&tiles), &question(0, 0, 1, 1)).unwrap();
        assert_eq!((target, covered, stored), (vec![2], 1, 2));
    }
}

#[test]
fn p10_at_a_tie_the_later_entry_is_on_top() {
    let first = Tile::gray8(0, 0, 1, &[1], &[(b'M', 4)]);
    let second = Tile::gray8(0, 0, 1, &[2], &[(b'M', 4)]);
    let bytes = file(&[first, second]);
    assert_eq!(compose(&bytes, &question(0, 0, 1, 1)).unwrap().0, [2]);
}

#[test]
fn p11_a_window_at_the_signed_edge() {
    let bytes = file(&[]);
    let past = question(2_147_483_647, 0, 1, 1);
    assert_eq!(compose(&bytes, &past).unwrap_err(), Refusal::new(20, 0));
    let within = question(2_147_483_646, 0, 1, 1);
    assert_eq!(compose(&bytes, &within).unwrap().0, [0xEE]);
}

#[test]
fn p12_a_container_of_19_bytes() {
    let bytes = file(&[Tile::gray8(0, 0, 1, &[7], &[]).with_container(&[0; 19])]);
    let tile_at = 128 + 32 + 224;
    let attachment = tile_at + 32 + 256 + build::SECTION.len() as u64 + 1;
    assert_eq!(refusal(&bytes), Some((17, attachment)));
}

#[test]
fn no_tiles_is_all_background_and_a_zero_map() {
    let bytes = file(&[]);
    let (target, map, covered, stored) = compose(&bytes, &question(-3, -3, 3, 3)).unwrap();
    assert_eq!(target, [0xEE; 9]);
    assert_eq!((map, covered, stored), (vec![0, 0], 0, 0));
}

#[test]
fn a_product_that_wraps_64_bits_is_16() {
    // 24 × 421,221,772 × 1,824,726,041 = 2^64 + 32.
    let wrapping = Tile {
        pixel_type: 11,
        dimensions: vec![(b'X', 0, 421_221_772, 0), (b'Y', 0, 1_824_726_041, 0)],
        metadata: Vec::new(),
        pixels: vec![0; 32],
        attachment: Vec::new(),
    };
    let mut near = wrapping.clone();
    near.dimensions = vec![(b'X', 0, i32::MAX, 0), (b'Y', -5, i32::MAX, 0)];
    for tile in [wrapping, near] {
        assert_eq!(refusal(&file(&[tile])), Some((16, 384)));
    }
}

#[test]
fn a_type_below_a_covering_tile_is_still_23() {
    let mut below = Tile::gray8(0, 0, 1, &[1, 2], &[]);
    below.pixel_type = 1;
    below.dimensions[1].2 = 1;
    let above = Tile::gray8(0, 0, 1, &[3], &[(b'M', 9)]);
    let bytes = file(&[below, above]);
    let refused = compose(&bytes, &question(0, 0, 1, 1)).unwrap_err();
    assert_eq!(refused, Refusal::new(23, 288));
}

#[test]
fn a_refused_question_changes_no_lent_byte() {
    let bytes = file(&[Tile::gray8(0, 0, 1, &[1], &[])]);
    let judged = judge(&bytes, Release::V1_2).unwrap();
    let mut q = question(0, 0, 1, 1);
    q.pixel_type = 1;
    q.background = vec![0, 0];
    let (mut target, mut map) = ([0x55; 4], [0x55; 2]);
    let refused = judged.compose(&q, &mut target, &mut map).unwrap_err();
    assert_eq!(refused, Refusal::new(23, 288));
    assert_eq!((target, map), ([0x55; 4], [0x55; 2]));
}

#[test]
fn lent_bytes_past_what_is_written_stay() {
    let bytes = file(&[Tile::gray8(0, 0, 1, &[1], &[])]);
    let judged = judge(&bytes, Release::V1_2).unwrap();
    let (mut target, mut map) = ([0x55; 3], [0x55; 2]);
    let q = question(0, 0, 2, 1);
    judged.compose(&q, &mut target, &mut map).unwrap();
    assert_eq!((target, map), ([1, 0xEE, 0x55], [0x80, 0x55]));
}

#[test]
fn a_letter_that_the_tile_lacks_counts_as_0() {
    let lacks = Tile::gray8(0, 0, 1, &[1], &[]);
    let has = Tile::gray8(0, 0, 1, &[2], &[(b'Q', 5), (b'M', -7)]);
    let bytes = file(&[lacks, has]);
    let mut q = question(0, 0, 1, 1);
    assert_eq!(compose(&bytes, &q).unwrap().0, [1]);
    q.starts = vec![0; 26];
    q.starts[usize::from(b'Q' - b'A')] = 5;
    // Starts for X, Y and M are ignored.
    q.starts[usize::from(b'M' - b'A')] = 77;
    assert_eq!(compose(&bytes, &q).unwrap().0, [2]);
}

#[test]
fn any_scene_takes_tiles_with_and_without_s() {
    let tiles = [
        Tile::gray8(0, 0, 1, &[1], &[]),
        Tile::gray8(1, 0, 1, &[2], &[(b'S', 3)]),
    ];
    let bytes = file(&tiles);
    let mut q = question(0, 0, 2, 1);
    assert_eq!(compose(&bytes, &q).unwrap().0, [1, 0xEE]);
    q.any_scene = true;
    assert_eq!(compose(&bytes, &q).unwrap().0, [1, 2]);
}

#[test]
fn no_entry_of_that_number_is_24() {
    let bytes = file(&[Tile::gray8(0, 0, 1, &[1], &[])]);
    let judged = judge(&bytes, Release::V1_2).unwrap();
    let none = Refusal::new(24, 0);
    assert_eq!(judged.tile_pixels(1), Err(none));
    assert_eq!(judged.tile_metadata(u64::MAX), Err(none));
    assert_eq!(judged.attachment_data(0), Err(none));
    assert_eq!(judged.dimension(0, 2), Err(none));
    assert_eq!(judged.tile_pixels(0).unwrap().of(&bytes), [1]);
    assert_eq!((judged.xml.length, judged.xml_attachment.length), (0, 0));
}

#[test]
fn a_listing_over_65536_bytes_is_30_before_all() {
    assert_eq!(
        list(&vec![0; 65_537], Release::V1_2),
        "refused=30\nplace=0\n"
    );
    assert_eq!(
        list(&vec![0; 65_536], Release::V1_2),
        "refused=2\nplace=0\n"
    );
}
