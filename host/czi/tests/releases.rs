//! The stored samples under releases 1.2 and 1.02.

use czi::calls::{self, RELEASE_1_02, RELEASE_1_2};
use czi::{compose, Masks, Question, Reason, Refusal, Release, Scan};
use std::fs;
use std::path::PathBuf;

fn samples() -> PathBuf {
    PathBuf::from(env!("CARGO_MANIFEST_DIR")).join("../samples")
}

fn sample(name: &str) -> Vec<u8> {
    fs::read(samples().join(name)).expect("a stored sample")
}

/// The file judged by 1.02.
fn older(file: &[u8]) -> Scan<'_> {
    Scan::new(file).release(Release::V1_02)
}

#[test]
fn every_sample_is_listed_as_stored_under_1_02() {
    let (mut listed, mut others) = (0, 0);
    for entry in fs::read_dir(samples()).expect("the samples") {
        let path = entry.expect("a sample").path();
        if path.extension().is_some_and(|e| e == "czi") {
            let file = fs::read(&path).expect("its bytes");
            let newer = fs::read_to_string(path.with_extension("txt")).expect("its listing");
            let other = fs::read_to_string(path.with_extension("1.02.txt"));
            others += usize::from(other.is_ok());
            let wanted = other.unwrap_or(newer);
            assert_eq!(czi::list(older(&file)), wanted, "{}", path.display());
            listed += 1;
        }
    }
    assert!(listed >= 10 && others >= 5, "{listed}, {others}");
}

#[test]
fn the_note_of_an_archive_is_no_broken_chunk_under_1_02() {
    let file = sample("archive.czi");
    let refusal = czi::judge(&file).unwrap_err();
    assert_eq!(refusal.reason, Reason::Chunk);
    assert_eq!(czi::judge(Scan::new(&file)), Err(refusal));
    assert_eq!(czi::tile_attachment(&file, 0), Err(refusal));
    assert_eq!(czi::judge(older(&file)), Ok(()));
    let note = czi::tile_attachment(older(&file), 0).unwrap();
    assert_eq!(note, b"scanned 2011-05-04, slide 17");
    let at = &file[refusal.place as usize..];
    assert_eq!(note.as_ptr(), at.as_ptr(), "the very bytes of the file");
    let behind = sample("archive_behind.czi");
    assert_eq!(czi::judge(&behind).unwrap_err(), refusal);
    let entry = czi::tile(older(&file), 2).unwrap().place;
    let refused = czi::judge(older(&behind)).unwrap_err();
    assert_eq!(refused, Refusal::new(13, entry));
}

/// Each function that takes a file takes a release with it.
#[test]
fn every_function_judges_by_the_release() {
    let file = sample("archive.czi");
    let refusal = czi::judge(&file).unwrap_err();
    let question = Question::default().window(0, 0, 12, 1).masks(Masks::On);
    type Asked = fn(Scan, &Question) -> Result<(), Refusal>;
    let all: [(&str, Asked); 19] = [
        ("tile", |scan, _| czi::tile(scan, 1).map(drop)),
        ("tiles", |scan, _| czi::tiles(scan).map(drop)),
        ("records", |scan, _| czi::all_records(scan).map(drop)),
        ("dimension", |scan, _| czi::dimension(scan, 1, 0).map(drop)),
        ("dimensions", |scan, _| czi::dimensions(scan, 1).map(drop)),
        ("pixels", |scan, _| czi::tile_pixels(scan, 1).map(drop)),
        ("metadata", |scan, _| czi::tile_metadata(scan, 1).map(drop)),
        ("attachment", |scan, _| {
            czi::tile_attachment(scan, 1).map(drop)
        }),
        ("attachments", |scan, _| czi::attachments(scan).map(drop)),
        ("an attachment", |scan, _| is_24(czi::attachment(scan, 0))),
        ("its data", |scan, _| is_24(czi::attachment_data(scan, 0))),
        ("XML", |scan, _| czi::common_xml(scan).map(drop)),
        ("its attachment", |scan, _| {
            czi::common_attachment(scan).map(drop)
        }),
        ("summary", |scan, _| czi::summary(scan).map(drop)),
        ("chosen", |scan, q| czi::chosen(scan, q).map(drop)),
        ("plain", |scan, q| {
            czi::compose_plain(scan, q, &mut [0; 12], &mut [0; 2]).map(drop)
        }),
        ("quick", |scan, q| {
            czi::compose_quick(scan, q, &mut [0; 12], &mut [0; 2]).map(drop)
        }),
        ("repack's size", |scan, _| czi::repack_size(scan).map(drop)),
        ("repack", |scan, _| {
            czi::repack(scan, &mut [0; 4096]).map(drop)
        }),
    ];
    for (name, asked) in all {
        assert_eq!(asked(Scan::new(&file), &question), Err(refusal), "{name}");
        assert_eq!(asked(older(&file), &question), Ok(()), "{name}");
    }
    assert!(compose(&file, &question).is_err());
    assert_eq!(compose(older(&file), &question).unwrap().covered, 12);
}

/// The archive has no attachments of its own, so that 24 is all that is left.
fn is_24<T: std::fmt::Debug>(answer: Result<T, Refusal>) -> Result<(), Refusal> {
    match answer.unwrap_err() {
        refusal if refusal == Refusal::new(24, 0) => Ok(()),
        other => Err(other),
    }
}

#[test]
fn a_mask_hides_pixels_under_1_2_alone() {
    let file = sample("mosaic.czi");
    let edges = czi::summary(&file).unwrap().edges.expect("a box");
    let covered = |release, masks| {
        let scan = Scan::new(&file).release(release);
        compose(scan, &Question::default().over(edges).masks(masks)).unwrap()
    };
    let off = covered(Release::V1_2, Masks::Off);
    assert_eq!(off.covered, 1174);
    assert_eq!(covered(Release::V1_2, Masks::On).covered, 1138);
    for masks in [Masks::On, Masks::Off, Masks::NotChosen] {
        assert_eq!(covered(Release::V1_02, masks), off);
    }
    // The records are the same but for the mask.
    let without = |mut tile: czi::Tile| {
        tile.mask = None;
        tile
    };
    let newer: Vec<czi::Tile> = czi::tiles(&file).unwrap().collect();
    assert_eq!(newer.iter().filter(|tile| tile.mask.is_some()).count(), 1);
    let records: Vec<czi::Tile> = czi::tiles(older(&file)).unwrap().collect();
    assert_eq!(records, newer.into_iter().map(without).collect::<Vec<_>>());
}

#[test]
fn a_number_that_is_no_release_is_1_2() {
    let file = sample("archive.czi");
    let number = |release| calls::judge(&file, release).number;
    assert_eq!((number(RELEASE_1_2), number(RELEASE_1_02)), (17, 0));
    for other in [2, 3, 257, 65_537, 1 << 31, u32::MAX] {
        assert_eq!(number(other), 17, "{other}");
    }
}
