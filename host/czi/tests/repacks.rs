//! Files written anew without their dead segments.

use czi::calls::{self, Answer};
use czi::{
    all_records, attachments, compose, judge, repack, repack_size, repacked, summary, NotMade,
    Question, Reason, Record, Refusal, Release, Scan, Scene,
};
use std::fs;
use std::path::PathBuf;

fn samples() -> PathBuf {
    PathBuf::from(env!("CARGO_MANIFEST_DIR")).join("../samples")
}

fn sample(name: &str) -> Vec<u8> {
    fs::read(samples().join(name)).expect(name)
}

#[test]
fn the_dead_file_becomes_the_stored_one() {
    let (file, wanted) = (sample("dead.czi"), sample("dead_repacked.czi"));
    for release in Release::ALL {
        let scan = Scan::new(&file).release(release);
        assert_eq!(repack_size(scan), Ok(wanted.len() as u64));
        assert_eq!(repacked(scan), Ok(wanted.clone()));
        let again = Scan::new(&wanted).release(release);
        assert_eq!(repacked(again), Ok(wanted.clone()));
    }
    let listed = fs::read_to_string(samples().join("dead_repacked.txt")).unwrap();
    assert_eq!(czi::list(&repacked(&file).unwrap()), listed);
}

#[test]
fn a_longer_buffer_keeps_what_is_behind_the_file() {
    let (file, wanted) = (sample("dead.czi"), sample("dead_repacked.czi"));
    for more in [0, 1, 33, 4096] {
        let mut out = vec![0x5A; wanted.len() + more];
        assert_eq!(repack(&file, &mut out), Ok(wanted.len() as u64));
        let (new, behind) = out.split_at(wanted.len());
        assert!(new == wanted && behind.iter().all(|byte| *byte == 0x5A));
    }
}

/// What is said of a buffer of that length, which stays as it was.
fn refused(file: &[u8], release: Release, length: usize) -> Refusal {
    let mut out = vec![0x5A; length];
    let refusal = repack(Scan::new(file).release(release), &mut out).unwrap_err();
    assert!(out.iter().all(|byte| *byte == 0x5A));
    refusal
}

#[test]
fn a_shorter_buffer_is_25() {
    for name in ["dead.czi", "dead_repacked.czi", "smallest.czi", "free.czi"] {
        let file = sample(name);
        let size = repack_size(&file).unwrap() as usize;
        for length in [0, 1, 544, size - 32, size - 1] {
            let refusal = refused(&file, Release::V1_2, length);
            assert_eq!(refusal, Refusal::new(25, 0), "{name}, {length}");
            assert_eq!(refusal.reason, Reason::RepackBuffer);
        }
    }
}

#[test]
fn a_refused_file_is_refused_so_whatever_is_lent() {
    let mut seen = 0;
    for entry in fs::read_dir(samples()).unwrap() {
        let path = entry.unwrap().path();
        if path.extension().is_some_and(|e| e == "czi") {
            let file = fs::read(&path).unwrap();
            for release in Release::ALL {
                let scan = Scan::new(&file).release(release);
                let Err(refusal) = judge(scan) else { continue };
                assert_eq!(repack_size(scan), Err(refusal));
                assert_eq!(repacked(scan), Err(NotMade::Refused(refusal)));
                for length in [0, 1, file.len() + 10_000] {
                    assert_eq!(refused(&file, release, length), refusal);
                }
                seen += 1;
            }
        }
    }
    assert!(seen >= 30, "{seen}");
}

#[test]
fn answers_are_0_where_refused() {
    let file = sample("refusal-13.czi");
    let refused = |number, place| Answer {
        number,
        place,
        value: 0,
    };
    let place = judge(&file).unwrap_err().place;
    assert_eq!(calls::repack_size(&file, 0), refused(13, place));
    assert_eq!(calls::repack(&file, 0, &mut [0; 9]), refused(13, place));
    assert_eq!(calls::repack_size(&[], 0), refused(1, 0));
    let file = sample("dead.czi");
    assert_eq!(calls::repack(&file, 0, &mut []), refused(25, 0));
    let (sized, file) = (calls::repack_size(&file, 0), crowded(4096, 4096));
    let size = |value| Answer {
        number: 0,
        place: 0,
        value,
    };
    assert_eq!(sized, size(4096));
    assert_eq!(calls::repack_size(&file, 0), refused(36, 0));
    assert_eq!(calls::repack(&file, 0, &mut []), refused(36, 0));
}

/// A record without its places: where its own and its mask's lie in the attachment.
fn placeless(file: &[u8], mut record: Record) -> (Record, [Vec<u8>; 3]) {
    let tile = &mut record.tile;
    let parts = [&tile.metadata, &tile.pixels, &tile.attachment];
    let parts = parts.map(|part| file[part.clone()].to_vec());
    if let Some(mask) = &mut tile.mask {
        mask.place -= tile.attachment.start as u64;
    }
    (tile.place, tile.position) = (0, 0);
    (tile.metadata, tile.pixels, tile.attachment) = (0..0, 0..0, 0..0);
    (record, parts)
}

/// All that a file says of itself but places, and a plane of it.
fn said(scan: Scan) -> String {
    let file = scan.file;
    let records: Vec<_> = all_records(scan)
        .unwrap()
        .map(|record| placeless(file, record))
        .collect();
    let attached: Vec<_> = attachments(scan)
        .unwrap()
        .into_iter()
        .map(|a| (a.guid, a.file_type, a.name, file[a.data].to_vec()))
        .collect();
    let common = [czi::common_xml(scan), czi::common_attachment(scan)];
    let edges = summary(scan).unwrap().edges;
    let question = Question::default().scene(Scene::Any);
    let question = question.masks(czi::Masks::On).window(-20, -20, 200, 150);
    let plane = compose(scan, &question).map_err(|failure| match failure {
        NotMade::Refused(refusal) => refusal.reason,
        NotMade::Memory(_) => panic!("{failure}"),
    });
    // As text, since a coordinate may be a not-a-number.
    format!("{records:?} {attached:?} {common:?} {edges:?} {plane:?}")
}

#[test]
fn the_new_file_has_what_the_old_one_has() {
    let mut seen = 0;
    for entry in fs::read_dir(samples()).unwrap() {
        let path = entry.unwrap().path();
        if path.extension().is_some_and(|e| e == "czi") {
            let file = fs::read(&path).unwrap();
            for release in Release::ALL {
                let old = Scan::new(&file).release(release);
                if judge(old).is_err() {
                    continue;
                }
                let clean = repacked(old).unwrap();
                let new = Scan::new(&clean).release(release);
                assert_eq!(judge(new), Ok(()), "{}", path.display());
                assert_eq!(said(new), said(old), "{}", path.display());
                assert_eq!(repacked(new), Ok(clean.clone()));
                assert!(!clean.chunks(32).any(|part| part.starts_with(b"DELETED")));
                seen += 1;
            }
        }
    }
    assert!(seen >= 20, "{seen}");
}

/// A segment of that name: its header, the content, zeros to a multiple of 32.
fn segment(name: &str, content: Vec<u8>) -> Vec<u8> {
    let allocated = content.len().next_multiple_of(32);
    let mut bytes = name.as_bytes().to_vec();
    bytes.resize(16, 0);
    bytes.extend((allocated as i64).to_le_bytes());
    bytes.extend((content.len() as i64).to_le_bytes());
    bytes.extend(content);
    bytes.resize(32 + allocated, 0);
    bytes
}

fn put(bytes: &mut [u8], at: usize, part: &[u8]) {
    bytes[at..at + part.len()].copy_from_slice(part);
}

/// A file with one tile of a pixel and one attachment without data, listed so often.
fn crowded(tiles: usize, attached: usize) -> Vec<u8> {
    let long = |number: usize| (number as i64).to_le_bytes();
    let mut entry = b"DV\0\0\0\0".to_vec();
    entry.extend(long(128));
    entry.resize(28, 0);
    entry.extend(2_i32.to_le_bytes());
    for letter in [b'X', b'Y'] {
        let numbers = [i32::from(letter), 0, 1, 0, 1];
        entry.extend(numbers.iter().flat_map(|number| number.to_le_bytes()));
    }
    let mut block = vec![0; 257];
    put(&mut block, 8, &long(1));
    put(&mut block, 16, &entry);
    let mut bytes = segment("ZISRAWSUBBLOCK", block);
    let mut listed = b"A1".to_vec();
    listed.resize(128, 0);
    put(&mut listed, 12, &long(128 + bytes.len()));
    let mut data = vec![0; 256];
    put(&mut data, 16, &listed);
    bytes.extend(segment("ZISRAWATTACH", data));
    let mut file = vec![0; 96];
    put(&mut file, 0, &1_i32.to_le_bytes());
    put(&mut file, 52, &long(128 + bytes.len()));
    let mut directory = vec![0; 128];
    put(&mut directory, 0, &long(tiles));
    directory.extend(entry.repeat(tiles));
    bytes.extend(segment("ZISRAWDIRECTORY", directory));
    put(&mut file, 72, &long(128 + bytes.len()));
    let mut directory = vec![0; 256];
    put(&mut directory, 0, &long(attached));
    directory.extend(listed.repeat(attached));
    bytes.extend(segment("ZISRAWATTDIR", directory));
    [segment("ZISRAWFILE", file), bytes].concat()
}

#[test]
fn over_8192_segments_are_36_whatever_is_lent() {
    // File segment and both directories are three.
    for (tiles, attached, number) in [(4096, 4093, 0), (4096, 4094, 36), (4096, 4096, 36)] {
        let file = crowded(tiles, attached);
        assert_eq!(summary(&file).unwrap().segments, 5);
        if number == 0 {
            let clean = repacked(&file).unwrap();
            assert_eq!(summary(&clean).unwrap().segments, 8192);
            assert!(clean.len() > 2 * file.len());
            continue;
        }
        let refusal = Refusal::new(number, 0);
        assert_eq!(refusal.reason, Reason::RepackSize);
        assert_eq!(repack_size(&file), Err(refusal));
        assert_eq!(repacked(&file), Err(NotMade::Refused(refusal)));
        for length in [0, 10_000_000] {
            assert_eq!(refused(&file, Release::V1_2, length), refusal);
        }
    }
}
