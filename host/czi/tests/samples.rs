//! The stored samples through the wrapper.

use std::fs;
use std::path::{Path, PathBuf};

fn sample(name: &str) -> Vec<u8> {
    let folder = PathBuf::from(env!("CARGO_MANIFEST_DIR")).join("../samples");
    fs::read(folder.join(name)).expect("a stored sample")
}

#[allow(unsafe_code)]
fn mapped(path: &Path) -> czi::Mapping {
    // SAFETY: nobody changes a stored sample.
    unsafe { czi::map(path) }.expect("a mapping")
}

#[test]
fn a_mapping_goes_to_other_threads() {
    fn crosses<T: Send + Sync>() {}
    crosses::<czi::Mapping>();
}

#[test]
fn every_sample_is_listed_as_stored() {
    let folder = PathBuf::from(env!("CARGO_MANIFEST_DIR")).join("../samples");
    let mut listed = 0;
    for entry in fs::read_dir(folder).expect("the samples") {
        let path = entry.expect("a sample").path();
        if path.extension().is_some_and(|e| e == "czi") {
            let wanted = fs::read_to_string(path.with_extension("txt")).expect("its listing");
            let read = czi::read(&path).expect("its bytes");
            assert_eq!(czi::list(&read), wanted, "{}", path.display());
            assert_eq!(mapped(&path)[..], read, "{}", path.display());
            listed += 1;
        }
    }
    assert!(listed >= 10);
}

#[test]
fn a_tile_and_its_parts() {
    let file = sample("mosaic.czi");
    let summary = czi::summary(&file).unwrap();
    assert_eq!(summary.bytes, file.len() as u64);
    for entry in 0..summary.tiles {
        let tile = czi::tile(&file, entry).unwrap();
        assert_eq!(tile.entry, entry);
        let pixels = czi::tile_pixels(&file, entry).unwrap();
        assert_eq!(pixels.as_ptr_range(), file[tile.pixels].as_ptr_range());
        let area = tile.x.stored * tile.y.stored;
        assert_eq!(pixels.len() as u64, area * tile.pixel_type.bytes() as u64);
        let letters: Vec<char> = (0..tile.dimensions)
            .map(|k| czi::dimension(&file, entry, k).unwrap().letter)
            .collect();
        assert!(letters.contains(&'X') && letters.contains(&'Y'));
    }
    let refusal = czi::tile(&file, summary.tiles).unwrap_err();
    assert_eq!(refusal, czi::Refusal::new(24, 0));
}

#[test]
fn a_refused_file_is_refused_by_all() {
    let file = sample("refusal-09.czi");
    let refusal = czi::judge(&file).unwrap_err();
    assert_eq!(refusal.reason, czi::Reason::Position);
    assert_eq!(czi::summary(&file).unwrap_err(), refusal);
    assert_eq!(czi::tile_pixels(&file, 0).unwrap_err(), refusal);
    assert_eq!(czi::common_xml(&file).unwrap_err(), refusal);
    assert_eq!(czi::judge(&[]).unwrap_err(), czi::Refusal::new(1, 0));
}

#[test]
fn all_tiles_are_those_asked_for_one_by_one() {
    let file = sample("mosaic.czi");
    let tiles = czi::tiles(&file).unwrap();
    assert_eq!(tiles.len(), 4);
    for (entry, tile) in (0..).zip(tiles) {
        assert_eq!(tile, czi::tile(&file, entry).unwrap());
        let dimensions = czi::dimensions(&file, entry).unwrap();
        let letters: String = dimensions.iter().map(|d| d.letter).collect();
        assert_eq!(letters, "XYCSM");
        assert_eq!(dimensions[0].start, tile.x.start);
    }
    let refusal = czi::Refusal::new(24, 0);
    assert_eq!(czi::dimensions(&file, 4).unwrap_err(), refusal);
    let refused = sample("refusal-09.czi");
    let refusal = czi::judge(&refused).unwrap_err();
    assert_eq!(czi::tiles(&refused).map(|_| ()), Err(refusal));
    assert_eq!(czi::tiles(&sample("smallest.czi")).unwrap().count(), 0);
}

#[test]
fn records_are_tiles_with_their_dimensions() {
    for name in ["mosaic.czi", "free.czi", "pyramids.czi", "smallest.czi"] {
        let file = sample(name);
        let records = czi::all_records(&file).unwrap();
        assert_eq!(records.len() as u64, czi::summary(&file).unwrap().tiles);
        for (entry, record) in (0..).zip(records) {
            assert_eq!(record.tile, czi::tile(&file, entry).unwrap(), "{name}");
            assert_eq!(record.dimensions.len() as u64, record.tile.dimensions);
            let bits = |d: &czi::Dimension| (d.letter, d.start, d.coordinate.to_bits(), d.stored);
            for (k, dimension) in (0..).zip(&record.dimensions) {
                let one = czi::dimension(&file, entry, k).unwrap();
                assert_eq!(bits(dimension), bits(&one), "{name}");
                assert_eq!(dimension.size, one.size);
            }
            let own = czi::dimensions(&file, entry).unwrap();
            assert!(own.iter().map(bits).eq(record.dimensions.iter().map(bits)));
        }
    }
    let refused = sample("refusal-09.czi");
    let refusal = czi::judge(&refused).unwrap_err();
    assert_eq!(czi::all_records(&refused).map(|_| ()), Err(refusal));
}

#[test]
fn an_attachment_is_named() {
    let file = sample("mosaic.czi");
    let all = czi::attachments(&file).unwrap();
    assert_eq!(all, [czi::attachment(&file, 0).unwrap()]);
    let one = &all[0];
    assert_eq!(one.name_text(), "TimeStamps");
    assert_eq!(one.file_type_text(), "CZTIMS");
    assert_eq!(one.guid_text(), "{13121110-1514-1716-1819-1A1B1C1D1E1F}");
    let data = czi::attachment_data(&file, 0).unwrap();
    assert_eq!(file[one.data.clone()].as_ptr_range(), data.as_ptr_range());
    assert_eq!(
        czi::attachment(&file, 1).unwrap_err(),
        czi::Refusal::new(24, 0)
    );
    assert!(czi::attachments(&sample("smallest.czi"))
        .unwrap()
        .is_empty());
    let refused = sample("refusal-09.czi");
    let refusal = czi::judge(&refused).unwrap_err();
    assert_eq!(czi::attachments(&refused).unwrap_err(), refusal);
    assert_eq!(czi::attachment(&refused, 0).unwrap_err(), refusal);
}

#[test]
fn the_library_is_the_one_that_this_crate_is_for() {
    assert_eq!(czi::calls::version(), czi::VERSION);
}

#[test]
fn pixels_have_the_bytes_that_the_library_says() {
    for number in (0..300).chain([u32::MAX]) {
        let listed = czi::PixelType::of_number(number.into());
        let bytes = listed.map_or(0, czi::PixelType::bytes);
        assert_eq!(czi::calls::pixel_bytes(number) as usize, bytes, "{number}");
    }
}
