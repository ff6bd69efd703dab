//! The mosaic quoted through the wrapper.

use czi::calls::{self, Quoted, SHEET_MIN};
use czi::{compose_quick, quote, Masks, Question, Reason, Refusal, Release, Scan, Scene};
use std::fs;
use std::path::PathBuf;

fn stored(name: &str) -> Vec<u8> {
    let folder = PathBuf::from(env!("CARGO_MANIFEST_DIR")).join("../samples");
    fs::read(folder.join(name)).expect(name)
}

/// The whole of the mosaic's box.
fn whole() -> Question<'static> {
    Question::default()
        .window(100, 60, 43, 28)
        .scene(Scene::Any)
        .background(&[7])
}

const PITCHES: &str = "pitch_x=0.325\npitch_y=1.3\n";

/// The settings of an edition, with or without a masks line.
fn settings(edition: u8, masks: &str) -> String {
    format!("edition={edition}\n{PITCHES}{masks}")
}

#[test]
fn a_sheet_is_the_composers_count_by_both_pitches() {
    let file = stored("mosaic.czi");
    for (settings, masks, covered) in [
        (settings(1, ""), Masks::Off, 1174),
        (settings(1, "masks=on\n"), Masks::On, 1138),
        (settings(2, ""), Masks::On, 1138),
        (settings(2, "masks=off\n"), Masks::Off, 1174),
    ] {
        // The question's own masks do not count.
        for said in [Masks::NotChosen, Masks::On, Masks::Off] {
            let question = whole().masks(said);
            let (mut target, mut map) = (vec![1; 1204], vec![1; 151]);
            let mut sheet = [b'x'; SHEET_MIN + 3];
            let lent = (&mut target[..], &mut map[..], &mut sheet[..]);
            let quoted = quote(
                &file,
                &question,
                settings.as_bytes(),
                lent.0,
                lent.1,
                lent.2,
            );
            let quoted = quoted.unwrap();
            let area = covered * 325 * 1300;
            assert_eq!((quoted.covered, quoted.area_nm2()), (covered, area));
            let text = format!("covered={covered}\narea_nm2={area}\n");
            assert_eq!(quoted.sheet, text);
            assert!(sheet[text.len()..].iter().all(|byte| *byte == b'x'));
            let (mut other, mut other_map) = (vec![2; 1204], vec![2; 151]);
            let question = whole().masks(masks);
            compose_quick(&file, &question, &mut other, &mut other_map).unwrap();
            assert_eq!((target, map), (other, other_map));
        }
    }
}

#[test]
fn no_tile_has_a_mask_under_1_02() {
    let file = stored("mosaic.czi");
    let older = Scan::new(&file).release(Release::V1_02);
    let (mut target, mut map, mut sheet) = ([0; 1204], [0; 151], [0; SHEET_MIN]);
    let settings = settings(2, "masks=on\n");
    let settings = settings.as_bytes();
    let quoted = quote(older, &whole(), settings, &mut target, &mut map, &mut sheet);
    assert_eq!(quoted.unwrap().covered, 1174);
}

/// What is said where the file, the settings, or what is lent is refused; nothing
/// is changed then.
fn refused(file: &[u8], question: &Question, settings: &str, sheet: usize) -> (Reason, u64) {
    let (mut target, mut map, mut lent) = ([0x5A; 1204], [0xA5; 151], vec![0x3C; sheet]);
    let settings = settings.as_bytes();
    let answer = quote(
        file,
        question,
        settings,
        &mut target,
        &mut map,
        &mut lent[..],
    );
    let Refusal { reason, place } = answer.unwrap_err();
    assert!(target.iter().all(|byte| *byte == 0x5A));
    assert!(map.iter().all(|byte| *byte == 0xA5));
    assert!(lent.iter().all(|byte| *byte == 0x3C));
    (reason, place)
}

#[test]
fn the_settings_go_before_the_file_and_a_comma_before_all() {
    let (mosaic, damaged) = (stored("mosaic.czi"), stored("refusal-13.czi"));
    let sound = settings(1, "");
    for file in [&mosaic, &damaged, &Vec::new()] {
        let comma = sound.replace("1.3", "1,3");
        let place = comma.find(',').unwrap() as u64;
        let nowhere = Question::default();
        assert_eq!(refused(file, &whole(), &comma, 60), (Reason::Comma, place));
        assert_eq!(refused(file, &nowhere, &comma, 0), (Reason::Comma, place));
        // Behind another fault too, and the first of them counts.
        let both = format!("?{comma},");
        assert_eq!(
            refused(file, &whole(), &both, 60),
            (Reason::Comma, place + 1)
        );
        for fault in [
            "",
            "\n",
            &sound[1..],
            &sound[..sound.len() - 1],
            &format!("{sound}\n"),
            &format!("{sound}masks=yes\n"),
            &sound.replace('\n', "\r\n"),
            &sound.replace("edition=1", "edition=3"),
            &sound.replace("1.3", "65.536"),
            &sound.replace("1.3", "0.000"),
            &sound.replace("1.3", "1.3 um"),
        ] {
            assert_eq!(refused(file, &whole(), fault, 60), (Reason::Settings, 0));
            assert_eq!(refused(file, &nowhere, fault, 0), (Reason::Settings, 0));
        }
    }
    // Then the file, and what a composer refuses.
    assert_eq!(
        refused(&damaged, &whole(), &sound, 0).0,
        Reason::Compression
    );
    let short = whole().window(0, 0, 0, 1);
    assert_eq!(refused(&mosaic, &short, &sound, 0), (Reason::Window, 0));
    let typed = whole().pixel_type(czi::PixelType::Gray16);
    assert_eq!(refused(&mosaic, &typed, &sound, 0), (Reason::AskedType, 0));
    let typed = typed.background(&[0, 0]).window(100, 60, 20, 20);
    assert_eq!(refused(&mosaic, &typed, &sound, 48), (Reason::Lent, 0));
    assert_eq!(refused(&mosaic, &typed, &sound, 49).0, Reason::AnotherType);
    assert_eq!(refused(&mosaic, &whole(), &sound, 48), (Reason::Lent, 0));
    let large = whole().window(100, 60, 43, 29);
    assert_eq!(refused(&mosaic, &large, &sound, 60), (Reason::Lent, 0));
}

#[test]
fn counts_are_0_where_refused() {
    let question = calls::Plain {
        starts: &[],
        any_scene: 0,
        pixel_type: 0,
        background: &[0],
        left: 0,
        top: 0,
        width: 1,
        height: 1,
        masks: 0,
    };
    for (settings, number, place) in [(&b"edition,"[..], 34, 7), (b"", 35, 0)] {
        let answer = calls::quote(&[], 0, &question, settings, &mut [], &mut [], &mut []);
        let nothing = Quoted {
            covered: 0,
            written: 0,
        };
        assert_eq!(
            (answer.number, answer.place, answer.value),
            (number, place, nothing)
        );
    }
}

/// Two halves of a window, cut upright and across: their areas are the whole's.
#[test]
fn the_areas_of_halves_add_up() {
    let file = stored("mosaic.czi");
    let settings = settings(2, "");
    let area = |window: [i64; 4]| {
        let [left, top, width, height] = window;
        let question = whole().window(left as i32, top as i32, width as u32, height as u32);
        let (mut target, mut map, mut sheet) = ([0; 1204], [0; 151], [0; SHEET_MIN]);
        let settings = settings.as_bytes();
        let lent = (&mut target, &mut map, &mut sheet);
        let quoted = quote(&file, &question, settings, lent.0, lent.1, lent.2);
        quoted.unwrap().area_nm2()
    };
    let all = area([100, 60, 43, 28]);
    for wide in 1..43 {
        let halves = [[100, 60, wide, 28], [100 + wide, 60, 43 - wide, 28]];
        assert_eq!(halves.map(area).iter().sum::<u64>(), all);
    }
    for high in 1..28 {
        let halves = [[100, 60, 43, high], [100, 60 + high, 43, 28 - high]];
        assert_eq!(halves.map(area).iter().sum::<u64>(), all);
    }
}
