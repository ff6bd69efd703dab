//! Req 09, the quote sheet: the masks choice, the order of refusals, and the sheet.

mod build;

use build::{file, mask_chunk, Tile};
use reference::{judge, quote, Masks, Question, Quoted, Refusal, Release};

const EDITION_1: &[u8] = b"edition=1\npitch_x=0.5\npitch_y=2\n";
const EDITION_2: &[u8] = b"edition=2\npitch_x=0.5\npitch_y=2\n";

/// Two pixels, of which the mask has the first as valid.
fn masked() -> Vec<u8> {
    let tile = Tile::gray8(0, 0, 2, &[7, 8], &[]);
    file(&[tile.with_container(&mask_chunk(2, 1, 1, &[0x80]))])
}

fn question() -> Question {
    Question {
        starts: Vec::new(),
        any_scene: false,
        pixel_type: 0,
        background: vec![0xEE],
        left: 0,
        top: 0,
        width: 2,
        height: 1,
        masks: Masks::NotChosen,
    }
}

/// What is lent.
#[derive(Clone, Debug, PartialEq)]
struct Lent {
    target: Vec<u8>,
    map: Vec<u8>,
    sheet: Vec<u8>,
}

fn lent(target: usize, map: usize, sheet: usize) -> Lent {
    Lent {
        target: vec![0x55; target],
        map: vec![0x55; map],
        sheet: vec![0x55; sheet],
    }
}

fn ask(
    bytes: &[u8],
    release: Release,
    question: &Question,
    settings: &[u8],
    lent: &mut Lent,
) -> Result<Quoted, Refusal> {
    let judged = judge(bytes, release);
    let file = judged.as_ref().map_err(|refusal| *refusal);
    let Lent { target, map, sheet } = lent;
    quote(file, question, settings, target, map, sheet)
}

/// The text, the target and the map of the question to the masked file.
fn quoted(release: Release, masks: Masks, settings: &[u8]) -> (String, Vec<u8>, Vec<u8>) {
    let mut lent = lent(2, 1, 60);
    let question = Question {
        masks,
        ..question()
    };
    let quoted = ask(&masked(), release, &question, settings, &mut lent).unwrap();
    let (text, behind) = lent.sheet.split_at(quoted.written as usize);
    assert!(behind.iter().all(|byte| *byte == 0x55), "past the text");
    let text = String::from_utf8(text.to_vec()).unwrap();
    assert!(text.starts_with(&format!("covered={}\n", quoted.covered)));
    (text, lent.target, lent.map)
}

#[test]
fn a_lacking_masks_line_is_off_in_edition_1_and_on_in_edition_2() {
    let on = (
        "covered=1\narea_nm2=1000000\n".to_string(),
        vec![7, 0xEE],
        vec![0x80],
    );
    let off = (
        "covered=2\narea_nm2=2000000\n".to_string(),
        vec![7, 8],
        vec![0xC0],
    );
    // What the question chooses does not count.
    for choice in [Masks::NotChosen, Masks::On, Masks::Off] {
        let of = |settings: &[u8], line: &str| {
            let settings = [settings, line.as_bytes()].concat();
            quoted(Release::V1_2, choice, &settings)
        };
        assert_eq!(of(EDITION_1, ""), off);
        assert_eq!(of(EDITION_2, ""), on);
        for edition in [EDITION_1, EDITION_2] {
            assert_eq!(of(edition, "masks=on\n"), on);
            assert_eq!(of(edition, "masks=off\n"), off);
        }
        // Under 1.02 there is no mask.
        assert_eq!(quoted(Release::V1_02, choice, EDITION_2), off);
    }
}

#[test]
fn nothing_covered_is_an_area_of_0() {
    let mut lent = lent(2, 1, 49);
    let question = Question {
        left: 2,
        ..question()
    };
    let quoted = ask(&masked(), Release::V1_2, &question, EDITION_1, &mut lent);
    assert_eq!(quoted.map(|q| (q.covered, q.written)), Ok((0, 21)));
    assert!(lent.sheet.starts_with(b"covered=0\narea_nm2=0\nUUU"));
    assert_eq!((lent.target, lent.map), (vec![0xEE; 2], vec![0]));
}

#[test]
fn refusals_in_their_order_and_nothing_changes() {
    let comma: &[u8] = b"edition=1\npitch_x=0,5\npitch_y=2\r\n";
    let fault: &[u8] = b"edition=1\npitch_x=0.5\npitch_y=2\r\n";
    let bytes = masked();
    let cut = &bytes[..bytes.len() - 32];
    let mut asked = question();
    // The tile has another type: 23.
    (asked.pixel_type, asked.background) = (1, vec![1, 2]);
    let entry = 288;
    let long = lent(4, 1, 49);
    let mut last = Vec::new();
    let mut check = |bytes: &[u8], question: &Question, settings: &[u8], lent: &Lent| {
        let mut left = lent.clone();
        let refusal = ask(bytes, Release::V1_2, question, settings, &mut left).unwrap_err();
        assert_eq!(&left, lent);
        last.push((refusal.number, refusal.place));
    };
    check(&bytes, &asked, EDITION_1, &long);
    check(&bytes, &asked, EDITION_1, &lent(4, 1, 48));
    check(&bytes, &asked, EDITION_1, &lent(4, 1, 0));
    check(&bytes, &asked, EDITION_1, &lent(3, 1, 49));
    check(&bytes, &asked, EDITION_1, &lent(4, 0, 49));
    asked.background.pop();
    check(&bytes, &asked, EDITION_1, &lent(3, 0, 48));
    asked.width = 0;
    check(&bytes, &asked, EDITION_1, &lent(3, 0, 48));
    check(cut, &asked, EDITION_1, &lent(3, 0, 48));
    check(&[], &asked, EDITION_1, &lent(3, 0, 48));
    check(&[], &asked, fault, &lent(3, 0, 48));
    check(&[], &asked, comma, &lent(3, 0, 48));
    let sub_block = judge(&bytes, Release::V1_2).unwrap().tiles[0].file_position;
    assert_eq!(
        last,
        [
            (23, entry),
            (22, 0),
            (22, 0),
            (22, 0),
            (22, 0),
            (21, 0),
            (20, 0),
            (3, sub_block),
            (1, 0),
            (35, 0),
            (34, 19),
        ]
    );
}
