//! The mosaic composed through the wrapper.

use czi::{
    chosen, compose, compose_plain, compose_quick, Mark, Masks, NoPlane, PixelType, Question,
    Reason, Scene,
};
use std::fs;
use std::path::PathBuf;

fn mosaic() -> Vec<u8> {
    let folder = PathBuf::from(env!("CARGO_MANIFEST_DIR")).join("../samples");
    fs::read(folder.join("mosaic.czi")).expect("the stored mosaic")
}

/// The whole of the mosaic's box.
const BOX: Question = Question {
    starts: &[],
    scene: Scene::AsStarts,
    pixel_type: PixelType::Gray8,
    background: &[7],
    left: 100,
    top: 60,
    width: 43,
    height: 28,
    masks: Masks::On,
};

#[test]
fn both_composers_give_the_same_plane() {
    let file = mosaic();
    let lent = || {
        (
            vec![1; BOX.target_length() as usize],
            vec![1; BOX.map_length() as usize],
        )
    };
    let (mut target, mut map) = lent();
    let plain = compose_plain(&file, &BOX, &mut target, &mut map).unwrap();
    assert_eq!((plain.covered, plain.stored), (1138, 1500));
    let (mut other, mut other_map) = lent();
    let quick = compose_quick(&file, &BOX, &mut other, &mut other_map).unwrap();
    assert_eq!((quick.covered, quick.stored), (1138, 1138));
    assert_eq!((target, map), (other, other_map));
}

#[test]
fn a_refused_call_changes_nothing() {
    let file = mosaic();
    for (question, reason) in [
        (Question { width: 0, ..BOX }, Reason::Window),
        (
            Question {
                background: &[],
                ..BOX
            },
            Reason::AskedType,
        ),
        (Question { height: 29, ..BOX }, Reason::Lent),
        (
            Question {
                pixel_type: PixelType::Gray16,
                background: &[0, 0],
                width: 20,
                ..BOX
            },
            Reason::AnotherType,
        ),
    ] {
        let mut target = vec![0x5A; BOX.target_length() as usize];
        let mut map = vec![0xA5; BOX.map_length() as usize];
        let refusal = compose_quick(&file, &question, &mut target, &mut map).unwrap_err();
        assert_eq!(refusal.reason, reason);
        assert!(target.iter().all(|b| *b == 0x5A) && map.iter().all(|b| *b == 0xA5));
    }
}

#[test]
fn a_plane_with_memory_of_its_own_is_the_same() {
    let file = mosaic();
    let summary = czi::summary(&file).unwrap();
    let question = Question::default()
        .over(summary.edges.expect("the mosaic has a box"))
        .background(&[7])
        .masks(Masks::On);
    let mut target = vec![1; question.target_length() as usize];
    let mut map = vec![1; question.map_length() as usize];
    compose_quick(&file, &BOX, &mut target, &mut map).unwrap();
    let plane = compose(&file, &question).unwrap();
    assert_eq!((plane.covered, plane.width, plane.height), (1138, 43, 28));
    assert_eq!((&plane.target, &plane.map), (&target, &map));
    let places = (0..28).flat_map(|row| (0..43).map(move |column| (column, row)));
    let is_zero = |(column, row): &(u32, u32)| plane.is_covered(*column, *row) == Some(false);
    let uncovered: Vec<(u32, u32)> = places.filter(is_zero).collect();
    assert_eq!(uncovered.len(), 43 * 28 - 1138);
    for (column, row) in uncovered {
        assert_eq!(plane.pixel(column, row), Some(&[7][..]));
    }
}

#[test]
fn a_pixel_past_the_window_is_none() {
    let plane = compose(&mosaic(), &BOX).unwrap();
    let last = plane.target.last().expect("the plane has pixels");
    assert_eq!(plane.pixel(42, 27), Some(std::slice::from_ref(last)));
    for (column, row) in [(43, 0), (0, 28), (u32::MAX, u32::MAX)] {
        assert_eq!(plane.pixel(column, row), None);
        assert_eq!(plane.is_covered(column, row), None);
    }
}

#[test]
fn a_plane_is_refused_before_memory_is_taken() {
    // Refused all the same, though no machine has memory for it.
    let widest = BOX.window(0, 0, u32::MAX, u32::MAX);
    let refused = |question| match compose(&mosaic(), &question) {
        Err(NoPlane::Refused(refusal)) => Some(refusal.reason),
        _ => None,
    };
    assert_eq!(refused(widest), Some(Reason::Window));
    assert_eq!(refused(BOX.background(&[])), Some(Reason::AskedType));
    let gray16 = BOX.background(&[0]).pixel_type(PixelType::Gray16);
    assert_eq!(refused(gray16), Some(Reason::AnotherType));
    assert_eq!(refused(Question::default()), Some(Reason::Window));
}

#[test]
fn tiles_are_marked_by_what_the_question_makes_of_them() {
    let file = mosaic();
    let all = chosen(&file, &BOX).unwrap();
    assert_eq!((all.selected, all.meeting), (4, 4));
    assert_eq!(all.marks, [Mark::Meets; 4]);
    // A column of tiles 0 and 2 alone.
    let left = chosen(&file, &BOX.window(100, i32::MIN, 1, u32::MAX)).unwrap();
    assert_eq!((left.selected, left.meeting), (4, 2));
    let (one, two) = (Mark::Selected, Mark::Meets);
    assert_eq!(left.marks, [two, one, two, one]);
    let empty = chosen(&file, &BOX.window(105, 65, 0, 9)).unwrap();
    assert_eq!((empty.selected, empty.meeting), (4, 0));
    let starts = [0, 0, 1];
    let none = chosen(&file, &BOX.starts(&starts)).unwrap();
    assert_eq!((none.selected, none.meeting), (0, 0));
    assert_eq!(none.marks, [Mark::NotSelected; 4]);
    assert_eq!(chosen(&[], &BOX).unwrap_err().reason, Reason::Length);
}
