//! Which tiles a question selects, and which of them meet its window: every mark,
//! both counts, and what is past the marks and around them, under both releases.

use crate::lent::Lent;
use crate::planes::plain;
use crate::read::Read;
use crate::reader::answer;
use crate::report::{name, Report};
use czi::calls::{self, ChosenCounts, Plain};
use generate::ask::draw;
use generate::{Random, Sound};
use reference::{Chosen, Question, Refusal, Release};

/// A file is asked about so many windows that no composer takes.
const ANY_WINDOWS: usize = 3;

/// The longest side that a composer takes.
const SIDE: u32 = 65_536;

/// Windows of any sides, most of which a composer refuses.
pub fn check_any_window(read: &Read, sound: &Sound, random: &mut Random, report: &mut Report) {
    for _ in 0..ANY_WINDOWS {
        let mut ask = draw(sound, random);
        let question = &mut ask.question;
        let side =
            |side: u32, random: &mut Random| random.pick(&[side, 0, SIDE + 1, 1 << 31, u32::MAX]);
        question.width = side(question.width, random);
        question.height = side(question.height, random);
        if random.percent(30) {
            question.left = random.pick(&[i32::MIN, -1, i32::MAX]);
            question.top = random.pick(&[i32::MIN, -1, i32::MAX]);
        }
        let plain = plain(&ask, random);
        check(read, (&ask.question, &plain), random, report);
    }
}

/// One question under each release. Answers how many tiles meet its window, by the
/// reference; nothing where the file is refused.
pub fn check(
    read: &Read,
    (question, plain): (&Question, &Plain),
    random: &mut Random,
    report: &mut Report,
) -> [Option<u64>; 2] {
    let chosen = Release::ALL.map(|release| read.under(release).map(|f| f.chosen(question)));
    // Under 1.2 there are as many tiles or none.
    let tiles = chosen[1].as_ref().map_or(0, Vec::len);
    let (length, kind) = match (&chosen[1], random.below(5)) {
        (Err(_), more) => (more, OF_REFUSED),
        (Ok(_), 0) if tiles > 0 => (tiles - 1, "marks one too short"),
        (Ok(_), 1) => (tiles + 1 + random.below(9), "marks longer than needed"),
        (Ok(_), _) => (tiles, "marks exactly long enough"),
    };
    let lent = Lent::<u8>::new(length, random.word());
    let got = report.of_each(|release| {
        let mut marks = lent.clone();
        let said = calls::chosen(read.bytes, release, plain, marks.lend());
        (said, marks)
    });
    for (release, (wanted, (said, marks))) in Release::ALL.into_iter().zip(chosen.iter().zip(&got))
    {
        report.under(release).chosen += 1;
        report
            .lent
            .add(if wanted.is_ok() { kind } else { OF_REFUSED });
        let mut wanted_marks = lent.clone();
        let counts = match wanted {
            Err(refusal) => Err(*refusal),
            Ok(_) if length < tiles => Err(Refusal::new(22, 0)),
            Ok(chosen) => {
                for (mark, chosen) in wanted_marks.lend().iter_mut().zip(chosen) {
                    *mark = mark_of(*chosen);
                }
                let count = |least| chosen.iter().filter(|c| mark_of(**c) >= least).count() as u64;
                Ok(ChosenCounts {
                    selected: count(1),
                    meeting: count(2),
                })
            }
        };
        let none = ChosenCounts {
            selected: 0,
            meeting: 0,
        };
        let what = || format!("chosen: {plain:?}");
        report.compare_under(release, what, said, &answer(counts, none));
        if let Some(at) = marks.difference(&wanted_marks) {
            let release = name(release);
            report.differs(format!(
                "chosen under {release}: marks differ at {at}: {plain:?}"
            ));
        }
    }
    read.hold_alike(|| format!("chosen: {plain:?}"), &got, report);
    report.check_unchanged(read.bytes);
    if let Ok(chosen) = &chosen[0] {
        note(question, chosen, report);
    }
    let meeting = |chosen: Vec<Chosen>| chosen.iter().filter(|c| **c == Chosen::Meets).count();
    chosen.map(|chosen| chosen.ok().map(|chosen| meeting(chosen) as u64))
}

/// How marks are lent with a refused file.
const OF_REFUSED: &str = "marks for a refused file";

fn mark_of(chosen: Chosen) -> u8 {
    match chosen {
        Chosen::Not => 0,
        Chosen::Selected => 1,
        Chosen::Meets => 2,
    }
}

/// What the window is like, and what is chosen in it.
fn note(question: &Question, chosen: &[Chosen], report: &mut Report) {
    let has = |what: Chosen| chosen.contains(&what);
    report.choices.add(match () {
        () if has(Chosen::Meets) => "a selected tile meets the window",
        () if has(Chosen::Selected) => "tiles are selected, and none meets the window",
        () => "no tile is selected",
    });
    let sides = [question.width, question.height];
    if sides.contains(&0) && has(Chosen::Selected) {
        report.choices.add("a side of 0, and tiles are selected");
    }
    if sides.iter().any(|side| *side > SIDE) && has(Chosen::Meets) {
        report
            .choices
            .add("a side over 65,536, and a tile meets the window");
    }
    let last = i64::from(i32::MAX);
    if (question.right() > last || question.bottom() > last) && has(Chosen::Meets) {
        report
            .choices
            .add("an edge above 2^31 - 1, and a tile meets the window");
    }
}
