//! Both composers: planes, maps, counts, refusals, and every lent byte, under both
//! releases.

use crate::chosen;
use crate::lent::Buffers;
use crate::read::Read;
use crate::reader::answer;
use crate::report::{name, Report};
use czi::calls::{self, Answer, Counted, Plain};
use generate::ask::{ask_clauses, ask_freedoms_of, draw, first_of_another_type, Ask, Cut};
use generate::{Random, Sound};
use reference::{Counts, Masks, Refusal, Release};

/// What both composers left and said under a release.
#[derive(Debug, PartialEq)]
struct Composed {
    /// By the plain one and by the quick one.
    said: [Answer<Counted>; 2],
    buffers: [Buffers; 2],
    /// By the reference.
    counts: Result<Counts, Refusal>,
}

/// Under 1.2 and under 1.02.
pub struct Both([Composed; 2]);

impl Both {
    /// The reference's refusals.
    pub fn refusals(&self) -> [Option<Refusal>; 2] {
        let [newer, older] = &self.0;
        [newer.counts.err(), older.counts.err()]
    }
}

/// A composer's call.
pub type Call = fn(&[u8], u32, &Plain, &mut [u8], &mut [u8]) -> Answer<Counted>;

/// The plain composer and the quick one.
pub const COMPOSERS: [(&str, Call); 2] = [
    ("plain", calls::compose_plain),
    ("quick", calls::compose_quick),
];

/// Questions of every kind to a sound file.
pub fn check(read: &Read, sound: &Sound, random: &mut Random, questions: u64, report: &mut Report) {
    for _ in 0..questions {
        let ask = draw(sound, random);
        for freedom in ask_freedoms_of(sound, &ask) {
            report.ask_freedoms.add(freedom);
        }
        check_drawn(read, &ask, random, report);
    }
    check_two_clauses(read, sound, random, report);
    chosen::check_any_window(read, sound, random, report);
    for clause in ask_clauses() {
        // Some of them, so that all have their turn over the files.
        if random.percent(20) {
            let drawn = draw(sound, random);
            if let Some(spoiled) = clause.spoil(sound, random, drawn) {
                let refusals = compose(read, &spoiled, random, report).refusals();
                let place = match clause.number {
                    23 => first_of_another_type(sound, &spoiled).map_or(0, |e| e.place as u64),
                    _ => 0,
                };
                let wanted = Some(Refusal::new(clause.number, place));
                if report.compare(clause.name, &refusals, &[wanted; 2]) {
                    report.clauses.add(clause.name);
                }
            }
        }
    }
}

/// Two clauses at once: the lesser number is given.
fn check_two_clauses(read: &Read, sound: &Sound, random: &mut Random, report: &mut Report) {
    let clauses = ask_clauses();
    let mut two = [random.below(clauses.len()), random.below(clauses.len())];
    two.sort();
    let [first, second] = two.map(|k| &clauses[k]);
    if first.number == second.number {
        return;
    }
    let drawn = draw(sound, random);
    let spoiled = second.spoil(sound, random, drawn);
    if let Some(ask) = spoiled.and_then(|ask| first.spoil(sound, random, ask)) {
        let refusals = compose(read, &ask, random, report).refusals();
        let numbers = refusals.map(|refusal| refusal.map(|r| r.number));
        report.compare("two clauses at once", &numbers, &[Some(first.number); 2]);
        report.outcomes.add("two clauses at once");
    }
}

/// A question to a damaged file, which answers it or refuses as it is refused.
pub fn check_damaged(read: &Read, sound: &Sound, random: &mut Random, report: &mut Report) {
    let ask = draw(sound, random);
    compose(read, &ask, random, report);
    if read.refusals()[0].is_some() {
        report.outcomes.add("a question to a refused file");
    }
}

/// A question that passes 20 to 22, then with a buffer one byte short, then in two halves.
fn check_drawn(read: &Read, ask: &Ask, random: &mut Random, report: &mut Report) {
    let needed = (ask.target_needed(), ask.map_needed());
    report.outcomes.add(match (ask.target, ask.map) == needed {
        true => "buffers exactly long enough",
        false => "buffers longer than needed",
    });
    let whole = compose(read, ask, random, report);
    match whole.0[0].counts {
        Ok(counts) => note_outcome(ask, &counts, report),
        Err(_) => return report.outcomes.add("refused"),
    }
    if random.percent(25) {
        let mut short = ask.clone();
        match random.percent(50) {
            true => short.target = needed.0 - 1,
            false => short.map = needed.1 - 1,
        }
        let refusals = compose(read, &short, random, report).refusals();
        report.compare("one byte short", &refusals, &[Some(Refusal::new(22, 0)); 2]);
        report.outcomes.add("a buffer one byte short");
    }
    if random.percent(40) {
        if let Some(cut) = Cut::draw(ask, random) {
            check_cut(read, ask, &whole, &cut, random, report);
        }
    }
}

fn note_outcome(ask: &Ask, counts: &Counts, report: &mut Report) {
    report.outcomes.add("answered");
    report.outcomes.add(match counts.covered {
        0 => "no pixel covered",
        some if some < ask.question.pixels() => "some pixels covered",
        _ => "all pixels covered",
    });
    if counts.stored_plain > counts.covered {
        let name = "the plain composer stores more than the quick one";
        report.outcomes.add(name);
    }
}

/// Both composers and the reference on one question, under both releases: the same
/// counts, the same bytes in all that is lent and around it, or the same refusal and
/// nothing changed. And of the library's own answers: without masks they are the same
/// under both releases, and under 1.02 with each choice of masks.
pub fn compose(read: &Read, ask: &Ask, random: &mut Random, report: &mut Report) -> Both {
    let salt = random.word();
    let lent = Buffers::new(ask.target, ask.map, salt);
    let plain = plain(ask, random);
    let meeting = chosen::check(read, (&ask.question, &plain), random, report);
    let compose_under = |release| compose_under(release, read, (ask, &plain), &lent, &mut *report);
    let both = Release::ALL.map(compose_under);
    for (composed, meeting) in both.iter().zip(meeting) {
        if let (Ok(counts), Some(0)) = (composed.counts, meeting) {
            report.compare("covered where no tile meets", &counts.covered, &0);
        }
    }
    if ask.question.masks != Masks::On {
        hold_composed_alike(read, &plain, &both, report);
    }
    hold_choices(read, &plain, &lent, &both[1], random, report);
    note_both(ask, &both, report);
    Both(both)
}

/// Both composers under one release, against the reference.
fn compose_under(
    release: Release,
    read: &Read,
    (ask, plain): (&Ask, &Plain),
    lent: &Buffers,
    report: &mut Report,
) -> Composed {
    report.under(release).questions += 1;
    let mut wanted = lent.clone();
    let counts = read
        .under(release)
        .and_then(|file| file.compose(&ask.question, wanted.target.lend(), wanted.map.lend()));
    if counts.is_err() && wanted != *lent {
        report.differs("the reference changed a buffer and refused");
    }
    let mut buffers = [lent.clone(), lent.clone()];
    let said = [0, 1].map(|quick| {
        let (composer, call) = COMPOSERS[quick];
        let got = &mut buffers[quick];
        let (target, map) = (got.target.lend(), got.map.lend());
        let said = report.call(release, |number| {
            call(read.bytes, number, plain, target, map)
        });
        let wanted_said = answer(counts.map(|c| counted(&c, quick == 1)), NOTHING);
        report.compare_under(
            release,
            || format!("{composer}: {plain:?}"),
            &said,
            &wanted_said,
        );
        if let Some(difference) = got.difference(&wanted) {
            let release = name(release);
            report.differs(format!(
                "{composer} under {release}: {difference}: {plain:?}"
            ));
        }
        report.check_unchanged(read.bytes);
        said
    });
    Composed {
        said,
        buffers,
        counts,
    }
}

const NOTHING: Counted = Counted {
    covered: 0,
    stored: 0,
};

fn counted(counts: &Counts, quick: bool) -> Counted {
    Counted {
        covered: counts.covered,
        stored: match quick {
            true => counts.stored_quick,
            false => counts.stored_plain,
        },
    }
}

/// Without masks both composers say and leave the same under both releases.
fn hold_composed_alike(read: &Read, plain: &Plain, both: &[Composed; 2], report: &mut Report) {
    let what = || format!("composed: {plain:?}");
    let [newer, older] = both;
    read.hold_alike(what, &[newer.said, older.said], report);
    let left = newer.buffers.iter().zip(&older.buffers);
    let difference = left.into_iter().find_map(|(n, o)| n.difference(o));
    read.hold_alike(what, &[difference, None], report);
}

/// Under 1.02 both composers say and leave the same with each choice of masks.
fn hold_choices(
    read: &Read,
    plain: &Plain,
    lent: &Buffers,
    composed: &Composed,
    random: &mut Random,
    report: &mut Report,
) {
    report.all_choices += 1;
    let chosen = choice(plain.masks);
    let mut got = lent.clone();
    for masks in [Masks::On, Masks::Off, Masks::NotChosen] {
        if masks == chosen {
            continue;
        }
        let other = Plain {
            masks: number_of(masks, random),
            ..*plain
        };
        for (k, (composer, call)) in COMPOSERS.into_iter().enumerate() {
            got.copy(lent);
            let (target, map) = (got.target.lend(), got.map.lend());
            let said = report.call(Release::V1_02, |number| {
                call(read.bytes, number, &other, target, map)
            });
            let is_same = said == composed.said[k] && got == composed.buffers[k];
            if !is_same {
                report.differs(format!(
                    "{composer} under 1.02: another answer or plane with masks {masks:?}: {plain:?}"
                ));
            }
        }
    }
    report.check_unchanged(read.bytes);
}

/// What became of a question under both releases.
fn note_both(ask: &Ask, both: &[Composed; 2], report: &mut Report) {
    let masks_on = ask.question.masks == Masks::On;
    let [newer, older] = both;
    let is = |number| newer.counts.is_err_and(|r| r.number == number);
    report.both.add(match (newer.counts, older.counts) {
        (Err(_), Ok(_)) if is(17) => "17 under 1.2, a plane under 1.02",
        (Err(_), Ok(_)) if is(18) => "18 under 1.2, a plane under 1.02",
        (Err(_), Err(_)) if newer.counts == older.counts => "refused under both releases",
        (Err(_), Err(_)) if is(17) || is(18) => "17 or 18 under 1.2, another refusal under 1.02",
        (Ok(_), Ok(_)) if !masks_on => "masks not on, the same under both releases",
        (Ok(a), Ok(b)) if a.covered < b.covered => "masks on, 1.02 covers more pixels",
        (Ok(_), Ok(_)) if newer != older => "masks on, 1.02 covers as many and shows others",
        (Ok(_), Ok(_)) => "masks on, the same under both releases",
        other => return report.differs(format!("no releases compose so: {other:?}")),
    });
}

/// The question as the header has it; of the numbers that mean the same, any.
pub fn plain<'a>(ask: &'a Ask, random: &mut Random) -> Plain<'a> {
    let question = &ask.question;
    Plain {
        starts: &question.starts,
        any_scene: match question.any_scene {
            true => random.pick(&[1, 1, 2, 1 << 31, u32::MAX]),
            false => 0,
        },
        pixel_type: question.pixel_type,
        background: &question.background,
        left: question.left,
        top: question.top,
        width: question.width,
        height: question.height,
        masks: number_of(question.masks, random),
    }
}

/// A number that means that choice of masks.
fn number_of(masks: Masks, random: &mut Random) -> u32 {
    match masks {
        Masks::NotChosen => random.pick(&[0, 0, 3, 257, u32::MAX]),
        Masks::On => 1,
        Masks::Off => 2,
    }
}

/// The choice that a number means.
fn choice(masks: u32) -> Masks {
    match masks {
        1 => Masks::On,
        2 => Masks::Off,
        _ => Masks::NotChosen,
    }
}

/// Both halves show at each pixel what the whole window shows, and their
/// counts add up, under both releases.
fn check_cut(
    read: &Read,
    ask: &Ask,
    whole: &Both,
    cut: &Cut,
    random: &mut Random,
    report: &mut Report,
) {
    report.outcomes.add("cut in two halves");
    let halves = [&cut.first, &cut.second];
    let parts = halves.map(|half| compose(read, half, random, report));
    for (k, whole) in whole.0.iter().enumerate() {
        let mut sums = (0, 0);
        for (half, part) in halves.iter().zip(&parts) {
            let part = &part.0[k];
            match part.counts {
                Ok(counts) => sums = (sums.0 + counts.covered, sums.1 + counts.stored_plain),
                Err(refusal) => return report.differs(format!("a half is {refusal}")),
            }
            if !is_part(ask, whole, half, part) {
                report.differs(format!(
                    "a half differs from the whole: {:?}",
                    half.question
                ));
            }
        }
        let wanted = whole.counts.map(|c| (c.covered, c.stored_plain));
        report.compare("counts of both halves", &Ok(sums), &wanted);
    }
}

fn is_part(ask: &Ask, whole: &Composed, half: &Ask, part: &Composed) -> bool {
    let pixel = ask.question.background.len();
    let across = i64::from(half.question.left) - i64::from(ask.question.left);
    let down = i64::from(half.question.top) - i64::from(ask.question.top);
    let width = half.question.width as usize;
    let shown = |composed: &Composed, k: usize| {
        let bit = composed.buffers[1].map.lent()[k / 8] >> (7 - k % 8) & 1;
        (bit, k * pixel)
    };
    (0..half.question.pixels() as usize).all(|k| {
        let (x, y) = (k % width + across as usize, k / width + down as usize);
        let (bit, at) = shown(part, k);
        let (whole_bit, whole_at) = shown(whole, y * ask.question.width as usize + x);
        bit == whole_bit
            && part.buffers[1].target.lent()[at..][..pixel]
                == whole.buffers[1].target.lent()[whole_at..][..pixel]
    })
}
