//! Damaged files, by clause, two clauses at once, and in any way.

use crate::planes;
use crate::quotes;
use crate::read::Read;
use crate::reader;
use crate::repacks;
use crate::report::Report;
use generate::damage::{behind_a_container, clauses, scramble, Damaged};
use generate::{Random, Sound};
use reference::Release;

/// A file gets so many damages of those that it has a field for.
const CLAUSES: usize = 8;

/// A file gets so many pairs of them.
const PAIRS: usize = 3;

/// A file is scrambled so many times.
const SCRAMBLES: usize = 3;

/// Some clauses, some pairs of them, a fault behind a broken container, and damage of
/// any kind.
pub fn check(sound: &Sound, random: &mut Random, report: &mut Report) {
    let mut all = clauses();
    random.shuffle(&mut all);
    let damages = all.iter().filter_map(|c| c.damage(sound, random));
    let damages: Vec<Damaged> = damages.take(CLAUSES).collect();
    for damaged in &damages {
        report.damaged += 1;
        if is_refused(damaged, sound, random, report) {
            report.clauses.add(damaged.clause());
        }
    }
    for _ in 0..PAIRS {
        let (a, b) = (random.below(damages.len()), random.below(damages.len()));
        if let Some(both) = damages[a].beside(&damages[b]) {
            check_pair(&both, sound, random, report);
        }
    }
    if let Some(both) = behind_a_container(sound, random) {
        check_pair(&both, sound, random, report);
    }
    for _ in 0..SCRAMBLES {
        report.scrambled += 1;
        let bytes = scramble(sound, random);
        report.at("scrambled", &bytes);
        let read = Read::new(&bytes, report);
        reader::check(&read, report);
        planes::check_damaged(&read, sound, random, report);
        quotes::check_damaged(&read, sound, random, report);
        repacks::check_damaged(&read, sound, random, report);
    }
}

/// Two damages at once.
fn check_pair(both: &Damaged, sound: &Sound, random: &mut Random, report: &mut Report) {
    let refusals = Release::ALL.map(|release| both.refusal(release));
    report.pairs.add(match refusals {
        _ if !both.breaks_a_container() => "no broken container",
        [_, None] => "two broken containers, or one twice",
        [newer, older] if newer == older => "a broken container behind another fault",
        _ => "a broken container before another fault",
    });
    is_refused(both, sound, random, report);
}

/// Both refuse it under 1.2, with the number and at the place foretold, and say of it
/// what is foretold under 1.02.
fn is_refused(damaged: &Damaged, sound: &Sound, random: &mut Random, report: &mut Report) -> bool {
    let bytes = damaged.apply(sound);
    report.at(damaged.clause(), &bytes);
    let read = Read::new(&bytes, report);
    reader::check(&read, report);
    planes::check_damaged(&read, sound, random, report);
    quotes::check_damaged(&read, sound, random, report);
    repacks::check_damaged(&read, sound, random, report);
    let wanted = Release::ALL.map(|release| damaged.refusal(release));
    report.compare("foretold", &read.refusals(), &wanted)
}
