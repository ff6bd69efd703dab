//! Damaged files: refused with the number and at the place foretold.

use crate::report::Report;
use generate::damage::{behind_a_container, clauses, scramble, Damaged};
use generate::{verdicts, Random, Sound};
use reference::{judge, list, Refusal, Release};

/// A file gets so many pairs of damages.
const PAIRS: usize = 40;

/// A file is scrambled so many times.
const SCRAMBLES: usize = 10;

/// Every clause that the file has a field for, then pairs, then damage of any kind,
/// each under both releases.
pub fn check(sound: &Sound, random: &mut Random, report: &mut Report) {
    let mut damages = Vec::new();
    for clause in clauses() {
        let Some(damaged) = clause.damage(sound, random) else {
            continue;
        };
        if is_refused(&damaged, sound, report) {
            report.clauses.add(damaged.clause());
        }
        damages.push(damaged);
    }
    for _ in 0..PAIRS {
        let (a, b) = (random.below(damages.len()), random.below(damages.len()));
        if let Some(both) = damages[a].beside(&damages[b]) {
            report.pairs += 1;
            if !is_refused(&both, sound, report) {
                let names = (damages[a].clause(), damages[b].clause());
                report.differs(format!("that was {names:?}"));
            }
        }
    }
    if let Some(both) = behind_a_container(sound, random) {
        report.pairs += 1;
        is_refused(&both, sound, report);
        let numbers = Release::ALL.map(|release| both.refusal(release).map(|r| r.number));
        let is_behind = matches!(numbers, [Some(17 | 18), Some(7 | 10..=16)]);
        report.compare("a fault behind a container", is_behind, true);
    }
    for _ in 0..SCRAMBLES {
        check_scrambled(&scramble(sound, random), report);
    }
}

fn is_refused(damaged: &Damaged, sound: &Sound, report: &mut Report) -> bool {
    let bytes = damaged.apply(sound);
    let got = refusals(&bytes, report);
    let wanted = Release::ALL.map(|release| damaged.refusal(release));
    report.compare(damaged.clause(), got, wanted);
    got == wanted
}

/// The refusals under both releases, counted by what they are together.
fn refusals(bytes: &[u8], report: &mut Report) -> [Option<Refusal>; 2] {
    let both = Release::ALL.map(|release| judge(bytes, release).err());
    match verdicts(both[0], both[1]) {
        Some(name) => report.verdicts.add(name),
        None => report.differs(format!("no two releases say {both:?}")),
    }
    both
}

/// No refusal is foretold, but one of the table's at a place in the file.
fn check_scrambled(bytes: &[u8], report: &mut Report) {
    report.scrambled += 1;
    for (release, refusal) in Release::ALL.into_iter().zip(refusals(bytes, report)) {
        let Some(refusal) = refusal else {
            continue;
        };
        let in_table = (1..=18).contains(&refusal.number);
        let in_file = refusal.place < bytes.len().max(1) as u64;
        report.compare("number in the table", in_table, true);
        report.compare("place in the file", in_file, true);
        let lines = format!("refused={}\nplace={}\n", refusal.number, refusal.place);
        report.compare("listing of a refusal", list(bytes, release), lines);
    }
}
