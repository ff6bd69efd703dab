//! Files at the limits, and inputs too long to list or to judge.

use crate::planes;
use crate::quotes;
use crate::read::Read;
use crate::reader;
use crate::repacks;
use crate::report::Report;
use crate::zeros::Zeros;
use generate::damage::EXTERNAL_CLAUSE;
use generate::{Random, Sound, LIMITS, LISTING_CLAUSES};
use reference::{list, Refusal, Release};

/// The length above which a file is refused.
const LONGEST: usize = 1 << 40;

/// Of a hundred files at a limit so many are repacked.
const REPACKED: u64 = 4;

/// Files at a limit are accepted by both; inputs over 65,536 bytes are not listed.
pub fn check(sound: &Sound, random: &mut Random, report: &mut Report) {
    for limit in LIMITS {
        if let Some(bytes) = limit.reach(sound, random) {
            report.at(limit.name, &bytes);
            let read = Read::new(&bytes, report);
            reader::check(&read, report);
            if report.compare(limit.name, &read.refusals(), &[None; 2]) {
                report.limits.add(limit.name);
                planes::check_damaged(&read, sound, random, report);
                quotes::check_damaged(&read, sound, random, report);
                if random.percent(REPACKED) {
                    repacks::check_damaged(&read, sound, random, report);
                }
                report.outcomes.add("a question to a file at a limit");
            }
        }
    }
    for clause in LISTING_CLAUSES {
        if let Some(bytes) = clause.reach(sound, random) {
            report.at(clause.name, &bytes);
            // The library's text is compared with this one.
            let read = Read::new(&bytes, report);
            reader::check(&read, report);
            let listed = Release::ALL.map(|release| list(&bytes, release));
            let wanted = ["refused=30\nplace=0\n"; 2].map(String::from);
            if report.compare("list", &listed, &wanted) {
                report.clauses.add(clause.name);
            }
        }
    }
}

/// Zero bytes, 2^40 of them and more, which take no memory: 1 is given above 2^40 only.
pub fn check_longest(report: &mut Report) {
    report.at(EXTERNAL_CLAUSE, &[]);
    for (length, number) in [(LONGEST, 2), (LONGEST + 32, 1), (LONGEST + 31, 1)] {
        match Zeros::new(length) {
            Ok(bytes) => {
                let wanted = [reader::answer(Err(Refusal::new(number, 0)), ()); 2];
                let said = report.of_each(|release| czi::calls::judge(&bytes, release));
                let judged = |release| reference::judge(&bytes, release).map(|_| ());
                let read = Release::ALL.map(|release| reader::answer(judged(release), ()));
                let same = report.compare("judge", &said, &wanted)
                    & report.compare("reference", &read, &wanted);
                if same && length == LONGEST + 32 {
                    report.clauses.add(EXTERNAL_CLAUSE);
                }
            }
            Err(error) => report.differs(format!("{length} bytes can't be mapped: {error}")),
        }
    }
}
