//! The proved library compared with the reference, which was written from the
//! paper and not from the definitions: generated files, damaged ones, metadata
//! of every kind, questions to them, quotes, and repacks, all under releases 1.2 and 1.02.
//! Every number of every answer and every lent byte is compared, of refused calls too; and
//! what the releases have in common is held of the library's own answers, as is what a
//! clean file has of the file that it was made of, and a file with one layer of each tile
//! of the file with all. Prints how
//! often each clause was reached; one reached not once fails the run, as any
//! difference does, and a failing case is kept in a file that says how to run it
//! again.

#![deny(unsafe_code)]

mod case;
mod chosen;
mod counts;
mod damages;
mod jobs;
mod layers;
mod lent;
mod limits;
mod metadata;
mod options;
mod planes;
mod quoted;
mod quotes;
mod read;
mod reader;
mod repacked;
mod repacks;
mod report;
mod settings;
mod tables;
mod types;
mod zeros;

use generate::{freedoms_of, sound, Random};
use options::Options;
use read::Read;
use report::Report;
use std::process::ExitCode;
use std::time::Instant;

fn main() -> ExitCode {
    let options = match Options::parse(std::env::args().skip(1)) {
        Ok(Some(options)) => options,
        Ok(None) => {
            println!("{}", options::USAGE);
            return ExitCode::SUCCESS;
        }
        Err(message) => {
            eprintln!("compare: {message}\n{}", options::USAGE);
            return ExitCode::from(1);
        }
    };
    let begun = Instant::now();
    let mut report = run(&options);
    report.keep();
    print!("{report}");
    println!("{:.1} seconds", begun.elapsed().as_secs_f64());
    if report.passed(options.replay) {
        ExitCode::SUCCESS
    } else {
        ExitCode::FAILURE
    }
}

/// So many seeds are a part of a run.
const SEEDS: u64 = 250;

/// What is compared once in a run, each a part of its own.
const ONCE: [fn(&mut Report); 13] = [
    limits::check_longest,
    metadata::check_long,
    metadata::check_short,
    types::check,
    settings::check_changed,
    settings::check_pitches,
    settings::check_nanometres,
    settings::check_long,
    settings::check_large,
    repacks::check_most_segments,
    repacks::check_longest,
    layers::check_every,
    layers::check_far,
];

/// Compares on the files of all seeds, and what is compared once.
fn run(options: &Options) -> Report {
    let of_seeds = options.files.div_ceil(SEEDS) as usize;
    let once = if options.replay { 0 } else { ONCE.len() };
    jobs::run(options.jobs, of_seeds + once, |part, report| {
        if let Some(once) = part.checked_sub(of_seeds) {
            return ONCE[once](report);
        }
        let first = SEEDS * part as u64;
        for seed in first..options.files.min(first + SEEDS) {
            compare(options.first + seed, options, report);
        }
    })
}

/// All comparisons of one seed, which decides them all.
fn compare(seed: u64, options: &Options, report: &mut Report) {
    report.begin(seed, options.questions);
    let sound = sound(seed);
    // Another stream than the file's own.
    let random = &mut Random::new(seed ^ 0xC0_3BA2_E5EE_D5A3);
    for freedom in freedoms_of(&sound) {
        report.freedoms.add(freedom);
    }
    report.at("the sound file", &sound.bytes);
    report.sound += 1;
    let read = Read::new(&sound.bytes, report);
    reader::check(&read, report);
    report.compare("a sound file", &read.refusals(), &[None; 2]);
    reader::check_requests(&read, &sound, random, report);
    planes::check(&read, &sound, random, options.questions, report);
    quotes::check(&read, &sound, random, report);
    repacks::check(&read, &sound, random, report);
    layers::check(&read, &sound, random, report);
    damages::check(&sound, random, report);
    metadata::check(random, report);
    if seed.is_multiple_of(100) {
        limits::check(&sound, random, report);
    }
    report.end(&sound.bytes);
}

#[cfg(test)]
mod tests {
    use super::*;

    #[test]
    fn two_thousand_files_reach_every_clause() {
        let report = run(&Options {
            first: 1_000_000,
            files: 2_000,
            questions: 5,
            replay: false,
            jobs: 2,
        });
        assert!(report.passed(false), "{report}");
    }

    #[test]
    fn a_run_is_the_same_on_any_number_of_threads() {
        let on = |jobs| {
            let report = run(&Options {
                first: 77,
                files: 600,
                questions: 1,
                replay: true,
                jobs,
            });
            report.to_string()
        };
        let one = on(1);
        assert!(one.contains("600 sound"), "{one}");
        assert_eq!(on(3), one);
    }
}
