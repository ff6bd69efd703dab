//! The reference and the generator held against each other: sound files are
//! accepted and read as planned, damaged ones refused as foretold, metadata
//! declare a container as foretold, questions are answered as a painter would, and of a
//! file with the asked layers alone as of the whole,
//! settings of a quote are read as drawn or refused as foretold, and the clean file of a
//! repack is that of the plan.
//! Prints how often each freedom and each clause was reached; one reached not
//! once fails the run, as any difference does.

#![forbid(unsafe_code)]

mod damages;
mod files;
mod metadata;
mod options;
mod painter;
mod planes;
mod questions;
mod repacks;
mod report;
mod settings;

use generate::{sound, Random};
use options::Options;
use report::Report;
use std::process::ExitCode;
use std::time::Instant;

fn main() -> ExitCode {
    let options = match Options::parse(std::env::args().skip(1)) {
        Ok(options) => options,
        Err(message) => {
            eprintln!("{message}\n{}", options::USAGE);
            return ExitCode::from(2);
        }
    };
    let written = match options {
        Options {
            settings: Some(settings),
            first,
            ..
        } => Some(settings::write(first, settings)),
        Options {
            repacks: Some(repacks),
            first,
            ..
        } => Some(repacks::write(first, repacks)),
        Options {
            planes: Some(planes),
            first,
            ..
        } => Some(planes::write(first, planes)),
        _ => None,
    };
    if let Some(written) = written {
        return match written {
            Ok(()) => ExitCode::SUCCESS,
            Err(error) => {
                eprintln!("selfcheck: {error}");
                ExitCode::FAILURE
            }
        };
    }
    let begun = Instant::now();
    let report = run(&options);
    print!("{report}");
    println!("{:.2} seconds", begun.elapsed().as_secs_f64());
    if report.passed() {
        ExitCode::SUCCESS
    } else {
        ExitCode::FAILURE
    }
}

/// Checks the files of all seeds.
fn run(options: &Options) -> Report {
    let mut report = Report::new();
    for seed in options.first..options.first + options.files {
        report.seed = seed;
        let sound = sound(seed);
        // Another stream than the file's own.
        let random = &mut Random::new(seed ^ 0x5EED_0F0D_A3A6_E5A5);
        files::check(&sound, &mut report);
        if seed % 50 == 0 {
            files::check_limits(&sound, random, &mut report);
            repacks::check_limits(&sound, random, &mut report);
        }
        damages::check(&sound, random, &mut report);
        metadata::check(random, &mut report);
        questions::check(&sound, random, options.questions, &mut report);
        settings::check(&sound, random, &mut report);
        repacks::check(&sound, &mut report);
    }
    report
}

#[cfg(test)]
mod tests {
    use super::*;

    #[test]
    fn three_hundred_files_reach_every_clause() {
        let report = run(&Options {
            first: 0,
            files: 300,
            questions: 5,
            settings: None,
            repacks: None,
            planes: None,
        });
        assert!(report.passed(), "{report}");
    }
}
