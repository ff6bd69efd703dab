//! Measures the library: `cargo run --offline --profile measure -p bench`. docs/BENCHMARKS.md says how each measure is
//! taken and has a run. The first table holds the figures to reach against their limits; the exit status says nothing.

#![deny(unsafe_code)]

mod bits;
mod layers;
mod leaves;
mod metadata;
mod mosaic;
mod native;
mod planes;
#[allow(unsafe_code)]
mod probe;
mod quote;
mod repack;
mod report;
mod scanner;
mod table;
mod timing;
mod whole;

use report::Report;
use std::time::Duration;
use table::table;
use timing::Rounds;

const USAGE: &str = "\
usage: bench [--markdown] [--limits] [--metadata] [--quotes] [--repacks] [--layers]
             [--times N] [--seconds S]
  --markdown   tables in Markdown
  --limits     the first table alone: the figures to reach
  --metadata   of that the lines about metadata alone
  --quotes     the lines about quotes alone
  --repacks    the lines about repacks alone
  --layers     the line about layers alone: five runs, and the one in the middle counts
  --times N    at least so many repetitions of each measure (21) ..
  --seconds S  .. and for at least so long (5)
";

struct Options {
    markdown: bool,
    limits: bool,
    metadata: bool,
    quotes: bool,
    repacks: bool,
    layers: bool,
    rounds: Rounds,
}

fn main() {
    let Some(options) = options() else {
        eprint!("{USAGE}");
        std::process::exit(2);
    };
    if cfg!(debug_assertions) {
        println!(
            "Built with overflow checks, which slow the native sides: use --profile measure.\n"
        );
    }
    let Rounds { times, length } = options.rounds;
    println!(
        "Of each measure the sides in turn, at least {times} times and {} s; the least time of each counts.\n",
        length.as_secs_f64()
    );
    if options.metadata {
        let report = Report::of_metadata(options.rounds);
        println!("{}", table(&report.limits, options.markdown));
        return;
    }
    if options.quotes {
        let report = Report::of_quotes(options.rounds);
        println!("{}", table(&report.others, options.markdown));
        return;
    }
    if options.repacks {
        let report = Report::of_repacks(options.rounds);
        println!("{}", table(&report.limits, options.markdown));
        return;
    }
    if options.layers {
        let report = Report::of_layers(options.rounds);
        println!("{}", table(&report.limits, options.markdown));
        return;
    }
    let report = Report::new(options.rounds, !options.limits);
    println!("{}", table(&report.limits, options.markdown));
    if !probe::LINKED {
        println!("256-byte equal range / memcmp: not measured, libprobe.a was not there (host/library probe).\n");
    }
    if !options.limits {
        println!("{}", table(&report.others, options.markdown));
    }
}

fn options() -> Option<Options> {
    let mut options = Options {
        markdown: false,
        limits: false,
        metadata: false,
        quotes: false,
        repacks: false,
        layers: false,
        rounds: Rounds {
            times: 21,
            length: Duration::from_secs(5),
        },
    };
    let mut words = std::env::args().skip(1);
    while let Some(word) = words.next() {
        match word.as_str() {
            "--markdown" => options.markdown = true,
            "--limits" => options.limits = true,
            "--metadata" => options.metadata = true,
            "--quotes" => options.quotes = true,
            "--repacks" => options.repacks = true,
            "--layers" => options.layers = true,
            "--times" => options.rounds.times = words.next()?.parse().ok().filter(|&n| n > 0)?,
            "--seconds" => {
                options.rounds.length = Duration::from_secs(words.next()?.parse().ok()?);
            }
            _ => return None,
        }
    }
    Some(options)
}
