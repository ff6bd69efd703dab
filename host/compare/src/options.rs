//! The command's arguments.

/// How the command is called.
pub const USAGE: &str = "\
usage: compare [--files N] [--first SEED] [--questions N] [--long] [--jobs N]
       compare --replay SEED [--questions N]

Compares the proved library with the reference on the files of N seeds from
SEED on, each with so many answered questions and as many refused ones as its
tiles allow, under releases 1.2 and 1.02. --long takes ten times as many files.
--jobs says how many threads there are, as many as cores unless given; what is
printed is the same for any number. --replay runs one seed again, on which a run
has failed.";

/// So many files without --files: a minute on two cores.
const FILES: u64 = 30_000;

/// So many drawn questions to a file without --questions.
const QUESTIONS: u64 = 5;

/// The most threads that may be asked for.
const MOST_JOBS: u64 = 64;

/// What is to be run.
#[derive(Debug, PartialEq, Eq)]
pub struct Options {
    /// The first seed.
    pub first: u64,
    /// The number of files.
    pub files: u64,
    /// Questions to each file, beside those that are refused by plan.
    pub questions: u64,
    /// One seed again: what it does not reach is no failure.
    pub replay: bool,
    /// The number of threads.
    pub jobs: usize,
}

impl Options {
    /// Reads the arguments; nothing where help is asked for.
    pub fn parse(mut arguments: impl Iterator<Item = String>) -> Result<Option<Options>, String> {
        let mut options = Options {
            first: 0,
            files: FILES,
            questions: QUESTIONS,
            replay: false,
            jobs: std::thread::available_parallelism().map_or(1, |cores| cores.get()),
        };
        while let Some(name) = arguments.next() {
            let mut number = || {
                let value = arguments.next().ok_or(format!("{name} wants a number"))?;
                value
                    .parse::<u64>()
                    .map_err(|_| format!("{name}: {value} is no number"))
            };
            match name.as_str() {
                "--files" => options.files = number()?,
                "--first" => options.first = number()?,
                "--questions" => options.questions = number()?,
                "--long" => options.files = 10 * FILES,
                "--jobs" => match number()? {
                    jobs @ 1..=MOST_JOBS => options.jobs = jobs as usize,
                    other => return Err(format!("--jobs is 1 to {MOST_JOBS}, not {other}")),
                },
                "--replay" => {
                    options.first = number()?;
                    options.files = 1;
                    options.replay = true;
                }
                "--help" | "-h" => return Ok(None),
                _ => return Err(format!("unknown argument {name}")),
            }
        }
        if options.first.checked_add(options.files).is_none() {
            return Err("seeds are numbers of 64 bits".to_string());
        }
        Ok(Some(options))
    }
}

#[cfg(test)]
mod tests {
    use super::Options;

    fn parse(line: &str) -> Result<Option<Options>, String> {
        Options::parse(line.split_whitespace().map(String::from))
    }

    #[test]
    fn a_replay_is_one_seed() {
        let options = parse("--replay 7").unwrap().unwrap();
        assert!(options.replay);
        assert_eq!((options.first, options.files), (7, 1));
    }

    #[test]
    fn bad_arguments_are_said() {
        for line in [
            "--files",
            "--files x",
            "--what",
            "--first 18446744073709551615",
            "--jobs 0",
            "--jobs 65",
        ] {
            assert!(parse(line).is_err(), "{line}");
        }
        assert_eq!(parse("--help"), Ok(None));
    }
}
