//! The command `czi`: judges, lists, counts, composes, quotes and repacks CZI microscope
//! files.
//!
//! Exit codes: 0 done; 2 refused, with the number, its place and its words in
//! one line on standard error; 1 for a bad argument, a file that can't
//! be read or written or was changed meanwhile, streams that take nothing, or
//! too little memory. A signal that ends the run undoes what was begun, and the
//! run dies by that signal.

#![deny(unsafe_code)]

mod answer;
mod arguments;
mod compose;
mod count;
mod extract;
mod failure;
mod help;
mod identity;
mod info;
mod input;
mod memory;
mod outputs;
mod pbm;
mod plane;
mod progress;
mod question;
mod quote;
mod records;
mod refused;
mod release;
mod repack;
mod sample;
mod settings;
mod staged;
mod streams;
mod system;
mod tiles;
mod types;
mod window;
mod words;

use answer::Answer;
use arguments::{Arguments, Takes};
use czi::Scan;
use failure::Failure;
use input::Input;
use std::ffi::OsString;
use std::process::ExitCode;

/// A command that takes a path and a release.
const PATH_ONLY: Takes = Takes {
    flags: &[],
    values: &[release::OPTION],
    many: &[],
};

fn main() -> ExitCode {
    system::prepare();
    let words = std::env::args_os().skip(1).collect();
    match run(words).and_then(Answer::give) {
        Ok(()) => ExitCode::SUCCESS,
        Err(failure) => {
            streams::complain(&failure);
            ExitCode::from(failure.code())
        }
    }
}

/// Runs a command line. Every command has something to say on standard output.
fn run(mut words: Vec<OsString>) -> Result<Answer, Failure> {
    streams::output()?;
    if words.is_empty() {
        return Err(Failure::Usage("a command is missing".to_string()));
    }
    let command = words.remove(0);
    let name = command.to_string_lossy();
    let asks_for_help = |word: &OsString| word == "--help" || word == "-h";
    match name.as_ref() {
        "help" | "--help" | "-h" => help::asked_for(&words).map(Answer::lines),
        "--version" => Ok(Answer::lines(version())),
        _ if words.iter().any(asks_for_help) => help::asked_for(&[command]).map(Answer::lines),
        name if !help::COMMANDS.contains(&name) => {
            Err(Failure::Usage(format!("there is no command {command:?}")))
        }
        name => run_command(name, words).map_err(|failure| failure.of_command(name)),
    }
}

/// Runs one of the commands.
fn run_command(name: &str, words: Vec<OsString>) -> Result<Answer, Failure> {
    match name {
        "judge" => read(words, |scan| {
            czi::judge(scan)?;
            Ok("accepted\n".to_string())
        }),
        "list" => read(words, |scan| Ok(czi::list(scan))),
        "info" => info::run(words),
        "tiles" => tiles::run(words),
        "count" => count::run(words),
        "compose" => compose::run(words),
        "quote" => quote::run(words),
        "repack" => repack::run(words),
        "extract" => extract::run(words),
        "sample" => sample::run(words),
        _ => Err(Failure::Usage(format!("there is no command {name:?}"))),
    }
}

fn version() -> String {
    format!("czi {}\n", env!("CARGO_PKG_VERSION"))
}

/// A command that reads a file and says some lines of it.
fn read(
    words: Vec<OsString>,
    lines: impl FnOnce(Scan) -> Result<String, Failure>,
) -> Result<Answer, Failure> {
    let arguments = Arguments::parse(words, &PATH_ONLY)?;
    let release = release::parse(&arguments)?;
    let input = Input::open(&arguments.only_path("FILE")?)?;
    let lines = input.reading(|file| lines(Scan::new(file).release(release)))?;
    Ok(Answer::lines(lines))
}
