//! Standard input, output and error. std's own handles take a closed or unfit
//! stream for one that takes everything, so these are plain files.

use crate::failure::Failure;
use crate::identity::Identity;
use crate::system;
use std::fs::File;
use std::io::{self, Write};
use std::os::fd::AsFd;
use std::sync::atomic::{AtomicBool, Ordering::SeqCst};

/// Set where standard error is the file that is read.
static MUTE: AtomicBool = AtomicBool::new(false);

fn opened(stream: usize, name: &str, file: impl AsFd) -> Result<File, Failure> {
    if !system::was_open(stream) {
        return Err(Failure::Other(format!("{name} is closed")));
    }
    let copy = file.as_fd().try_clone_to_owned();
    copy.map(File::from).map_err(|error| named(name, error))
}

fn named(name: &str, error: io::Error) -> Failure {
    Failure::Other(format!("{name}: {error}"))
}

/// Standard input.
pub fn input() -> Result<File, Failure> {
    opened(0, "standard input", io::stdin())
}

/// Standard output.
pub fn output() -> Result<File, Failure> {
    opened(1, "standard output", io::stdout())
}

/// Standard error.
pub fn error() -> Result<File, Failure> {
    opened(2, "standard error", io::stderr())
}

/// Writes to standard output.
pub fn print(bytes: &[u8]) -> Result<(), Failure> {
    let written = output()?.write_all(bytes);
    written.map_err(|error| named("standard output", error))
}

/// Writes to standard error what must not be lost.
pub fn tell(text: &str) -> Result<(), Failure> {
    let written = error()?.write_all(text.as_bytes());
    written.map_err(|error| named("standard error", error))
}

/// Says why the run failed; the exit code says that it did.
pub fn complain(failure: &Failure) {
    if !MUTE.load(SeqCst) {
        let _ = tell(&failure.line());
    }
}

/// Fails where output or error would be written into one of these files.
pub fn apart_from(files: &[Identity]) -> Result<(), Failure> {
    let hits = |stream: Result<File, Failure>| {
        let about = stream.ok().and_then(|file| file.metadata().ok());
        about.is_some_and(|about| about.is_file() && files.contains(&Identity::of(&about)))
    };
    let failure = |what: &str| Failure::Other(what.to_string());
    if hits(error()) {
        MUTE.store(true, SeqCst);
        return Err(failure(
            "standard error goes into a file that is read or replaced",
        ));
    }
    match hits(output()) {
        true => Err(failure(
            "standard output goes into a file that is read or replaced; with > the shell has \
             already emptied it",
        )),
        false => Ok(()),
    }
}
