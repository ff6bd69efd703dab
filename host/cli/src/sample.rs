//! The command `sample`: a small mosaic to try the others with.

use crate::answer::{finish, is_standard, Answer, Sink};
use crate::arguments::{Arguments, Takes};
use crate::failure::Failure;
use crate::outputs::look;
use crate::streams;
use std::ffi::OsString;
use std::path::Path;

const SAMPLE: &[u8] = include_bytes!("../../samples/mosaic.czi");

const TAKES: Takes = Takes {
    flags: &["--force"],
    values: &[],
    many: &[],
};

/// Answers the mosaic.
pub fn run(words: Vec<OsString>) -> Result<Answer, Failure> {
    let arguments = Arguments::parse(words, &TAKES)?;
    let path = arguments.only_path("OUT.czi")?;
    let files: Vec<&Path> = match is_standard(&path) {
        true => {
            streams::error()?;
            Vec::new()
        }
        false => vec![&path],
    };
    let files = look(&files, arguments.flag("--force"), &[])?;
    let mut sink = Sink::begin(Some(&path), &mut files.iter(), SAMPLE.len() as u64)?;
    sink.write(SAMPLE)?;
    finish(vec![sink], format!("{} bytes written\n", SAMPLE.len()))
}
