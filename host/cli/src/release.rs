//! The release by which the file is judged, as the command line says it.

use crate::arguments::{choose, Arguments};
use crate::failure::Failure;
use czi::Release;

/// The option of every command that judges a file.
pub const OPTION: &str = "--release";

/// The release that is named, or 1.2.
pub fn parse(arguments: &Arguments) -> Result<Release, Failure> {
    let all = [Release::V1_02, Release::V1_2].map(|release| (release.name(), release));
    match arguments.text(OPTION)? {
        None => Ok(Release::default()),
        Some(word) => choose(word, OPTION, &all),
    }
}
