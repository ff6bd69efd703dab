//! Which files are to be written, looked at before anything is.

use crate::failure::Failure;
use crate::identity::Identity;
use crate::{streams, system};
use std::fs::{self, Metadata, OpenOptions};
use std::io::ErrorKind;
use std::os::unix::ffi::OsStrExt;
use std::os::unix::fs::{MetadataExt, PermissionsExt};
use std::path::{Path, PathBuf};

/// A file to be written.
#[derive(Clone, Debug)]
pub struct Output {
    /// Its name as it was given.
    pub given: PathBuf,
    /// Its place, with no link in it.
    pub place: PathBuf,
    /// The file that it replaces.
    pub old: Option<Identity>,
    /// The mode of that file.
    pub mode: u32,
}

/// Looks at all of them. A file that is there is replaced only by `force`, and
/// never one that nobody may write; none may be one that is read, standard output
/// or error, or another of them.
pub fn look(paths: &[&Path], force: bool, read: &[Identity]) -> Result<Vec<Output>, Failure> {
    let outputs: Vec<Output> = paths
        .iter()
        .map(|path| Output::look(path, force))
        .collect::<Result<_, _>>()?;
    let old = |output: &Output| output.old.iter().copied().collect::<Vec<_>>();
    for (k, output) in outputs.iter().enumerate() {
        if output.old.is_some_and(|id| read.contains(&id)) {
            let what = "it is the file that is read, which is never replaced; give the output \
                        another name";
            return Err(Failure::of(&output.given, what));
        }
        let same = |o: &Output| o.place == output.place || o.old.is_some() && o.old == output.old;
        if outputs[..k].iter().any(same) {
            let what = "it is the same file as another output";
            return Err(Failure::of(&output.given, what));
        }
        streams::apart_from(&old(output))?;
    }
    // Last, so that --force is not advised where it does not help.
    match outputs.iter().find(|o| o.old.is_some() && !force) {
        Some(output) => {
            let what = "it is there already; --force replaces it";
            Err(Failure::of(&output.given, what))
        }
        None => Ok(outputs),
    }
}

impl Output {
    fn look(path: &Path, force: bool) -> Result<Output, Failure> {
        let failed = |error| Failure::of(path, error);
        let other = |what| Failure::of(path, what);
        if path.file_name().is_none() || path.as_os_str().as_bytes().ends_with(b"/") {
            return Err(Failure::Usage(format!("{} names no file", path.display())));
        }
        match fs::metadata(path) {
            Ok(about) => {
                may_be_replaced(&about, force).map_err(other)?;
                let place = fs::canonicalize(path).map_err(failed)?;
                if force {
                    // Who may not write it does not replace it either.
                    let written = OpenOptions::new().write(true).open(path);
                    drop(written.map_err(failed)?);
                }
                let folder = place.parent().unwrap_or(Path::new("/"));
                let folder = fs::metadata(folder).map_err(failed)?;
                let owners = [about.uid(), folder.uid()];
                if is_held(folder.mode(), owners, system::user()) {
                    let what = "it is another user's in a sticky folder, where only its owner \
                                may replace it";
                    return Err(other(what));
                }
                Ok(Output {
                    given: path.to_path_buf(),
                    place,
                    old: Some(Identity::of(&about)),
                    mode: about.permissions().mode() & 0o777,
                })
            }
            Err(error) if error.kind() == ErrorKind::NotFound => {
                if fs::symlink_metadata(path).is_ok() {
                    return Err(other("it is a link to nothing"));
                }
                Ok(Output {
                    given: path.to_path_buf(),
                    place: place_of_new(path).map_err(failed)?,
                    old: None,
                    mode: 0,
                })
            }
            Err(error) => Err(failed(error)),
        }
    }
}

/// A folder, a device or a pipe is not replaced, nor what nobody may write; the
/// mode decides, since to root every file is writable.
fn may_be_replaced(about: &Metadata, force: bool) -> Result<(), &'static str> {
    if !about.is_file() {
        return Err("it is no plain file");
    }
    match about.permissions().mode() & 0o222 {
        0 if force => Err("it is read-only, and is not replaced by --force either"),
        0 => Err("it is there already, and read-only"),
        _ => Ok(()),
    }
}

/// In a sticky folder, as /tmp is, only root and the owners of the file and of the folder
/// rename or remove it: others could not undo what they began there.
fn is_held(folder_mode: u32, owners: [u32; 2], user: u32) -> bool {
    folder_mode & 0o1000 != 0 && user != 0 && !owners.contains(&user)
}

/// Where a new file comes to stand.
fn place_of_new(path: &Path) -> std::io::Result<PathBuf> {
    let folder = match path.parent() {
        Some(folder) if !folder.as_os_str().is_empty() => folder,
        _ => Path::new("."),
    };
    let name = path.file_name().unwrap_or_default();
    Ok(fs::canonicalize(folder)?.join(name))
}

#[cfg(test)]
mod tests {
    use super::*;

    #[test]
    fn a_sticky_folder_holds_what_is_of_others() {
        assert!(is_held(0o41777, [7, 0], 8));
        for (mode, owners, user) in [
            (0o40777, [7, 0], 8),
            (0o41777, [8, 0], 8),
            (0o41777, [7, 8], 8),
            (0o41777, [7, 8], 0),
        ] {
            assert!(!is_held(mode, owners, user), "{mode:o} {owners:?} {user}");
        }
    }
}
