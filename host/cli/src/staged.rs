//! Outputs under temporary names, complete before the first is put in place.
//!
//! Whatever goes wrong, and whichever signal comes, what was begun is undone:
//! temporary files are removed, and what was put in place is taken back, until
//! all is said and [`Placed::keep`] is called.

use crate::failure::Failure;
use crate::identity::Identity;
use crate::outputs::Output;
use crate::system::{self, undisturbed, Name, Undo};
use std::fs::{self, File, Permissions};
use std::io::{self, ErrorKind, Write};
use std::os::unix::fs::PermissionsExt;
use std::path::{Path, PathBuf};

/// A file under a temporary name beside its place.
pub struct Staged {
    output: Output,
    file: File,
    beside: PathBuf,
    /// Its place, for the table.
    place: Name,
    undo: Undo,
}

/// Gives a file a second name.
type Link = fn(&Path, &Path) -> io::Result<()>;

fn hard_link(file: &Path, name: &Path) -> io::Result<()> {
    fs::hard_link(file, name)
}

/// Files in place that may still be taken back; they are, where this is dropped.
#[must_use]
#[derive(Default)]
pub struct Placed {
    /// What was done last is undone first.
    undo: Vec<Undo>,
    /// Second names that go at the end.
    names: Vec<PathBuf>,
}

/// A free name in the folder of that path, by trying; `make` fails where it is taken.
fn beside<T>(
    path: &Path,
    ending: &str,
    make: impl Fn(&Path) -> io::Result<T>,
) -> io::Result<(PathBuf, T)> {
    for number in 0..1000 {
        let name = format!(".czi-{}-{number}.{ending}", std::process::id());
        let beside = path.with_file_name(name);
        match make(&beside) {
            Err(error) if error.kind() == ErrorKind::AlreadyExists => continue,
            made => return made.map(|made| (beside, made)),
        }
    }
    Err(ErrorKind::AlreadyExists.into())
}

/// The error, which names a second name that could not be removed.
fn left_behind(error: io::Error, second: &Path) -> io::Error {
    match fs::symlink_metadata(second) {
        Ok(_) => {
            let name = second.display();
            io::Error::other(format!("{error}; its second name {name} can't be removed"))
        }
        Err(_) => error,
    }
}

impl Staged {
    /// Begins a file, empty and with the mode of the one that it replaces.
    pub fn begin(output: &Output) -> Result<Staged, Failure> {
        let failed = |error| Failure::of(&output.given, error);
        let make = |beside: &Path| {
            let name = Name::new(beside)?;
            let file = File::create_new(beside)?;
            Ok((file, Undo::remove(name)?))
        };
        let place = Name::new(&output.place).map_err(failed)?;
        let made = undisturbed(|| beside(&output.place, "part", make));
        let (beside, (file, undo)) = made.map_err(failed)?;
        if output.old.is_some() {
            let mode = Permissions::from_mode(output.mode);
            file.set_permissions(mode).map_err(failed)?;
        }
        Ok(Staged {
            output: output.clone(),
            file,
            beside,
            place,
            undo,
        })
    }

    /// Writes more of it.
    pub fn write(&mut self, bytes: &[u8]) -> Result<(), Failure> {
        let written = self.file.write_all(bytes);
        written.map_err(|error| Failure::of(&self.output.given, error))
    }

    /// Lends what was written, read back from the disk where the system can let go of
    /// what it holds of it in memory.
    pub fn read_back<T>(
        &self,
        work: impl FnOnce(&[u8]) -> Result<T, Failure>,
    ) -> Result<T, Failure> {
        let given = &self.output.given;
        self.sync()?;
        system::let_go(&self.file);
        let cut = Failure::of(given, "what was written can't be read back");
        let mapping = system::map(&self.file, &cut.line());
        work(&mapping.map_err(|error| Failure::of(given, error))?)
    }

    /// Waits until all is on the disk.
    fn sync(&self) -> Result<(), Failure> {
        let synced = self.file.sync_all();
        synced.map_err(|error| Failure::of(&self.output.given, error))
    }
}

/// Puts all in place, or none: where one fails, those before are taken back.
pub fn put_in_place(staged: Vec<Staged>) -> Result<Placed, Failure> {
    put_by(staged, hard_link)
}

fn put_by(staged: Vec<Staged>, link: Link) -> Result<Placed, Failure> {
    staged.iter().try_for_each(Staged::sync)?;
    undisturbed(|| {
        let mut placed = Placed::default();
        placed.undo.reserve(2 * staged.len());
        placed.names.reserve(staged.len());
        for file in staged {
            let given = file.output.given.clone();
            let done = match file.output.old {
                None => placed.add_new(file, link),
                Some(old) => placed.replace(file, old, link),
            };
            done.map_err(|error| Failure::of(&given, error))?;
        }
        Ok(placed)
    })
}

impl Placed {
    /// A second name is never given to a file that came to be there meanwhile.
    fn add_new(&mut self, file: Staged, link: Link) -> io::Result<()> {
        let place = &file.output.place;
        match link(&file.beside, place) {
            Ok(()) => {
                self.undo.push(Undo::remove(file.place)?);
                self.undo.push(file.undo);
                self.names.push(file.beside);
                Ok(())
            }
            Err(error) if error.kind() == ErrorKind::AlreadyExists => Err(error),
            // A disk without second names.
            Err(_) if fs::symlink_metadata(place).is_ok() => Err(ErrorKind::AlreadyExists.into()),
            Err(_) => {
                fs::rename(&file.beside, place)?;
                self.undo.push(Undo::remove(file.place)?);
                file.undo.keep();
                Ok(())
            }
        }
    }

    /// The old file keeps a second name until the end.
    fn replace(&mut self, file: Staged, old: Identity, link: Link) -> io::Result<()> {
        let place = &file.output.place;
        let there = fs::symlink_metadata(place)?;
        if !there.is_file() || Identity::of(&there) != old {
            return Err(io::Error::other("another file came to be there"));
        }
        let second_name = |beside: &Path| {
            let name = Name::new(beside)?;
            link(place, beside)?;
            Ok((name, Undo::remove(name)?))
        };
        let (second, undo) = match beside(place, "old", second_name) {
            Ok((second, (name, undo))) => {
                if let Err(error) = fs::rename(&file.beside, place) {
                    drop(undo);
                    return Err(left_behind(error, &second));
                }
                undo.keep();
                (second, Undo::rename(name, file.place)?)
            }
            // A disk without second names, or a file of another user.
            Err(_) => {
                let away = |beside: &Path| {
                    if fs::symlink_metadata(beside).is_ok() {
                        return Err(ErrorKind::AlreadyExists.into());
                    }
                    let name = Name::new(beside)?;
                    fs::rename(place, beside)?;
                    Undo::rename(name, file.place)
                };
                let (second, undo) = beside(place, "old", away)?;
                fs::rename(&file.beside, place)?;
                (second, undo)
            }
        };
        file.undo.keep();
        self.undo.push(undo);
        self.names.push(second);
        Ok(())
    }

    /// Everything is done: the files stay.
    pub fn keep(mut self) {
        undisturbed(|| {
            self.undo.drain(..).for_each(Undo::keep);
            for name in &self.names {
                let _ = fs::remove_file(name);
            }
        });
    }
}

impl Drop for Placed {
    fn drop(&mut self) {
        undisturbed(|| while self.undo.pop().is_some() {});
    }
}

#[cfg(test)]
pub mod tests {
    use super::*;
    use crate::outputs::look;
    use std::sync::Mutex;

    /// Who stages files in a test holds it, since the table is for one thread.
    pub static ALONE: Mutex<()> = Mutex::new(());

    /// As on a disk without second names.
    fn no_link(_: &Path, _: &Path) -> io::Result<()> {
        Err(ErrorKind::Unsupported.into())
    }

    /// Writes "new" to a and b in a folder of that name.
    fn stage(name: &str, old: &[&str]) -> (PathBuf, Vec<Staged>) {
        let folder = std::env::temp_dir().join(format!("czi-{}-{name}", std::process::id()));
        fs::create_dir_all(&folder).unwrap();
        for name in old {
            fs::write(folder.join(name), "old").unwrap();
        }
        let (a, b) = (folder.join("a"), folder.join("b"));
        let outputs = look(&[&a, &b], true, &[]).unwrap();
        let staged = outputs.iter().map(|output| {
            let mut staged = Staged::begin(output).unwrap();
            staged.write(b"new").unwrap();
            staged
        });
        let staged = staged.collect();
        (folder, staged)
    }

    /// Names with what they hold; the folder is removed.
    fn left(folder: &Path) -> String {
        let mut left = Vec::new();
        for entry in fs::read_dir(folder).unwrap() {
            let path = entry.unwrap().path();
            let name = path.file_name().unwrap().to_string_lossy().into_owned();
            let holds = fs::read_to_string(&path).unwrap_or("folder".to_string());
            left.push(format!("{name}={holds}"));
        }
        fs::remove_dir_all(folder).unwrap();
        left.sort();
        left.join(" ")
    }

    #[test]
    fn all_or_none_with_second_names_and_without() {
        let _alone = ALONE.lock();
        everything_is_kept_or_taken_back();
        what_came_meanwhile_stays();
    }

    #[test]
    fn a_second_name_that_stays_is_named() {
        let failed = || io::Error::other("failed");
        let (here, none) = (std::env::temp_dir(), Path::new("/none/at all"));
        assert_eq!(left_behind(failed(), none).to_string(), "failed");
        let words = format!(
            "failed; its second name {} can't be removed",
            here.display()
        );
        assert_eq!(left_behind(failed(), &here).to_string(), words);
    }

    fn everything_is_kept_or_taken_back() {
        for (name, link) in [("link", hard_link as Link), ("none", no_link)] {
            for old in [&[][..], &["a"], &["b"], &["a", "b"]] {
                let (folder, staged) = stage(&format!("keep-{name}"), old);
                put_by(staged, link).unwrap().keep();
                assert_eq!(left(&folder), "a=new b=new", "{name} {old:?}");
                let (folder, staged) = stage(&format!("drop-{name}"), old);
                drop(put_by(staged, link).unwrap());
                let wanted: Vec<String> = old.iter().map(|n| format!("{n}=old")).collect();
                assert_eq!(left(&folder), wanted.join(" "), "{name} {old:?}");
            }
        }
    }

    fn what_came_meanwhile_stays() {
        for (name, link) in [("link", hard_link as Link), ("none", no_link)] {
            let (folder, staged) = stage(&format!("file-{name}"), &["a"]);
            fs::write(folder.join("b"), "another").unwrap();
            assert!(put_by(staged, link).is_err());
            assert_eq!(left(&folder), "a=old b=another", "{name}");
            let (folder, staged) = stage(&format!("folder-{name}"), &["a", "b"]);
            fs::remove_file(folder.join("b")).unwrap();
            fs::create_dir(folder.join("b")).unwrap();
            assert!(put_by(staged, link).is_err());
            assert_eq!(left(&folder), "a=old b=folder", "{name}");
        }
    }
}
