//! The file that is read: mapped, or read once; and whether it stayed as it was.

use crate::failure::Failure;
use crate::identity::{Identity, State};
use crate::{memory, streams, system};
use std::fs::{self, File, Metadata};
use std::io::{Read, Seek};
use std::ops::Deref;
use std::path::{Path, PathBuf};
use std::time::Duration;

/// Longer than a tick of the kernel's clock for file times.
const TICK: Duration = Duration::from_millis(20);

/// An open file, not yet read. A path of `-` is standard input.
pub struct Input {
    file: File,
    /// Its path, or words for standard input.
    path: PathBuf,
    is_standard: bool,
    /// The state before, of a plain file.
    before: Option<State>,
}

/// A file's bytes.
enum Lent {
    /// A plain file, which is mapped and not copied.
    Mapped(czi::Mapping),
    /// A pipe and the like, read to its end.
    Read(Vec<u8>),
}

impl Deref for Lent {
    type Target = [u8];

    fn deref(&self) -> &[u8] {
        match self {
            Lent::Mapped(mapping) => mapping,
            Lent::Read(bytes) => bytes,
        }
    }
}

/// What is known of the file. Times go by ticks: of a file that was written just
/// now, a change within the same tick would not be seen, so that tick is let pass.
fn settled(file: &File) -> std::io::Result<Metadata> {
    let about = file.metadata()?;
    let age = about.modified().ok().and_then(|time| time.elapsed().ok());
    match age.and_then(|age| TICK.checked_sub(age)) {
        Some(rest) if about.is_file() => {
            std::thread::sleep(rest);
            file.metadata()
        }
        _ => Ok(about),
    }
}

impl Input {
    /// Opens it. Output and error must not go into it.
    pub fn open(path: &Path) -> Result<Input, Failure> {
        let is_standard = path.as_os_str() == "-";
        let (file, path) = match is_standard {
            true => (streams::input()?, Path::new("standard input")),
            false => (
                File::open(path).map_err(|error| Failure::of(path, error))?,
                path,
            ),
        };
        let about = settled(&file).map_err(|error| Failure::of(path, error))?;
        let input = Input {
            file,
            path: path.to_path_buf(),
            is_standard,
            before: about.is_file().then(|| State::of(&about)),
        };
        streams::apart_from(&input.identity())?;
        Ok(input)
    }

    /// Which file it is; none where it is a pipe and the like.
    pub fn identity(&self) -> Vec<Identity> {
        self.before.iter().map(|state| state.identity()).collect()
    }

    /// Lends the bytes to `work`. What it answers counts only where the file
    /// is at the end as it was at the start.
    pub fn reading<T>(
        mut self,
        work: impl FnOnce(&[u8]) -> Result<T, Failure>,
    ) -> Result<T, Failure> {
        self.lending(work)
    }

    /// The same; the file may be looked at once more afterwards.
    pub fn lending<T>(
        &mut self,
        work: impl FnOnce(&[u8]) -> Result<T, Failure>,
    ) -> Result<T, Failure> {
        let lent = self.lend()?;
        let answer = work(&lent);
        self.unchanged("it was changed while it was read")?;
        answer
    }

    /// Fails where the file is no more as it was at the start.
    pub fn looked_at_again(&self) -> Result<(), Failure> {
        self.unchanged("it was changed before the new file was in place")
    }

    /// All of its bytes, in memory. Where there are more than so many they are not
    /// read on, and it is said what the file has to be.
    pub fn contents(mut self, most: u64, wanted: &str) -> Result<Vec<u8>, Failure> {
        let mut bytes = memory::room(most + 1)?;
        let read = (&mut self.file).take(most + 1).read_to_end(&mut bytes);
        read.map_err(|error| Failure::of(&self.path, error))?;
        self.unchanged("it was changed while it was read")?;
        match bytes.len() as u64 > most {
            true => {
                let what = format!("it is over {most} bytes long, and {wanted}");
                Err(Failure::of(&self.path, what))
            }
            false => Ok(bytes),
        }
    }

    fn lend(&mut self) -> Result<Lent, Failure> {
        let path = &self.path;
        let failed = |error| Failure::of(path, error);
        // Standard input is read from where it stands.
        let at_start = !self.is_standard || self.file.stream_position().is_ok_and(|at| at == 0);
        if self.before.is_some() && at_start {
            let cut = Failure::of(
                path,
                "it was cut, or can't be read any more, while it was read",
            );
            let mapping = system::map(&self.file, &cut.line());
            return mapping.map(Lent::Mapped).map_err(failed);
        }
        let read = memory::read_all(&mut self.file);
        read.map(Lent::Read)
            .map_err(|what| Failure::of(&self.path, what))
    }

    /// Compares the open file, and the one of that name, with the start.
    fn unchanged(&self, otherwise: &str) -> Result<(), Failure> {
        let Some(before) = self.before else {
            return Ok(());
        };
        let open = self.file.metadata();
        let named = match self.is_standard {
            true => self.file.metadata(),
            false => fs::metadata(&self.path),
        };
        let same = |about: Metadata| State::of(&about) == before;
        match open.is_ok_and(same) && named.is_ok_and(same) {
            true => Ok(()),
            false => Err(Failure::of(&self.path, otherwise)),
        }
    }
}
