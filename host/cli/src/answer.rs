//! What a command answers: bytes and lines for the streams, and files in place.

use crate::failure::Failure;
use crate::outputs::Output;
use crate::staged::{put_in_place, Placed, Staged};
use crate::{memory, streams};
use std::path::Path;

/// What is to be said, and the files, which stay only if it could be said.
#[derive(Default)]
pub struct Answer {
    /// What `-` gets: it goes to standard output, and then the lines to
    /// standard error.
    pub bytes: Option<Vec<u8>>,
    /// The lines.
    pub lines: String,
    /// The files.
    pub placed: Placed,
}

impl Answer {
    /// Lines alone.
    pub fn lines(lines: String) -> Answer {
        Answer {
            lines,
            ..Answer::default()
        }
    }

    /// Says everything; then the files stay.
    pub fn give(self) -> Result<(), Failure> {
        match &self.bytes {
            None => streams::print(self.lines.as_bytes())?,
            Some(bytes) => {
                streams::print(bytes)?;
                streams::tell(&self.lines)?;
            }
        }
        self.placed.keep();
        Ok(())
    }
}

/// Is it standard output that is meant?
pub fn is_standard(path: &Path) -> bool {
    path.as_os_str() == "-"
}

/// Where an output goes while it is made.
pub enum Sink {
    /// Nowhere.
    Nothing,
    /// Standard output, once all is there.
    Memory(Vec<u8>),
    /// A file.
    File(Staged),
}

impl Sink {
    /// For an output that is not asked for, `-`, or the next of the files; of
    /// so many bytes.
    pub fn begin<'a>(
        path: Option<&Path>,
        files: &mut impl Iterator<Item = &'a Output>,
        length: u64,
    ) -> Result<Sink, Failure> {
        match path {
            None => Ok(Sink::Nothing),
            Some(path) if is_standard(path) => memory::room(length).map(Sink::Memory),
            Some(_) => match files.next() {
                Some(output) => Staged::begin(output).map(Sink::File),
                None => Ok(Sink::Nothing),
            },
        }
    }

    /// Takes more of it.
    pub fn write(&mut self, bytes: &[u8]) -> Result<(), Failure> {
        match self {
            Sink::Nothing => {}
            Sink::Memory(room) => {
                // Room for all of it was taken at the beginning.
                room.extend_from_slice(bytes);
            }
            Sink::File(staged) => staged.write(bytes)?,
        }
        Ok(())
    }
}

/// Puts the files in place; the rest is for standard output.
pub fn finish(sinks: Vec<Sink>, lines: String) -> Result<Answer, Failure> {
    let mut bytes = None;
    let mut files = Vec::new();
    for sink in sinks {
        match sink {
            Sink::Nothing => {}
            Sink::Memory(all) => bytes = Some(all),
            Sink::File(staged) => files.push(staged),
        }
    }
    let placed = put_in_place(files)?;
    Ok(Answer {
        bytes,
        lines,
        placed,
    })
}
