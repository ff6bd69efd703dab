//! Which file is meant, whatever its name: device and inode.

use std::fs::Metadata;
use std::os::unix::fs::MetadataExt;

/// Device and inode.
#[derive(Clone, Copy, Debug, PartialEq, Eq)]
pub struct Identity {
    device: u64,
    inode: u64,
}

impl Identity {
    /// Those of a file.
    pub fn of(about: &Metadata) -> Identity {
        Identity {
            device: about.dev(),
            inode: about.ino(),
        }
    }
}

/// What changes where a file is changed: size and times.
#[derive(Clone, Copy, Debug, PartialEq, Eq)]
pub struct State {
    identity: Identity,
    size: u64,
    modified: (i64, i64),
    changed: (i64, i64),
}

impl State {
    /// Which file it is the state of.
    pub fn identity(&self) -> Identity {
        self.identity
    }

    /// That of a file.
    pub fn of(about: &Metadata) -> State {
        State {
            identity: Identity::of(about),
            size: about.size(),
            modified: (about.mtime(), about.mtime_nsec()),
            changed: (about.ctime(), about.ctime_nsec()),
        }
    }
}
