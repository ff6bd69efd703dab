//! Changes to a file's bytes.

/// One change.
#[derive(Clone, Debug)]
pub enum Edit {
    /// Other bytes at an offset.
    Write {
        /// The offset of the first.
        at: usize,
        /// What is written.
        bytes: Vec<u8>,
    },
    /// The file ends earlier.
    Cut {
        /// Its new length.
        length: usize,
    },
    /// The file goes on.
    Append {
        /// What is added.
        bytes: Vec<u8>,
    },
}

impl Edit {
    /// Makes the change.
    pub fn apply(&self, file: &mut Vec<u8>) {
        match self {
            Edit::Write { at, bytes } => file[*at..*at + bytes.len()].copy_from_slice(bytes),
            Edit::Cut { length } => file.truncate(*length),
            Edit::Append { bytes } => file.extend(bytes),
        }
    }

    /// Do both write, and no byte twice?
    pub fn is_apart(&self, other: &Edit) -> bool {
        match (self, other) {
            (Edit::Write { at: a, bytes: x }, Edit::Write { at: b, bytes: y }) => {
                a + x.len() <= *b || b + y.len() <= *a
            }
            _ => false,
        }
    }
}
