//! What is judged and asked about: a file, and the release by which it is judged.

use crate::calls::{RELEASE_1_02, RELEASE_1_2};
use crate::mapping::Mapping;
use std::fmt;

/// A release of the format. Both judge any bytes alike, number and place too,
/// unless 1.2 gives 17 or 18.
#[derive(Clone, Copy, Debug, Default, PartialEq, Eq, Hash)]
pub enum Release {
    /// 1.2: a tile's metadata may declare its attachment a chunk container, which
    /// may hold a mask.
    #[default]
    V1_2,
    /// 1.02, which has no chunk containers: the attachment of every tile is plain
    /// bytes, 17 and 18 are never given, no tile has a mask, and masks on is the
    /// same as masks off. For a file that was archived under it and no other, whose
    /// masks would be forgotten.
    V1_02,
}

impl Release {
    /// Both.
    pub const ALL: [Release; 2] = [Release::V1_2, Release::V1_02];

    /// The number in the header.
    pub fn number(self) -> u32 {
        match self {
            Release::V1_2 => RELEASE_1_2,
            Release::V1_02 => RELEASE_1_02,
        }
    }

    /// Its name: `1.2` or `1.02`.
    pub fn name(self) -> &'static str {
        match self {
            Release::V1_2 => "1.2",
            Release::V1_02 => "1.02",
        }
    }
}

impl fmt::Display for Release {
    fn fmt(&self, f: &mut fmt::Formatter<'_>) -> fmt::Result {
        f.write_str(self.name())
    }
}

/// A file and the release by which it is judged. Each function takes one, or the
/// bytes alone: then the release is 1.2.
///
/// ```
/// # fn main() -> Result<(), Box<dyn std::error::Error>> {
/// use czi::{Release, Scan};
/// // A chunk of its container is broken.
/// let file = std::fs::read("../samples/refusal-17.czi")?;
/// assert_eq!(czi::judge(&file).unwrap_err().reason, czi::Reason::Chunk);
/// let archived = Scan::new(&file).release(Release::V1_02);
/// assert_eq!(czi::judge(archived), Ok(()));
/// assert_eq!(czi::tiles(archived)?.filter(|tile| tile.mask.is_some()).count(), 0);
/// # Ok(())
/// # }
/// ```
#[derive(Clone, Copy, Debug, PartialEq, Eq)]
pub struct Scan<'a> {
    /// The file's bytes.
    pub file: &'a [u8],
    /// The release.
    pub release: Release,
}

impl<'a> Scan<'a> {
    /// The file, judged by release 1.2.
    pub fn new(file: &'a [u8]) -> Self {
        let release = Release::default();
        Scan { file, release }
    }

    /// The same file, judged by that release.
    pub fn release(self, release: Release) -> Self {
        Scan { release, ..self }
    }

    /// As the header has it.
    pub(crate) fn plain(self) -> (&'a [u8], u32) {
        (self.file, self.release.number())
    }
}

impl<'a> From<&'a [u8]> for Scan<'a> {
    fn from(file: &'a [u8]) -> Self {
        Scan::new(file)
    }
}

impl<'a, const N: usize> From<&'a [u8; N]> for Scan<'a> {
    fn from(file: &'a [u8; N]) -> Self {
        Scan::new(file)
    }
}

impl<'a> From<&'a Vec<u8>> for Scan<'a> {
    fn from(file: &'a Vec<u8>) -> Self {
        Scan::new(file)
    }
}

impl<'a> From<&'a Mapping> for Scan<'a> {
    fn from(file: &'a Mapping) -> Self {
        Scan::new(file)
    }
}

#[cfg(test)]
mod tests {
    use super::{Release, Scan};

    #[test]
    fn bytes_alone_are_judged_by_1_2() {
        let bytes = vec![1, 2, 3];
        for scan in [
            Scan::from(&bytes),
            Scan::from(&bytes[..]),
            Scan::new(&bytes),
        ] {
            assert_eq!((scan.file, scan.release), (&bytes[..], Release::V1_2));
        }
        assert_eq!(Scan::from(&[1, 2, 3]), Scan::new(&bytes));
        let older = Scan::new(&bytes).release(Release::V1_02);
        assert_eq!(older.release, Release::V1_02);
        assert_eq!(older.release(Release::V1_2), Scan::new(&bytes));
    }

    #[test]
    fn a_release_has_its_number_and_its_name() {
        let said = Release::ALL.map(|release| (release.number(), release.to_string()));
        assert_eq!(said, [(0, "1.2".to_string()), (1, "1.02".to_string())]);
    }
}
