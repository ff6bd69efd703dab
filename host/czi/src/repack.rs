//! Files written anew without their dead segments.

use crate::calls;
use crate::memory::{self, NotMade};
use crate::refusal::Refusal;
use crate::scan::Scan;

/// How long the repacked file is: the least length of a buffer for [`repack`]. It may
/// be longer than the file itself, by what is listed twice, and where the file segment
/// had under 512 bytes.
///
/// Refusals: those of [`judge`](crate::judge); then 36 where it would have more than
/// 8,192 segments or 2^40 bytes.
pub fn repack_size<'a>(scan: impl Into<Scan<'a>>) -> Result<u64, Refusal> {
    let (file, release) = scan.into().plain();
    calls::repack_size(file, release).result()
}

/// Writes the file anew into the lent buffer, without its dead segments: those that are
/// neither the file segment nor named by it, nor by an entry of a directory that it names.
/// Answers how many bytes were written; what of the buffer is past them stays, and all of it
/// where refused.
///
/// The new file is accepted under the same release; its records, parts and planes are
/// those of the file, and only places differ. Repacked again it gives the same bytes. A
/// segment that is listed twice is written twice.
///
/// ```
/// # fn main() -> Result<(), Box<dyn std::error::Error>> {
/// let file = std::fs::read("../samples/dead.czi")?;
/// let mut out = vec![0; czi::repack_size(&file)? as usize];
/// let written = czi::repack(&file, &mut out)?;
/// assert_eq!(written, out.len() as u64);
/// let (old, new) = (czi::summary(&file)?, czi::summary(&out)?);
/// assert_eq!((old.tiles, old.segments), (4, 14));
/// assert_eq!((new.tiles, new.segments), (4, 9));
/// # Ok(())
/// # }
/// ```
///
/// Refusals: those of [`repack_size`]; then 25 where the buffer is shorter than the new
/// file.
pub fn repack<'a>(scan: impl Into<Scan<'a>>, out: &mut [u8]) -> Result<u64, Refusal> {
    let (file, release) = scan.into().plain();
    calls::repack(file, release, out).result()
}

/// The file written anew without its dead segments, as [`repack`] does, into memory that
/// is taken for it.
///
/// Refusals: those of [`repack_size`], before memory is taken.
pub fn repacked<'a>(scan: impl Into<Scan<'a>>) -> Result<Vec<u8>, NotMade> {
    let scan = scan.into();
    let mut out = memory::zeros(repack_size(scan)?)?;
    repack(scan, &mut out)?;
    Ok(out)
}
