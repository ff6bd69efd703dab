//! The reader: verdict, parts, records, listing.

use crate::calls::{self, Answer, Span, TileRecord};
use crate::records::{Dimension, Summary, Tile};
use crate::refusal::Refusal;
use crate::scan::Scan;

/// Judges a file.
///
/// Refusals: 1 to 18, by the table of docs/RULES.md and in its order; 17 and 18
/// under release 1.2 alone.
pub fn judge<'a>(scan: impl Into<Scan<'a>>) -> Result<(), Refusal> {
    let (file, release) = scan.into().plain();
    calls::judge(file, release).result()
}

fn part(file: &[u8], answer: Answer<Span>) -> Result<&[u8], Refusal> {
    let span = answer.result()?;
    let bytes = span.range().and_then(|range| file.get(range));
    Ok(bytes.expect("a part lies in the file"))
}

/// The pixels of a tile, the very bytes of the lent file; `entry` counts the
/// entries of the sub-block directory from 0. They are those of all of its layers,
/// one behind the other: [`Tile::layer_pixels`] says where each lies.
///
/// Refusals: those of [`judge`]; 24 where there is no such entry.
pub fn tile_pixels<'a>(scan: impl Into<Scan<'a>>, entry: u64) -> Result<&'a [u8], Refusal> {
    let (file, release) = scan.into().plain();
    part(file, calls::tile_pixels(file, release, entry))
}

/// The metadata of a tile's sub-block, the very bytes of the lent file.
///
/// Refusals: those of [`judge`]; 24 where there is no such entry.
pub fn tile_metadata<'a>(scan: impl Into<Scan<'a>>, entry: u64) -> Result<&'a [u8], Refusal> {
    let (file, release) = scan.into().plain();
    part(file, calls::tile_metadata(file, release, entry))
}

/// The attachment of a tile's sub-block, the very bytes of the lent file.
///
/// Refusals: those of [`judge`]; 24 where there is no such entry.
pub fn tile_attachment<'a>(scan: impl Into<Scan<'a>>, entry: u64) -> Result<&'a [u8], Refusal> {
    let (file, release) = scan.into().plain();
    part(file, calls::tile_attachment(file, release, entry))
}

/// The data of an attachment, the very bytes of the lent file; `entry` counts
/// the entries of the attachment directory from 0.
///
/// Refusals: those of [`judge`]; 24 where there is no such entry.
pub fn attachment_data<'a>(scan: impl Into<Scan<'a>>, entry: u64) -> Result<&'a [u8], Refusal> {
    let (file, release) = scan.into().plain();
    part(file, calls::attachment_data(file, release, entry))
}

/// The common XML, the very bytes of the lent file; empty without a metadata
/// segment.
///
/// Refusals: those of [`judge`].
pub fn common_xml<'a>(scan: impl Into<Scan<'a>>) -> Result<&'a [u8], Refusal> {
    let (file, release) = scan.into().plain();
    part(file, calls::common_xml(file, release))
}

/// The attachment of the common XML, the very bytes of the lent file; empty
/// without a metadata segment.
///
/// Refusals: those of [`judge`].
pub fn common_attachment<'a>(scan: impl Into<Scan<'a>>) -> Result<&'a [u8], Refusal> {
    let (file, release) = scan.into().plain();
    part(file, calls::common_attachment(file, release))
}

/// The record of a tile.
///
/// Refusals: those of [`judge`]; 24 where there is no such entry.
pub fn tile<'a>(scan: impl Into<Scan<'a>>, entry: u64) -> Result<Tile, Refusal> {
    let (file, release) = scan.into().plain();
    let mut record = TileRecord::default();
    calls::tile(file, release, entry, &mut record).result()?;
    Ok(record.named().expect("an accepted file has listed types"))
}

/// The record of a tile's dimension, counted from 0 as the entry has them.
///
/// Refusals: those of [`judge`]; 24 where there is no such entry, or it has no
/// dimension of that number.
pub fn dimension<'a>(
    scan: impl Into<Scan<'a>>,
    entry: u64,
    dimension: u64,
) -> Result<Dimension, Refusal> {
    let (file, release) = scan.into().plain();
    let record = calls::dimension(file, release, entry, dimension).result()?;
    Ok(record.named())
}

/// The figures of a file of any size.
///
/// Refusals: those of [`judge`].
pub fn summary<'a>(scan: impl Into<Scan<'a>>) -> Result<Summary, Refusal> {
    let (file, release) = scan.into().plain();
    let answer = calls::summary(file, release);
    answer.result().map(|figures| figures.named())
}

/// The listing: lines of plain ASCII text, each ended by a newline.
///
/// Refuses nothing: a refusal is in the text, those of [`judge`], and 30
/// before them where the file has over 65,536 bytes.
pub fn list<'a>(scan: impl Into<Scan<'a>>) -> String {
    let (file, release) = scan.into().plain();
    let text = calls::list(file, release);
    let lines = &text.bytes[..text.length as usize];
    lines.iter().copied().map(char::from).collect()
}
