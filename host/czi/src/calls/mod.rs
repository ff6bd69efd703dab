//! The functions of `include/czi.h` one for one: what stands behind an
//! out-pointer is answered by value, the refusal's number and place with it. A
//! release is its number there: [`RELEASE_1_02`], or any other for 1.2.
//!
//! Each out-object holds a pattern before the call, so that one which the
//! library did not write would be seen.

#![allow(unsafe_code)]

mod compose;
mod quote;
mod repack;
mod tables;

use crate::ffi;
use crate::refusal::Refusal;

pub use compose::{chosen, compose_plain, compose_quick, ChosenCounts, Counted, Plain};
pub use quote::{quote, Quoted};
pub use repack::{repack, repack_size};
pub use tables::{dimensions, tiles};

/// What stands behind the out-pointers before a call.
const UNWRITTEN: u64 = 0xA5A5_A5A5_A5A5_A5A5;
const UNWRITTEN_INT: i32 = 0x5A5A_5A5A;

/// The number of release 1.2.
pub const RELEASE_1_2: u32 = 0;

/// The number of release 1.02.
pub const RELEASE_1_02: u32 = 1;

/// The length of the listing's buffer.
pub const TEXT: usize = 192;

/// The least length of a quote sheet's buffer; no sheet's text is longer.
pub const SHEET_MIN: usize = 49;

/// How many numbers a tile record has.
pub const TILE_NUMBERS: usize = 24;

/// How many starts a tile record has: of X, Y, M and its layers.
pub const TILE_STARTS: usize = 4;

/// How many numbers a dimension has where all are asked for: the entry's number,
/// letter, size, the bits of StartCoordinate and the stored size.
pub const DIMENSION_NUMBERS: usize = 5;

/// How many bytes an attachment's GUID has.
pub const ATTACHMENT_GUID: usize = 16;

/// How many bytes an attachment's file type has.
pub const ATTACHMENT_FILE_TYPE: usize = 8;

/// How many bytes an attachment's name has.
pub const ATTACHMENT_NAME: usize = 80;

/// An answer: the refusal's number and place, 0 where there is none, and the rest.
#[derive(Clone, Copy, Debug, PartialEq, Eq)]
pub struct Answer<T> {
    /// The number of the refusal; 0 where there is none.
    pub number: u32,
    /// The place of the refusal; 0 where there is none.
    pub place: u64,
    /// The rest of the answer.
    pub value: T,
}

impl<T> Answer<T> {
    /// The rest of the answer, or the refusal.
    pub fn result(self) -> Result<T, Refusal> {
        match self.number {
            0 => Ok(self.value),
            number => Err(Refusal::new(number, self.place)),
        }
    }
}

/// A part of the file; 0 and 0 where refused.
#[derive(Clone, Copy, Debug, PartialEq, Eq)]
pub struct Span {
    /// The offset of its first byte.
    pub start: u64,
    /// The number of its bytes.
    pub length: u64,
}

/// A tile record, in the order of the header.
#[derive(Clone, Copy, Debug, Default, PartialEq, Eq)]
pub struct TileRecord {
    /// The numbers.
    pub numbers: [u64; TILE_NUMBERS],
    /// The starts of X, Y, M and its layers.
    pub starts: [i32; TILE_STARTS],
}

/// A dimension record; all are 0 where refused.
#[derive(Clone, Copy, Debug, PartialEq, Eq)]
pub struct DimensionRecord {
    /// The letter, 65 to 90.
    pub letter: u64,
    /// Start.
    pub start: i32,
    /// Size.
    pub size: u64,
    /// The bits of StartCoordinate.
    pub coordinate_bits: u32,
    /// StoredSize, where 0 is read as Size.
    pub stored: u64,
}

/// The arrays of an attachment record.
#[derive(Clone, Copy, Debug, PartialEq, Eq)]
pub struct AttachmentRecord {
    /// The content GUID, its bytes as they stand in the file.
    pub guid: [u8; ATTACHMENT_GUID],
    /// The file type.
    pub file_type: [u8; ATTACHMENT_FILE_TYPE],
    /// The name, which ends at its first zero byte.
    pub name: [u8; ATTACHMENT_NAME],
}

/// The figures of a file; all are 0 where refused.
#[derive(Clone, Copy, Debug, PartialEq, Eq)]
pub struct Figures {
    /// The file's length.
    pub bytes: u64,
    /// The walked segments.
    pub segments: u64,
    /// The entries of the sub-block directory.
    pub tiles: u64,
    /// The entries of the attachment directory.
    pub attachments: u64,
    /// 1 where there is a box, else 0, and the corners too.
    pub has_box: u64,
    /// Left, top, right and bottom.
    pub corners: [i32; 4],
}

/// The text of a listing; the bytes past its length are 0.
#[derive(Clone, Copy, Debug, PartialEq, Eq)]
pub struct Text {
    /// How many bytes the text has.
    pub length: u64,
    /// The text and what is behind it.
    pub bytes: [u8; TEXT],
}

/// The verdict on a file.
pub fn judge(file: &[u8], release: u32) -> Answer<()> {
    let mut place = UNWRITTEN;
    // SAFETY: file is so many bytes, place one object of its type.
    let number = unsafe { ffi::czi_judge(file.as_ptr(), file.len(), release, &mut place) };
    Answer {
        number,
        place,
        value: (),
    }
}

type Numbered =
    unsafe extern "C" fn(*const u8, usize, u32, u64, *mut u64, *mut u64, *mut u64) -> u32;
type Common = unsafe extern "C" fn(*const u8, usize, u32, *mut u64, *mut u64, *mut u64) -> u32;

fn spanned(ask: impl FnOnce(*mut u64, *mut u64, *mut u64) -> u32) -> Answer<Span> {
    let (mut place, mut start, mut length) = (UNWRITTEN, UNWRITTEN, UNWRITTEN);
    let number = ask(&mut place, &mut start, &mut length);
    Answer {
        number,
        place,
        value: Span { start, length },
    }
}

fn numbered(function: Numbered, file: &[u8], release: u32, entry: u64) -> Answer<Span> {
    let (bytes, count) = (file.as_ptr(), file.len());
    // SAFETY: file is so many bytes, the others one object each.
    spanned(|place, start, length| unsafe {
        function(bytes, count, release, entry, place, start, length)
    })
}

fn common(function: Common, file: &[u8], release: u32) -> Answer<Span> {
    // SAFETY: file is so many bytes, the others one object each.
    spanned(|place, start, length| unsafe {
        function(file.as_ptr(), file.len(), release, place, start, length)
    })
}

/// The pixels of a tile, of all of its layers; 24 where there is no such entry.
pub fn tile_pixels(file: &[u8], release: u32, entry: u64) -> Answer<Span> {
    numbered(ffi::czi_tile_pixels, file, release, entry)
}

/// The metadata of a tile's sub-block; 24 where there is no such entry.
pub fn tile_metadata(file: &[u8], release: u32, entry: u64) -> Answer<Span> {
    numbered(ffi::czi_tile_metadata, file, release, entry)
}

/// The attachment of a tile's sub-block; 24 where there is no such entry.
pub fn tile_attachment(file: &[u8], release: u32, entry: u64) -> Answer<Span> {
    numbered(ffi::czi_tile_attachment, file, release, entry)
}

/// The data of an attachment, counted in the attachment directory; 24 where
/// there is no such entry.
pub fn attachment_data(file: &[u8], release: u32, entry: u64) -> Answer<Span> {
    numbered(ffi::czi_attachment_data, file, release, entry)
}

/// The record of an attachment, into the one that is lent, which stays as it was
/// where refused, and where its data lie; 24 where there is no such entry.
pub fn attachment(
    file: &[u8],
    release: u32,
    entry: u64,
    record: &mut AttachmentRecord,
) -> Answer<Span> {
    // SAFETY: file is so many bytes, the arrays are to as many as the header says,
    // the others one object each.
    spanned(|place, start, length| unsafe {
        ffi::czi_attachment(
            file.as_ptr(),
            file.len(),
            release,
            entry,
            place,
            record.guid.as_mut_ptr(),
            record.file_type.as_mut_ptr(),
            record.name.as_mut_ptr(),
            start,
            length,
        )
    })
}

/// The common XML; empty without a metadata segment.
pub fn common_xml(file: &[u8], release: u32) -> Answer<Span> {
    common(ffi::czi_common_xml, file, release)
}

/// The attachment of the common XML; empty without a metadata segment.
pub fn common_attachment(file: &[u8], release: u32) -> Answer<Span> {
    common(ffi::czi_common_attachment, file, release)
}

/// The record of a tile, into the one that is lent, which stays as it was where
/// refused; 24 where there is no such entry.
pub fn tile(file: &[u8], release: u32, entry: u64, record: &mut TileRecord) -> Answer<()> {
    let mut place = UNWRITTEN;
    // SAFETY: file is so many bytes, numbers and starts are to as many as the header says.
    let number = unsafe {
        ffi::czi_tile(
            file.as_ptr(),
            file.len(),
            release,
            entry,
            &mut place,
            record.numbers.as_mut_ptr(),
            record.starts.as_mut_ptr(),
        )
    };
    let value = ();
    Answer {
        number,
        place,
        value,
    }
}

/// The record of a tile's dimension; 24 where there is no such entry or dimension.
pub fn dimension(file: &[u8], release: u32, entry: u64, dimension: u64) -> Answer<DimensionRecord> {
    let mut place = UNWRITTEN;
    let mut value = DimensionRecord {
        letter: UNWRITTEN,
        start: UNWRITTEN_INT,
        size: UNWRITTEN,
        coordinate_bits: UNWRITTEN as u32,
        stored: UNWRITTEN,
    };
    // SAFETY: file is so many bytes, the others are one object each.
    let number = unsafe {
        ffi::czi_dimension(
            file.as_ptr(),
            file.len(),
            release,
            entry,
            dimension,
            &mut place,
            &mut value.letter,
            &mut value.start,
            &mut value.size,
            &mut value.coordinate_bits,
            &mut value.stored,
        )
    };
    Answer {
        number,
        place,
        value,
    }
}

/// The figures of a file of any size.
pub fn summary(file: &[u8], release: u32) -> Answer<Figures> {
    let mut place = UNWRITTEN;
    let mut value = Figures {
        bytes: UNWRITTEN,
        segments: UNWRITTEN,
        tiles: UNWRITTEN,
        attachments: UNWRITTEN,
        has_box: UNWRITTEN,
        corners: [UNWRITTEN_INT; 4],
    };
    let [left, top, right, bottom] = &mut value.corners;
    // SAFETY: file is so many bytes, the others are one object each.
    let number = unsafe {
        ffi::czi_summary(
            file.as_ptr(),
            file.len(),
            release,
            &mut place,
            &mut value.bytes,
            &mut value.segments,
            &mut value.tiles,
            &mut value.attachments,
            &mut value.has_box,
            left,
            top,
            right,
            bottom,
        )
    };
    Answer {
        number,
        place,
        value,
    }
}

/// The listing's text; a refusal is in the text, 30 too.
pub fn list(file: &[u8], release: u32) -> Text {
    let mut bytes = [UNWRITTEN as u8; TEXT];
    // SAFETY: file is so many bytes, text to as many as the header says.
    let length = unsafe { ffi::czi_list(file.as_ptr(), file.len(), release, bytes.as_mut_ptr()) };
    Text { length, bytes }
}

/// The number of the library's interface, as [`VERSION`](crate::VERSION) is of this crate.
pub fn version() -> u32 {
    // SAFETY: it takes nothing.
    unsafe { ffi::czi_version() }
}

/// The bytes of a pixel of that type; 0 for one that is not listed.
pub fn pixel_bytes(pixel_type: u32) -> u32 {
    // SAFETY: it takes a number, any number.
    unsafe { ffi::czi_pixel_bytes(pixel_type) }
}
