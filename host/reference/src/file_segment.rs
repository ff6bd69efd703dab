//! The file segment's fields: refusals 6, 7, 8 and 9.

use crate::bytes::{int, long};
use crate::refusal::{refuse_if, Refusal};
use crate::segment::{named, Kind, Segment, HEADER};

/// The segments that the file segment names.
pub(crate) struct Named {
    pub directory: Segment,
    pub metadata: Option<Segment>,
    pub attachment_directory: Option<Segment>,
}

/// 6, 7 and 8, then 9 in field order.
pub(crate) fn read_file_segment(file: &[u8], segments: &[Segment]) -> Result<Named, Refusal> {
    // 6: Major not 1. 7: a FilePart not 0. 8: UpdatePending not 0.
    refuse_if(int(file, HEADER) != 1, 6, 0)?;
    refuse_if(int(file, HEADER + 48) != 0, 7, 0)?;
    refuse_if(int(file, HEADER + 68) != 0, 8, 0)?;
    // 9: a position names no walked segment of its kind (metadata, attachment
    // directory: 0 means none).
    let required = |offset, kind| {
        let field = HEADER + offset;
        named(segments, long(file, field), kind).ok_or(Refusal::new(9, field))
    };
    let optional = |offset, kind| {
        if long(file, HEADER + offset) == 0 {
            Ok(None)
        } else {
            required(offset, kind).map(Some)
        }
    };
    Ok(Named {
        directory: required(52, Kind::Directory)?,
        metadata: optional(60, Kind::Metadata)?,
        attachment_directory: optional(72, Kind::AttachmentDirectory)?,
    })
}
