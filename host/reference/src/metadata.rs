//! The metadata segment, with the common XML: refusal 10.

use crate::bytes::{int, View};
use crate::refusal::{refuse_if, Refusal};
use crate::segment::Segment;

/// The common XML and its attachment; both empty, at 0, without a metadata segment.
#[derive(Default)]
pub(crate) struct Metadata {
    pub xml: View,
    pub attachment: View,
}

/// 10: the metadata segment's sizes negative, or 256 plus both over its room.
pub(crate) fn read_metadata(file: &[u8], segment: &Segment) -> Result<Metadata, Refusal> {
    // Neither size makes up for a fixed part that does not fit.
    refuse_if(256 > segment.room, 10, segment.position)?;
    let xml_size = int(file, segment.content());
    let attachment_size = int(file, segment.content() + 4);
    refuse_if(xml_size < 0 || attachment_size < 0, 10, segment.position)?;
    let xml = View {
        start: segment.content() + 256,
        length: xml_size as u64,
    };
    let attachment = View {
        start: xml.end(),
        length: attachment_size as u64,
    };
    let room_end = segment.content() + segment.room;
    refuse_if(attachment.end() > room_end, 10, segment.position)?;
    Ok(Metadata { xml, attachment })
}
