//! Attachments: what their entries say, and where their data lie.

use crate::calls::{self, AttachmentRecord};
use crate::calls::{ATTACHMENT_FILE_TYPE, ATTACHMENT_GUID, ATTACHMENT_NAME};
use crate::reader::summary;
use crate::refusal::Refusal;
use crate::scan::Scan;
use std::ops::Range;

/// The record of an attachment.
#[derive(Clone, Debug, PartialEq, Eq)]
pub struct Attachment {
    /// The number of its entry, from 0.
    pub entry: u64,
    /// The content GUID, its bytes as they stand in the file.
    pub guid: [u8; ATTACHMENT_GUID],
    /// The file type, any bytes; mostly letters, and zeros behind them.
    pub file_type: [u8; ATTACHMENT_FILE_TYPE],
    /// The name's bytes: it ends at the first zero byte, and any bytes may follow.
    pub name: [u8; ATTACHMENT_NAME],
    /// The offsets of its data.
    pub data: Range<usize>,
}

impl Attachment {
    /// The GUID as it is printed: `{00112233-4455-6677-8899-AABBCCDDEEFF}`. The
    /// first three groups are numbers, whose low byte comes first in the file.
    pub fn guid_text(&self) -> String {
        let [a, b, c, d, e, f, g, h, rest @ ..] = self.guid;
        let printed = [d, c, b, a, f, e, h, g].into_iter().chain(rest);
        let mut text = String::from("{");
        for (k, byte) in printed.enumerate() {
            if [4, 6, 8, 10].contains(&k) {
                text.push('-');
            }
            text += &format!("{byte:02X}");
        }
        text + "}"
    }

    /// The file type up to its first zero byte, or all of it; what is no UTF-8 is
    /// replaced by U+FFFD.
    pub fn file_type_text(&self) -> String {
        text(&self.file_type)
    }

    /// The name up to its first zero byte; what is no UTF-8 is replaced by U+FFFD.
    pub fn name_text(&self) -> String {
        text(&self.name)
    }
}

fn text(bytes: &[u8]) -> String {
    let end = bytes.iter().position(|byte| *byte == 0);
    String::from_utf8_lossy(&bytes[..end.unwrap_or(bytes.len())]).into_owned()
}

/// The record of an attachment; `entry` counts the entries of the attachment
/// directory from 0.
///
/// Refusals: those of [`judge`](crate::judge); 24 where there is no such entry.
pub fn attachment<'a>(scan: impl Into<Scan<'a>>, entry: u64) -> Result<Attachment, Refusal> {
    let (file, release) = scan.into().plain();
    let mut record = AttachmentRecord {
        guid: [0; ATTACHMENT_GUID],
        file_type: [0; ATTACHMENT_FILE_TYPE],
        name: [0; ATTACHMENT_NAME],
    };
    let span = calls::attachment(file, release, entry, &mut record).result()?;
    Ok(Attachment {
        entry,
        guid: record.guid,
        file_type: record.file_type,
        name: record.name,
        data: span.range().expect("a part lies in the file"),
    })
}

/// The records of all attachments, in the order of their directory; the file is
/// judged for each.
///
/// Refusals: those of [`judge`](crate::judge).
pub fn attachments<'a>(scan: impl Into<Scan<'a>>) -> Result<Vec<Attachment>, Refusal> {
    let scan = scan.into();
    let count = summary(scan)?.attachments;
    (0..count).map(|entry| attachment(scan, entry)).collect()
}

#[cfg(test)]
mod tests {
    use super::*;

    fn of(file_type: &[u8; 8], start_of_name: &[u8]) -> Attachment {
        let mut name = [b'x'; ATTACHMENT_NAME];
        name[..start_of_name.len()].copy_from_slice(start_of_name);
        Attachment {
            entry: 0,
            guid: std::array::from_fn(|k| 0x10 * (k as u8 % 10) + k as u8),
            file_type: *file_type,
            name,
            data: 0..0,
        }
    }

    #[test]
    fn a_guid_has_three_groups_from_the_low_byte_on() {
        let printed = "{33221100-5544-7766-8899-0A1B2C3D4E5F}";
        assert_eq!(of(b"CZI\0\0\0\0\0", b"\0").guid_text(), printed);
    }

    #[test]
    fn texts_end_at_a_zero_byte() {
        let one = of(b"JPG\0\0JP2", b"Label\0more\0");
        assert_eq!(
            (one.file_type_text(), one.name_text()),
            ("JPG".into(), "Label".into())
        );
        let other = of(b"ABCDEFGH", b"\xFF\xC3\xA9\0");
        assert_eq!(other.file_type_text(), "ABCDEFGH");
        assert_eq!(other.name_text(), "\u{FFFD}\u{E9}");
        assert_eq!(of(b"\0\0\0\0\0\0\0\0", b"\0").name_text(), "");
    }
}
