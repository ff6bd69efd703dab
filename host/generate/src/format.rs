//! The format's fixed strings and tables, written here a second time: a slip
//! in one of the two, reference or generator, then shows as a difference.

/// What a segment is.
#[derive(Clone, Copy, Debug, PartialEq, Eq)]
pub enum Kind {
    /// The file segment.
    File,
    /// The sub-block directory.
    Directory,
    /// A sub-block.
    SubBlock,
    /// The metadata segment.
    Metadata,
    /// An attachment.
    Attachment,
    /// The attachment directory.
    AttachmentDirectory,
    /// A segment that is no longer in use.
    Deleted,
}

impl Kind {
    /// All kinds.
    pub const ALL: [Kind; 7] = [
        Kind::File,
        Kind::Directory,
        Kind::SubBlock,
        Kind::Metadata,
        Kind::Attachment,
        Kind::AttachmentDirectory,
        Kind::Deleted,
    ];

    /// The name in the header.
    pub fn name(self) -> &'static [u8; 16] {
        match self {
            Kind::File => b"ZISRAWFILE\0\0\0\0\0\0",
            Kind::Directory => b"ZISRAWDIRECTORY\0",
            Kind::SubBlock => b"ZISRAWSUBBLOCK\0\0",
            Kind::Metadata => b"ZISRAWMETADATA\0\0",
            Kind::Attachment => b"ZISRAWATTACH\0\0\0\0",
            Kind::AttachmentDirectory => b"ZISRAWATTDIR\0\0\0\0",
            Kind::Deleted => b"DELETED\0\0\0\0\0\0\0\0\0",
        }
    }
}

/// The listed pixel types with their bytes a pixel.
pub const PIXEL_TYPES: [(i32, usize); 9] = [
    (0, 1),
    (1, 2),
    (2, 4),
    (3, 3),
    (4, 6),
    (8, 12),
    (9, 4),
    (10, 8),
    (11, 24),
];

/// Bytes a pixel of a listed type.
pub fn bytes_a_pixel(pixel_type: i32) -> usize {
    let listed = PIXEL_TYPES.iter().find(|t| t.0 == pixel_type);
    listed.expect("a listed pixel type").1
}

/// Metadata that declare the attachment a chunk container, and nothing else.
pub const SECTION: &[u8] = b"<METADATA><AttachmentSchema><DataFormat>CHUNKCONTAINER</DataFormat>\
    </AttachmentSchema></METADATA>";

/// What made an attachment a chunk container by paper 01 alone, wherever it stood.
pub const MARKER: &[u8] = b"<DataFormat>CHUNKCONTAINER</DataFormat>";

/// The mask GUID as it is stored.
pub const MASK_GUID: [u8; 16] =
    *b"\x67\xEA\xE3\xCB\xFC\x5B\x2B\x49\xA1\x6A\xEC\xE3\x78\x03\x14\x48";

/// The mask GUID in the order in which it is printed, which is another kind of chunk.
pub const PRINTED_GUID: [u8; 16] =
    *b"\xCB\xE3\xEA\x67\x5B\xFC\x49\x2B\xA1\x6A\xEC\xE3\x78\x03\x14\x48";
