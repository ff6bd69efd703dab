//! Content beside the section of a chunk container, at every place where it may stand.

use reference::declares_container;

/// What stands before the content, and behind it.
const PLACES: [[&str; 2]; 6] = [
    ["", "<METADATA><AttachmentSchema><DataFormat>CHUNKCONTAINER</DataFormat></AttachmentSchema></METADATA>"],
    ["<METADATA>", "<AttachmentSchema><DataFormat>CHUNKCONTAINER</DataFormat></AttachmentSchema></METADATA>"],
    ["<METADATA><AttachmentSchema>", "<DataFormat>CHUNKCONTAINER</DataFormat></AttachmentSchema></METADATA>"],
    ["<METADATA><AttachmentSchema><DataFormat>CHUNKCONTAINER</DataFormat>", "</AttachmentSchema></METADATA>"],
    ["<METADATA><AttachmentSchema><DataFormat>CHUNKCONTAINER</DataFormat></AttachmentSchema>", "</METADATA>"],
    ["<METADATA><AttachmentSchema><DataFormat>CHUNKCONTAINER</DataFormat></AttachmentSchema></METADATA>", ""],
];

/// Each reads and nests, so that the section beside it declares a container.
#[track_caller]
pub fn read_beside(all: &[&[u8]]) {
    all.iter().for_each(|content| check(content, true));
}

/// Each spoils the metadata, which declare nothing.
#[track_caller]
pub fn spoil(all: &[&[u8]]) {
    all.iter().for_each(|content| check(content, false));
}

#[track_caller]
fn check(content: &[u8], is_read: bool) {
    for [before, behind] in PLACES {
        let metadata = [before.as_bytes(), content, behind.as_bytes()].concat();
        let shown = metadata.escape_ascii();
        assert_eq!(declares_container(&metadata), is_read, "{shown}");
    }
}
