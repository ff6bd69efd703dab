//! Files of which the clean file is about 2^40 bytes long. They are zero bytes but for
//! their fixed parts, so that nobody has to hold them.

use crate::format::Kind;
use crate::segment::HEADER;

/// No clean file is longer.
const LONGEST: usize = 1 << 40;

/// The file segment: header, 512 bytes of content.
const CLEAN_HEAD: usize = HEADER + 512;

/// An accepted file that is mostly zero bytes.
pub struct Huge {
    /// What its clean file is like; begins with 36 where it is refused so.
    pub name: &'static str,
    shape: fn() -> Shape,
}

/// How such a file is laid.
pub struct Sparse {
    /// What is not zero, by offset, in rising order.
    pub parts: Vec<(usize, Vec<u8>)>,
    /// The file's length.
    pub length: usize,
    /// The clean file's length.
    pub repacked: usize,
}

impl Huge {
    /// The file.
    pub fn lay(&self) -> Sparse {
        (self.shape)().lay()
    }

    /// Is the clean file over 2^40 bytes?
    pub fn is_refused(&self) -> bool {
        self.name.starts_with("36")
    }
}

/// All of them.
pub const HUGE: &[Huge] = &[
    Huge {
        name: "2^40 bytes: 4,096 sub-blocks of one",
        shape: || Shape::filling(4_096, 0),
    },
    Huge {
        name: "36: 2^40 + 32 bytes, 4,096 sub-blocks of one",
        shape: || Shape::filling(4_096, 0).more_xml(),
    },
    Huge {
        name: "36: 4,096 sub-blocks of one, each with a byte too many",
        shape: || Shape::filling(4_096, 0).longer(1, 0),
    },
    Huge {
        name: "under 2^40 bytes: 4,096 sub-blocks of one",
        shape: || Shape::filling(4_096, 0).shorter(32),
    },
    Huge {
        name: "2^40 bytes: 4,096 attachments of one",
        shape: || Shape::filling(0, 4_096),
    },
    Huge {
        name: "36: 2^40 + 32 bytes, 4,096 attachments of one",
        shape: || Shape::filling(0, 4_096).more_xml(),
    },
    Huge {
        name: "36: 4,096 attachments of one, each with a byte too many",
        shape: || Shape::filling(0, 4_096).longer(0, 1),
    },
    Huge {
        name: "2^40 bytes: as many sub-blocks as attachments",
        shape: || Shape::filling(2_048, 2_048),
    },
    Huge {
        name: "36: as many sub-blocks as attachments, these with a byte too many",
        shape: || Shape::filling(2_048, 2_048).longer(0, 1),
    },
    Huge {
        name: "2^40 bytes: one sub-block",
        shape: || Shape::filling(1, 0),
    },
    Huge {
        name: "36: 2^40 + 32 bytes, one sub-block",
        shape: || Shape::filling(1, 0).longer(1, 0),
    },
    // The file segment is allocated 96 bytes, and has 512 in the clean file.
    Huge {
        name: "36: a file of 2^40 bytes whose clean file is longer",
        shape: || Shape::filling(1, 0).longer(512 - 96, 0),
    },
    // In 32 bits, and in 40, the sub-blocks would come to nothing.
    Huge {
        name: "36: 4,096 sub-blocks of 2^36 bytes",
        shape: || Shape {
            block: (1 << 36) - HEADER,
            ..Shape::filling(4_096, 0)
        },
    },
];

/// Two directories that list one sub-block and one attachment again and again, and XML.
#[derive(Clone, Copy)]
struct Shape {
    entries: usize,
    attachments: usize,
    /// The length of the sub-block's content, and of the attachment's.
    block: usize,
    data: usize,
    /// The length of the common XML.
    xml: usize,
}

/// A segment's length when its content has that one.
fn whole(content: usize) -> usize {
    HEADER + content.next_multiple_of(32)
}

impl Shape {
    /// A clean file of 2^40 bytes exactly, all its segments without padding. There are
    /// 1, 2, 4 or so sub-blocks and attachments together.
    fn filling(entries: usize, attachments: usize) -> Shape {
        let count = entries + attachments;
        let mut shape = Shape {
            entries,
            attachments,
            block: 0,
            data: 0,
            xml: 0,
        };
        // The XML makes the rest of the file a multiple of what all of them grow by.
        let rest = shape.clean_rest().next_multiple_of(32 * count);
        shape.xml = rest - shape.clean_rest();
        let each = (LONGEST - rest) / count;
        shape.block = each - HEADER;
        shape.data = each - HEADER;
        shape
    }

    /// Another byte of XML, which takes another 32.
    fn more_xml(self) -> Shape {
        let xml = self.xml + 1;
        Shape { xml, ..self }
    }

    /// A longer sub-block and a longer attachment.
    fn longer(self, block: usize, data: usize) -> Shape {
        Shape {
            block: self.block + block,
            data: self.data + data,
            ..self
        }
    }

    /// A shorter sub-block.
    fn shorter(self, by: usize) -> Shape {
        let block = self.block - by;
        Shape { block, ..self }
    }

    /// The length of the clean file but for its sub-blocks and attachments.
    fn clean_rest(&self) -> usize {
        let directory = whole(128 + 72 * self.entries);
        let listed = match self.attachments {
            0 => 0,
            count => whole(256 + 128 * count),
        };
        CLEAN_HEAD + directory + whole(256 + self.xml) + listed
    }

    /// The file, each segment of it once.
    fn lay(&self) -> Sparse {
        let mut file = Laid::default();
        let directory = HEADER + 96;
        let metadata = directory + whole(128 + 72 * self.entries);
        let sub_block = metadata + whole(256 + self.xml);
        let listed = match self.entries {
            0 => sub_block,
            _ => sub_block + whole(self.block),
        };
        let attachment = listed + whole(256 + 128 * self.attachments);

        let mut head = vec![0; 96];
        head[0] = 1;
        put(&mut head, 52, directory);
        put(&mut head, 60, metadata);
        if self.attachments > 0 {
            put(&mut head, 72, listed);
        }
        file.add(Kind::File, head, 96);

        let (entry, sizes) = self.sub_block(sub_block);
        let mut content = (self.entries as i32).to_le_bytes().to_vec();
        content.resize(128, 0);
        content.extend(entry.repeat(self.entries));
        let length = content.len();
        file.add(Kind::Directory, content, length);
        let xml = (self.xml as i32).to_le_bytes().to_vec();
        file.add(Kind::Metadata, xml, 256 + self.xml);
        if self.entries > 0 {
            let content = [sizes, entry].concat();
            file.add(Kind::SubBlock, content, self.block);
        }
        if self.attachments > 0 {
            let mut entry = b"A1".to_vec();
            entry.resize(128, 0);
            put(&mut entry, 12, attachment);
            let mut content = (self.attachments as i32).to_le_bytes().to_vec();
            content.resize(256, 0);
            content.extend(entry.repeat(self.attachments));
            let length = content.len();
            file.add(Kind::AttachmentDirectory, content, length);
            let size = ((self.data - 256) as i32).to_le_bytes();
            let content = [&size[..], &[0; 12], &entry].concat();
            file.add(Kind::Attachment, content, self.data);
        }
        let sub_blocks = self.entries * whole(self.block);
        let attachments = self.attachments * whole(self.data);
        Sparse {
            parts: file.parts,
            length: file.length,
            repacked: self.clean_rest() + sub_blocks + attachments,
        }
    }

    /// The entry of the sub-block at that position, and the sizes that stand before its
    /// copy. The pixels fill the sub-block but for less than a line, and an attachment of
    /// plain bytes the rest.
    fn sub_block(&self, position: usize) -> (Vec<u8>, Vec<u8>) {
        let held = self.block.saturating_sub(256);
        let width = held.isqrt();
        let height = held.checked_div(width).unwrap_or(0);
        let mut sizes = 0i32.to_le_bytes().to_vec();
        sizes.extend(((held - width * height) as i32).to_le_bytes());
        sizes.extend(((width * height) as i64).to_le_bytes());
        let mut entry = b"DV".to_vec();
        entry.resize(32, 0);
        put(&mut entry, 6, position);
        entry[28] = 2;
        for (letter, size) in [(b'X', width), (b'Y', height)] {
            entry.extend([letter, 0, 0, 0, 0, 0, 0, 0]);
            entry.extend((size as i32).to_le_bytes());
            entry.extend([0; 8]);
        }
        (entry, sizes)
    }
}

/// Segments one after the other, of which only the first bytes are not zero.
#[derive(Default)]
struct Laid {
    parts: Vec<(usize, Vec<u8>)>,
    length: usize,
}

impl Laid {
    /// A segment whose content begins so and has that length.
    fn add(&mut self, kind: Kind, content: Vec<u8>, length: usize) {
        let mut part = kind.name().to_vec();
        part.extend((length.next_multiple_of(32) as i64).to_le_bytes());
        part.extend((length as i64).to_le_bytes());
        part.extend(content);
        self.parts.push((self.length, part));
        self.length += whole(length);
    }
}

fn put(content: &mut [u8], at: usize, position: usize) {
    content[at..at + 8].copy_from_slice(&(position as i64).to_le_bytes());
}

#[cfg(test)]
mod tests {
    use super::*;

    #[test]
    fn clean_files_are_as_long_as_their_names_say() {
        for huge in HUGE {
            let Sparse {
                parts,
                length,
                repacked,
            } = huge.lay();
            let name = huge.name;
            assert_eq!(repacked > LONGEST, huge.is_refused(), "{name}");
            assert!(length <= LONGEST, "{name}");
            if name.contains("2^40 + 32 bytes") {
                assert_eq!(repacked, LONGEST + 32, "{name}");
            } else if name.starts_with("2^40") {
                assert_eq!(repacked, LONGEST, "{name}");
            }
            if name.contains("a file of 2^40 bytes") {
                assert_eq!(length, LONGEST, "{name}");
            }
            assert!(parts.is_sorted_by_key(|part| part.0), "{name}");
        }
    }
}
