//! Whether a sub-block's metadata declare its attachment a chunk container:
//! paper 02, Req 01, by recursive descent. An element reads its own start tag,
//! content and end tag; what doesn't read is an error that ends all of it.

/// The names of the section, from the outermost element inwards.
const METADATA: &[u8] = b"METADATA";
const ATTACHMENT_SCHEMA: &[u8] = b"AttachmentSchema";
const DATA_FORMAT: &[u8] = b"DataFormat";

/// What stands between the last tags.
const CHUNK_CONTAINER: &[u8] = b"CHUNKCONTAINER";

/// So many start tags may be open at once.
const MOST_OPEN: usize = 64;

/// The parts that are skipped, each from its opener to its closer.
const SKIPPED: [(&[u8], &[u8]); 3] = [(b"<!--", b"-->"), (b"<?", b"?>"), (b"<![CDATA[", b"]]>")];

/// Do the metadata declare a chunk container?
pub fn declares_container(metadata: &[u8]) -> bool {
    let mut reader = Reader {
        rest: metadata,
        open: 0,
        declares: false,
    };
    let is_read = reader.content(Within::Nothing).is_ok();
    // Content ends before an end tag too, and here no start tag is open.
    is_read && reader.rest.is_empty() && reader.declares
}

/// The metadata declare no container, whatever else stands in them.
struct Unreadable;

/// How far into the section the content at hand is.
#[derive(Clone, Copy, PartialEq)]
enum Within {
    /// No element is open.
    Nothing,
    /// An outermost METADATA.
    Metadata,
    /// An AttachmentSchema directly in it.
    AttachmentSchema,
    /// A DataFormat directly in that.
    DataFormat,
    /// An element that is no part of the section.
    Other,
}

impl Within {
    /// How far into it the content of an element of that name is.
    fn into(self, name: &[u8]) -> Within {
        match (self, name) {
            (Within::Nothing, METADATA) => Within::Metadata,
            (Within::Metadata, ATTACHMENT_SCHEMA) => Within::AttachmentSchema,
            (Within::AttachmentSchema, DATA_FORMAT) => Within::DataFormat,
            _ => Within::Other,
        }
    }
}

/// A start tag or an empty-element tag.
struct Tag<'a> {
    name: &'a [u8],
    is_empty: bool,
}

struct Reader<'a> {
    /// What is not read yet.
    rest: &'a [u8],
    /// So many start tags are open.
    open: usize,
    /// A section was read to its end.
    declares: bool,
}

impl<'a> Reader<'a> {
    /// Text, skipped parts and elements, up to an end tag or to the end of the metadata.
    fn content(&mut self, within: Within) -> Result<(), Unreadable> {
        loop {
            self.text();
            if self.rest.is_empty() || self.rest.starts_with(b"</") {
                return Ok(());
            }
            if !self.skip()? {
                self.element(within)?;
            }
        }
    }

    /// Text: whatever stands before the next `<`.
    fn text(&mut self) {
        while self.rest.first().is_some_and(|&byte| byte != b'<') {
            self.take(1);
        }
    }

    /// A comment, `<?` to `?>` or a character-data section, if one begins here.
    /// No closer overlaps its opener.
    fn skip(&mut self) -> Result<bool, Unreadable> {
        for (opener, closer) in SKIPPED {
            if self.rest.starts_with(opener) {
                self.take(opener.len());
                while !self.rest.starts_with(closer) {
                    self.byte()?;
                }
                self.take(closer.len());
                return Ok(true);
            }
        }
        Ok(false)
    }

    /// An element from its `<` on: an empty-element tag, or a start tag with its
    /// content and its end tag.
    fn element(&mut self, within: Within) -> Result<(), Unreadable> {
        let tag = self.start_tag()?;
        if tag.is_empty {
            return Ok(());
        }
        // Over 64 start tags open at once.
        if self.open == MOST_OPEN {
            return Err(Unreadable);
        }
        self.open += 1;
        let inner = within.into(tag.name);
        let from = self.rest;
        self.content(inner)?;
        let between = &from[..from.len() - self.rest.len()];
        // The metadata may end here, or with another name: both don't nest.
        if self.end_tag()? != tag.name {
            return Err(Unreadable);
        }
        self.open -= 1;
        if inner == Within::DataFormat && between == CHUNK_CONTAINER {
            self.declares = true;
        }
        Ok(())
    }

    /// `<`, the name, attributes, `>`. Quotes are respected here, behind the name.
    fn start_tag(&mut self) -> Result<Tag<'a>, Unreadable> {
        self.expect(b"<")?;
        let name = self.name()?;
        let mut before = 0;
        loop {
            let byte = self.byte()?;
            match byte {
                // Empty if `/` stands just before.
                b'>' => {
                    let is_empty = before == b'/';
                    return Ok(Tag { name, is_empty });
                }
                // `<` in a tag outside quotes.
                b'<' => return Err(Unreadable),
                b'"' | b'\'' => while self.byte()? != byte {},
                _ => {}
            }
            before = byte;
        }
    }

    /// `</`, the name, at most white space, `>`.
    fn end_tag(&mut self) -> Result<&'a [u8], Unreadable> {
        self.expect(b"</")?;
        let name = self.name()?;
        while self.rest.first().is_some_and(|&byte| is_white(byte)) {
            self.take(1);
        }
        self.expect(b">")?;
        Ok(name)
    }

    /// A tag's name, not empty nor begun with `!`, which ends before white space,
    /// `/` or `>`.
    fn name(&mut self) -> Result<&'a [u8], Unreadable> {
        let ends = |byte: &u8| is_white(*byte) || matches!(byte, b'/' | b'>');
        // Without an end the metadata break off in the tag.
        let length = self.rest.iter().position(ends).ok_or(Unreadable)?;
        let name = self.take(length);
        if name.is_empty() || name.starts_with(b"!") || name.contains(&b'<') {
            return Err(Unreadable);
        }
        Ok(name)
    }

    /// The next byte; none is left where the metadata break off.
    fn byte(&mut self) -> Result<u8, Unreadable> {
        let byte = *self.rest.first().ok_or(Unreadable)?;
        self.take(1);
        Ok(byte)
    }

    /// These bytes.
    fn expect(&mut self, bytes: &[u8]) -> Result<(), Unreadable> {
        if !self.rest.starts_with(bytes) {
            return Err(Unreadable);
        }
        self.take(bytes.len());
        Ok(())
    }

    /// The next so many bytes, which are there.
    fn take(&mut self, count: usize) -> &'a [u8] {
        let (taken, rest) = self.rest.split_at(count);
        self.rest = rest;
        taken
    }
}

fn is_white(byte: u8) -> bool {
    matches!(byte, 9 | 10 | 13 | 32)
}
