//! Metadata as they are planned: a tree, its bytes, and whether it declares a
//! chunk container, which is told off the tree.

/// So many start tags may be open at once.
pub const MOST_OPEN: usize = 64;

/// What stands in the section's last element.
pub const VALUE: &[u8] = b"CHUNKCONTAINER";

/// A piece of content.
#[derive(Clone, Debug)]
pub enum Node {
    /// Text.
    Text(Vec<u8>),
    /// What stands between `<!--` and `-->`.
    Comment(Vec<u8>),
    /// What stands between `<?` and `?>`.
    Instruction(Vec<u8>),
    /// What stands between `<![CDATA[` and `]]>`.
    CharacterData(Vec<u8>),
    /// An empty-element tag.
    Empty(Tag),
    /// A start tag, content and an end tag.
    Element(Element),
    /// Bytes that do not read, or do not nest.
    Spoilt(Vec<u8>),
}

/// A start tag or an empty-element tag.
#[derive(Clone, Debug)]
pub struct Tag {
    /// Its name.
    pub name: Vec<u8>,
    /// What stands behind the name. The first piece begins with white space or `/`.
    pub rest: Vec<Piece>,
}

/// A piece of what stands behind a tag's name.
#[derive(Clone, Debug)]
pub enum Piece {
    /// White space.
    White(Vec<u8>),
    /// Bytes outside quotes. A start tag does not end with one whose last byte is `/`.
    Bare(Vec<u8>),
    /// Bytes in quotes of that kind.
    Quoted(u8, Vec<u8>),
    /// `<` outside quotes.
    Spoilt(Vec<u8>),
}

/// An element with its content.
#[derive(Clone, Debug)]
pub struct Element {
    /// The start tag.
    pub tag: Tag,
    /// What stands in it.
    pub content: Vec<Node>,
    /// The end tag.
    pub end: End,
}

/// How an element ends.
#[derive(Clone, Debug)]
pub enum End {
    /// With an end tag that has this white space behind its name.
    White(Vec<u8>),
    /// With other bytes, or none.
    Spoilt(Vec<u8>),
}

impl Element {
    /// An element with nothing behind the names in its tags.
    pub fn new(name: &[u8], content: Vec<Node>) -> Element {
        Element {
            tag: Tag::new(name),
            content,
            end: End::White(Vec::new()),
        }
    }

    /// Is it of that name?
    pub fn is(&self, name: &[u8]) -> bool {
        self.tag.name == name
    }
}

impl Tag {
    /// A tag that is its name.
    pub fn new(name: &[u8]) -> Tag {
        Tag {
            name: name.to_vec(),
            rest: Vec::new(),
        }
    }
}

/// The bytes of some content.
pub fn encode(content: &[Node]) -> Vec<u8> {
    let mut bytes = Vec::new();
    for node in content {
        write_node(node, &mut bytes);
    }
    bytes
}

fn write_node(node: &Node, bytes: &mut Vec<u8>) {
    let mut skipped = |opener: &[u8], between: &[u8], closer: &[u8]| {
        bytes.extend([opener, between, closer].concat());
    };
    match node {
        Node::Text(text) | Node::Spoilt(text) => bytes.extend(text),
        Node::Comment(between) => skipped(b"<!--", between, b"-->"),
        Node::Instruction(between) => skipped(b"<?", between, b"?>"),
        Node::CharacterData(between) => skipped(b"<![CDATA[", between, b"]]>"),
        Node::Empty(tag) => {
            write_tag(tag, bytes);
            bytes.extend(b"/>");
        }
        Node::Element(element) => {
            write_tag(&element.tag, bytes);
            bytes.push(b'>');
            bytes.extend(encode(&element.content));
            match &element.end {
                End::White(white) => {
                    bytes.extend([b"</", &element.tag.name[..], white, b">"].concat());
                }
                End::Spoilt(other) => bytes.extend(other),
            }
        }
    }
}

fn write_tag(tag: &Tag, bytes: &mut Vec<u8>) {
    bytes.push(b'<');
    bytes.extend(&tag.name);
    for piece in &tag.rest {
        match piece {
            Piece::White(part) | Piece::Bare(part) | Piece::Spoilt(part) => bytes.extend(part),
            Piece::Quoted(quote, part) => {
                bytes.push(*quote);
                bytes.extend(part);
                bytes.push(*quote);
            }
        }
    }
}

/// Calls `visit` with every node and the number of start tags that are open around it.
pub fn each<'a>(content: &'a [Node], open: usize, visit: &mut dyn FnMut(&'a Node, usize)) {
    for node in content {
        visit(node, open);
        if let Node::Element(element) = node {
            each(&element.content, open + 1, visit);
        }
    }
}

/// The most start tags that are open at once.
pub fn deepest(content: &[Node]) -> usize {
    let mut most = 0;
    each(content, 0, &mut |node, open| {
        if matches!(node, Node::Element(_)) {
            most = most.max(open + 1);
        }
    });
    most
}

/// Does all of it read and nest?
fn reads(content: &[Node]) -> bool {
    let mut reads = deepest(content) <= MOST_OPEN;
    let spoils = |tag: &Tag| tag.rest.iter().any(|p| matches!(p, Piece::Spoilt(_)));
    each(content, 0, &mut |node, _| {
        reads &= match node {
            Node::Spoilt(_) => false,
            Node::Empty(tag) => !spoils(tag),
            Node::Element(e) => !spoils(&e.tag) && matches!(e.end, End::White(_)),
            _ => true,
        };
    });
    reads
}

/// The elements of that name among the content, not deeper.
pub fn children<'a>(content: &'a [Node], name: &'a [u8]) -> impl Iterator<Item = &'a Element> {
    content.iter().filter_map(move |node| match node {
        Node::Element(element) if element.is(name) => Some(element),
        _ => None,
    })
}

/// The three elements of each section, whether the rest reads or not.
pub fn sections(content: &[Node]) -> Vec<[&Element; 3]> {
    let mut found = Vec::new();
    for metadata in children(content, b"METADATA") {
        for schema in children(&metadata.content, b"AttachmentSchema") {
            for format in children(&schema.content, b"DataFormat") {
                if encode(&format.content) == VALUE {
                    found.push([metadata, schema, format]);
                }
            }
        }
    }
    found
}

/// Does it declare a chunk container?
pub fn declares(content: &[Node]) -> bool {
    reads(content) && !sections(content).is_empty()
}
