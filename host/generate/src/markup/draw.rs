//! Content that reads, by lot: text, skipped parts, elements, and the section.

use super::document::{Element, End, Node, Piece, Tag, VALUE};
use crate::format::SECTION;
use crate::random::Random;

/// The section as the mask page has it, source document 002.
pub const PAGE: &[u8] = b"<METADATA>
  <AttachmentSchema>
    <DataFormat>CHUNKCONTAINER</DataFormat>
  </AttachmentSchema>
</METADATA>";

/// The white space of tags, a byte each.
pub const WHITE: [u8; 4] = [9, 10, 13, 32];

const TEXTS: [&[u8]; 20] = [
    b" ",
    b"\n  ",
    b"text",
    b"12.5",
    b">",
    b"a > b",
    b"]]>",
    b"-->",
    b"?>",
    b"/>",
    b"\"",
    b"'",
    b"&lt;&#62;",
    b"\0",
    b"\x0b\x0c",
    b"\xEF\xBB\xBF",
    b"\xC3\xA9",
    b"\xFF",
    b"CHUNKCONTAINER",
    b"a=\"b\"",
];

const COMMENTS: [&[u8]; 16] = [
    b"",
    b" note ",
    b">",
    b"->",
    b"-",
    b"--",
    b" -- ",
    b"<a>",
    b"</a>",
    b"<",
    b"\"",
    b"'",
    b"]]> ?>",
    b"<!--",
    b"<![CDATA[<?",
    SECTION,
];

const INSTRUCTIONS: [&[u8]; 13] = [
    b"",
    b"xml version=\"1.0\" encoding=\"utf-8\"",
    b">",
    b"?",
    b"??",
    b"/",
    b"<a>",
    b"</a>",
    b"'",
    b"--> ]]>",
    b"<?",
    b"<!--<![CDATA[",
    SECTION,
];

const CHARACTER_DATA: [&[u8]; 15] = [
    b"",
    b"text",
    b">",
    b"]",
    b"]]",
    b"]] >",
    b"]>",
    b"<a>",
    b"</a>",
    b"<",
    b"\"",
    b"'",
    b"--> ?>",
    b"<![CDATA[<!--<?",
    SECTION,
];

const NAMES: [&[u8]; 25] = [
    b"a",
    b"a",
    b"a",
    b"b",
    b"b",
    b"Tags",
    b"StageXPosition",
    b"METADATA",
    b"AttachmentSchema",
    b"DataFormat",
    b"x:METADATA",
    b"a\"b",
    b"'",
    b"a=b",
    b"=",
    b"\0",
    b"a\x0b",
    b"\x0c",
    b"\xC3\xA9",
    b"\xA0",
    b"a!",
    b"a?",
    b"-",
    b"]]",
    b"[CDATA[",
];

const VALUES: [&[u8]; 14] = [
    b"", b"v", b"1.5", b">", b"<", b"<a>", b"/", b"/>", b"-->", b"]]>?>", b"<!--", b"\n", b"=",
    SECTION,
];

/// Some content, with elements so many deep at most.
pub fn content(random: &mut Random, depth: usize) -> Vec<Node> {
    let count = random.pick(&[0, 0, 0, 1, 1, 2, 3]);
    (0..count).map(|_| node(random, depth)).collect()
}

fn node(random: &mut Random, depth: usize) -> Node {
    match random.below(9) {
        0 | 1 => Node::Text(text(random)),
        2 => Node::Comment(random.pick(&COMMENTS).to_vec()),
        3 => Node::Instruction(random.pick(&INSTRUCTIONS).to_vec()),
        4 => Node::CharacterData(random.pick(&CHARACTER_DATA).to_vec()),
        5 | 6 if depth > 0 => Node::Element(element(random, depth)),
        7 if depth > 0 => Node::Element(repeated(random)),
        _ => Node::Empty(Tag {
            name: random.pick(&NAMES).to_vec(),
            rest: rest(random, 50),
        }),
    }
}

fn text(random: &mut Random) -> Vec<u8> {
    if random.percent(85) {
        return random.pick(&TEXTS).to_vec();
    }
    let length = random.below(12);
    let mut any = random.bytes(length);
    for byte in &mut any {
        if *byte == b'<' {
            *byte = b'>';
        }
    }
    any
}

fn element(random: &mut Random, depth: usize) -> Element {
    let name = random.pick(&NAMES);
    Element {
        tag: start_tag(random, name, 30),
        content: content(random, depth - 1),
        end: end(random, 20),
    }
}

/// An element in another of the same name.
fn repeated(random: &mut Random) -> Element {
    let name = random.pick(&NAMES);
    let inner = Element::new(name, content(random, 0));
    Element::new(name, vec![Node::Element(inner)])
}

/// A start tag, in so many of a hundred draws with something behind its name.
pub fn start_tag(random: &mut Random, name: &[u8], share: u64) -> Tag {
    let mut rest = rest(random, share);
    if matches!(rest.last(), Some(Piece::Bare(bare)) if bare.ends_with(b"/")) {
        rest.push(white(random));
    }
    Tag {
        name: name.to_vec(),
        rest,
    }
}

/// An end tag, in so many of a hundred draws with white space.
pub fn end(random: &mut Random, share: u64) -> End {
    End::White(match random.percent(share) {
        true => some_white(random),
        false => Vec::new(),
    })
}

fn some_white(random: &mut Random) -> Vec<u8> {
    let count = 1 + random.below(2);
    (0..count).map(|_| random.pick(&WHITE)).collect()
}

fn white(random: &mut Random) -> Piece {
    Piece::White(some_white(random))
}

/// What stands behind a tag's name: attributes, and what else is skipped with them.
fn rest(random: &mut Random, share: u64) -> Vec<Piece> {
    let mut pieces = Vec::new();
    if !random.percent(share) {
        return pieces;
    }
    let bare = |bytes: &[u8]| Piece::Bare(bytes.to_vec());
    for _ in 0..random.pick(&[0, 1, 1, 1, 2, 3]) {
        match random.below(12) {
            0..=3 => pieces.extend([white(random), bare(b"k="), quoted(random)]),
            4 => {
                pieces.extend([white(random), bare(b"k"), white(random), bare(b"=")]);
                pieces.extend([white(random), quoted(random)]);
            }
            5 => pieces.extend([white(random), quoted(random), bare(b"k="), quoted(random)]),
            6 => pieces.extend([white(random), bare(b"k")]),
            7 => pieces.extend([white(random), bare(b"k=")]),
            8 => pieces.extend([white(random), bare(b"k=/")]),
            9 => pieces.extend([bare(b"/"), white(random)]),
            10 => pieces.push(bare(b"/k")),
            _ => pieces.extend([bare(b"/"), quoted(random)]),
        }
    }
    if pieces.is_empty() || random.percent(25) {
        pieces.push(white(random));
    }
    pieces
}

fn quoted(random: &mut Random) -> Piece {
    let (quote, other) = random.pick(&[(b'"', b"'"), (b'\'', b"\"")]);
    Piece::Quoted(
        quote,
        match random.percent(15) {
            true => other.to_vec(),
            false => random.pick(&VALUES).to_vec(),
        },
    )
}

/// The page's section.
pub fn page() -> Vec<Node> {
    let element = |name: &[u8], content| Node::Element(Element::new(name, content));
    let break_and = |spaces: &str| Node::Text(format!("\n{spaces}").into_bytes());
    let format = element(b"DataFormat", vec![Node::Text(VALUE.to_vec())]);
    let held = vec![break_and("    "), format, break_and("  ")];
    let schema = element(b"AttachmentSchema", held);
    vec![element(
        b"METADATA",
        vec![break_and("  "), schema, break_and("")],
    )]
}

/// The section and nothing else.
pub fn bare_section() -> Vec<Node> {
    let names: [&[u8]; 3] = [b"METADATA", b"AttachmentSchema", b"DataFormat"];
    chain(&names, 3, vec![Node::Text(VALUE.to_vec())])
}

/// So many elements, each in the one before, and that in the innermost.
pub fn chain(names: &[&[u8]], count: usize, innermost: Vec<Node>) -> Vec<Node> {
    (0..count).rev().fold(innermost, |content, k| {
        vec![Node::Element(Element::new(names[k % names.len()], content))]
    })
}

/// The section's last element with that in it.
pub fn data_format(random: &mut Random, value: &[u8]) -> Node {
    Node::Element(Element {
        tag: start_tag(random, b"DataFormat", 20),
        content: vec![Node::Text(value.to_vec())],
        end: end(random, 15),
    })
}

/// An element of that name, with content beside what it must hold.
pub fn around(random: &mut Random, name: &[u8], held: Vec<Node>) -> Node {
    let mut all = content(random, 1);
    all.extend(held);
    all.extend(content(random, 1));
    Node::Element(Element {
        tag: start_tag(random, name, 20),
        content: all,
        end: end(random, 15),
    })
}

/// The section, with what may stand in it.
pub fn section(random: &mut Random) -> Node {
    let mut formats = vec![data_format(random, VALUE)];
    beside(random, &mut formats, b"DataFormat", |random| {
        data_format(random, b"other")
    });
    let mut schemas = vec![around(random, b"AttachmentSchema", formats)];
    beside(random, &mut schemas, b"AttachmentSchema", |random| {
        let other = data_format(random, b"other");
        around(random, b"AttachmentSchema", vec![other])
    });
    around(random, b"METADATA", schemas)
}

/// One draw in six: another such element, before or behind, or an empty one.
fn beside(random: &mut Random, held: &mut Vec<Node>, name: &[u8], other: fn(&mut Random) -> Node) {
    if random.below(6) == 0 {
        let at = random.below(2);
        let more = match random.percent(70) {
            true => other(random),
            false => Node::Empty(Tag::new(name)),
        };
        held.insert(at, more);
    }
}
