//! Metadata that read and nest, and declare no container by a hair.

use super::document::{Element, Node, Piece, Tag, VALUE};
use super::draw::{around, content, data_format, end, section, start_tag};
use crate::format::{MARKER, SECTION};
use crate::random::Random;

/// A way to miss, and the content that does so.
pub struct Miss {
    /// What is amiss.
    pub name: &'static str,
    make: fn(&mut Random) -> Vec<Node>,
}

impl Miss {
    /// Metadata that miss so, with content beside.
    pub fn draw(&self, random: &mut Random) -> Vec<Node> {
        let mut all = content(random, 2);
        all.extend((self.make)(random));
        all.extend(content(random, 2));
        all
    }
}

/// All misses.
pub const MISSES: &[Miss] = &[
    Miss {
        name: "the marker alone",
        make: |_| vec![marker()],
    },
    Miss {
        name: "the marker in METADATA",
        make: |random| vec![around(random, b"METADATA", vec![marker()])],
    },
    Miss {
        name: "the marker in an outermost AttachmentSchema",
        make: |random| vec![around(random, b"AttachmentSchema", vec![marker()])],
    },
    Miss {
        name: "METADATA and AttachmentSchema in turned order",
        make: |random| {
            let inner = around(random, b"METADATA", vec![marker()]);
            vec![around(random, b"AttachmentSchema", vec![inner])]
        },
    },
    Miss {
        name: "AttachmentSchema behind METADATA",
        make: |random| {
            let before = around(random, b"METADATA", Vec::new());
            vec![before, around(random, b"AttachmentSchema", vec![marker()])]
        },
    },
    Miss {
        name: "AttachmentSchema behind an empty METADATA",
        make: |random| {
            let before = Node::Empty(Tag::new(b"METADATA"));
            vec![before, around(random, b"AttachmentSchema", vec![marker()])]
        },
    },
    Miss {
        name: "DataFormat behind AttachmentSchema",
        make: |random| {
            let before = around(random, b"AttachmentSchema", Vec::new());
            vec![around(random, b"METADATA", vec![before, marker()])]
        },
    },
    Miss {
        name: "DataFormat behind an empty AttachmentSchema",
        make: |random| {
            let before = Node::Empty(Tag::new(b"AttachmentSchema"));
            vec![around(random, b"METADATA", vec![before, marker()])]
        },
    },
    Miss {
        name: "METADATA not outermost",
        make: |random| {
            let section = section(random);
            vec![around(random, b"a", vec![section])]
        },
    },
    Miss {
        name: "METADATA in METADATA",
        make: |random| {
            let section = section(random);
            vec![around(random, b"METADATA", vec![section])]
        },
    },
    Miss {
        name: "an element between METADATA and AttachmentSchema",
        make: |random| {
            let schema = around(random, b"AttachmentSchema", vec![marker()]);
            let between = around(random, b"a", vec![schema]);
            vec![around(random, b"METADATA", vec![between])]
        },
    },
    Miss {
        name: "an element between AttachmentSchema and DataFormat",
        make: |random| {
            let between = around(random, b"a", vec![marker()]);
            let schema = around(random, b"AttachmentSchema", vec![between]);
            vec![around(random, b"METADATA", vec![schema])]
        },
    },
    Miss {
        name: "AttachmentSchema in AttachmentSchema",
        make: |random| {
            let inner = around(random, b"AttachmentSchema", vec![marker()]);
            let schema = around(random, b"AttachmentSchema", vec![inner]);
            vec![around(random, b"METADATA", vec![schema])]
        },
    },
    Miss {
        name: "DataFormat in DataFormat",
        make: |random| of_data_format(random, |_| vec![marker()]),
    },
    Miss {
        name: "METADATA in another case",
        make: |random| named(random, 0, |name| name.to_ascii_lowercase()),
    },
    Miss {
        name: "AttachmentSchema in another case",
        make: |random| named(random, 1, |name| name.to_ascii_uppercase()),
    },
    Miss {
        name: "DataFormat in another case",
        make: |random| named(random, 2, |name| name.to_ascii_lowercase()),
    },
    Miss {
        name: "a name of the section one byte longer",
        make: |random| any_named(random, |name| [name, b"s"].concat()),
    },
    Miss {
        name: "a name of the section one byte shorter",
        make: |random| any_named(random, |name| name[..name.len() - 1].to_vec()),
    },
    Miss {
        name: "a prefix to a name of the section",
        make: |random| any_named(random, |name| [b"x:", name].concat()),
    },
    Miss {
        name: "byte 11 or 12 behind a name of the section",
        make: |random| match random.below(2) {
            0 => any_named(random, |name| [name, b"\x0b"].concat()),
            _ => any_named(random, |name| [name, b"\x0c"].concat()),
        },
    },
    Miss {
        name: "byte 0 behind a name of the section",
        make: |random| any_named(random, |name| [name, b"\0"].concat()),
    },
    Miss {
        name: "a quote or = behind a name of the section",
        make: |random| match random.below(2) {
            0 => any_named(random, |name| [name, b"\"\""].concat()),
            _ => any_named(random, |name| [name, b"="].concat()),
        },
    },
    Miss {
        name: "nothing between the last tags",
        make: |random| of_data_format(random, |_| Vec::new()),
    },
    Miss {
        name: "an empty DataFormat",
        make: |random| {
            let held = vec![Node::Empty(Tag::new(b"DataFormat")), text(VALUE)];
            let schema = around(random, b"AttachmentSchema", held);
            vec![around(random, b"METADATA", vec![schema])]
        },
    },
    Miss {
        name: "another value",
        make: |random| of_data_format(random, |_| vec![text(b"PLAIN")]),
    },
    Miss {
        name: "the value in another case",
        make: |random| {
            of_data_format(random, |random| {
                let at = random.below(VALUE.len());
                let mut value = VALUE.to_vec();
                value[at] ^= 0x20;
                vec![text(&value)]
            })
        },
    },
    Miss {
        name: "the value with a byte more",
        make: |random| {
            of_data_format(random, |random| {
                let at = random.below(VALUE.len() + 1);
                let mut value = VALUE.to_vec();
                value.insert(at, random.pick(b"X\0>&\xA0"));
                vec![text(&value)]
            })
        },
    },
    Miss {
        name: "the value with a byte less",
        make: |random| {
            of_data_format(random, |random| {
                let mut value = VALUE.to_vec();
                value.remove(random.below(VALUE.len()));
                vec![text(&value)]
            })
        },
    },
    Miss {
        name: "the value twice",
        make: |random| of_data_format(random, |_| vec![text(VALUE), text(VALUE)]),
    },
    Miss {
        name: "white space before the value",
        make: |random| of_data_format(random, |random| vec![white(random), text(VALUE)]),
    },
    Miss {
        name: "white space behind the value",
        make: |random| of_data_format(random, |random| vec![text(VALUE), white(random)]),
    },
    Miss {
        name: "a comment beside the value",
        make: |random| with_value(random, Node::Comment(Vec::new())),
    },
    Miss {
        name: "an instruction beside the value",
        make: |random| with_value(random, Node::Instruction(Vec::new())),
    },
    Miss {
        name: "character data beside the value",
        make: |random| with_value(random, Node::CharacterData(Vec::new())),
    },
    Miss {
        name: "an empty-element tag beside the value",
        make: |random| with_value(random, Node::Empty(Tag::new(b"a"))),
    },
    Miss {
        name: "an element beside the value",
        make: |random| with_value(random, Node::Element(Element::new(b"a", Vec::new()))),
    },
    Miss {
        name: "a comment within the value",
        make: |random| {
            of_data_format(random, |random| {
                let at = 1 + random.below(VALUE.len() - 1);
                let (one, two) = VALUE.split_at(at);
                vec![text(one), Node::Comment(Vec::new()), text(two)]
            })
        },
    },
    Miss {
        name: "the value as character data",
        make: |random| of_data_format(random, |_| vec![Node::CharacterData(VALUE.to_vec())]),
    },
    Miss {
        name: "the value in an element",
        make: |random| {
            of_data_format(random, |_| {
                vec![Node::Element(Element::new(b"a", vec![text(VALUE)]))]
            })
        },
    },
    Miss {
        name: "an entity in the value",
        make: |random| of_data_format(random, |_| vec![text(b"&#67;HUNKCONTAINER")]),
    },
    Miss {
        name: "the section in a comment",
        make: |_| vec![Node::Comment(SECTION.to_vec())],
    },
    Miss {
        name: "the section in an instruction",
        make: |_| vec![Node::Instruction(SECTION.to_vec())],
    },
    Miss {
        name: "the section in character data",
        make: |_| vec![Node::CharacterData(SECTION.to_vec())],
    },
    Miss {
        name: "the section in an attribute",
        make: |random| {
            let mut tag = Tag::new(b"METADATA");
            tag.rest.push(Piece::White(b" ".to_vec()));
            let quote = random.pick(b"\"'");
            tag.rest.push(Piece::Quoted(quote, SECTION.to_vec()));
            vec![Node::Empty(tag)]
        },
    },
    Miss {
        name: "the marker in a comment of the section",
        make: |random| {
            let comment = Node::Comment(MARKER.to_vec());
            let schema = around(random, b"AttachmentSchema", vec![comment]);
            vec![around(random, b"METADATA", vec![schema])]
        },
    },
    Miss {
        name: "metadata of another kind",
        make: |_| {
            let position = Element::new(b"StageXPosition", vec![text(b"103.4")]);
            let tags = Element::new(b"Tags", vec![Node::Element(position)]);
            let metadata = Element::new(b"METADATA", vec![Node::Element(tags)]);
            vec![Node::Element(metadata)]
        },
    },
];

fn text(bytes: &[u8]) -> Node {
    Node::Text(bytes.to_vec())
}

fn white(random: &mut Random) -> Node {
    text(&[random.pick(&super::draw::WHITE)])
}

/// Document 01's marker, by itself.
fn marker() -> Node {
    Node::Element(Element::new(b"DataFormat", vec![text(VALUE)]))
}

/// The section with other content in its last element.
fn of_data_format(random: &mut Random, value: fn(&mut Random) -> Vec<Node>) -> Vec<Node> {
    let format = Node::Element(Element {
        tag: start_tag(random, b"DataFormat", 20),
        content: value(random),
        end: end(random, 15),
    });
    let schema = around(random, b"AttachmentSchema", vec![format]);
    vec![around(random, b"METADATA", vec![schema])]
}

/// The section with that before or behind the value.
fn with_value(random: &mut Random, node: Node) -> Vec<Node> {
    match random.below(2) {
        0 => in_data_format(random, vec![node, text(VALUE)]),
        _ => in_data_format(random, vec![text(VALUE), node]),
    }
}

fn in_data_format(random: &mut Random, value: Vec<Node>) -> Vec<Node> {
    let format = Node::Element(Element::new(b"DataFormat", value));
    let schema = around(random, b"AttachmentSchema", vec![format]);
    vec![around(random, b"METADATA", vec![schema])]
}

/// The section, one of its three elements by another name.
fn named(random: &mut Random, which: usize, other: fn(&[u8]) -> Vec<u8>) -> Vec<Node> {
    let mut names = [&b"METADATA"[..], b"AttachmentSchema", b"DataFormat"].map(<[u8]>::to_vec);
    names[which] = other(&names[which]);
    let format = match data_format(random, VALUE) {
        Node::Element(mut element) => {
            element.tag.name = names[2].clone();
            Node::Element(element)
        }
        other => other,
    };
    let schema = around(random, &names[1], vec![format]);
    vec![around(random, &names[0], vec![schema])]
}

fn any_named(random: &mut Random, other: fn(&[u8]) -> Vec<u8>) -> Vec<Node> {
    let which = random.below(3);
    named(random, which, other)
}
