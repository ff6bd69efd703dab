//! What metadata that declare a container may hold, and which of it some hold.
//! It is read off the tree whose bytes they are.

use super::document::{
    children, deepest, each, encode, sections, Element, End, Node, Piece, Tag, MOST_OPEN,
};
use super::draw::PAGE;
use crate::format::SECTION;

/// A tree taken apart by kinds.
struct Parts<'a> {
    bytes: Vec<u8>,
    content: &'a [Node],
    /// The first section's elements.
    own: [&'a Element; 3],
    sections: usize,
    texts: Vec<&'a [u8]>,
    comments: Vec<&'a [u8]>,
    instructions: Vec<&'a [u8]>,
    character_data: Vec<&'a [u8]>,
    start_tags: Vec<&'a Tag>,
    empty_tags: Vec<&'a Tag>,
    /// All elements, each with the start tags that are open in it.
    elements: Vec<(&'a Element, usize)>,
    /// The empty-element tags stand in so many open start tags at most.
    deepest_empty: usize,
}

impl<'a> Parts<'a> {
    fn of(content: &'a [Node]) -> Option<Parts<'a>> {
        let all = sections(content);
        let mut parts = Parts {
            bytes: encode(content),
            content,
            own: *all.first()?,
            sections: all.len(),
            texts: Vec::new(),
            comments: Vec::new(),
            instructions: Vec::new(),
            character_data: Vec::new(),
            start_tags: Vec::new(),
            empty_tags: Vec::new(),
            elements: Vec::new(),
            deepest_empty: 0,
        };
        each(content, 0, &mut |node, open| match node {
            Node::Text(text) => parts.texts.push(text),
            Node::Comment(between) => parts.comments.push(between),
            Node::Instruction(between) => parts.instructions.push(between),
            Node::CharacterData(between) => parts.character_data.push(between),
            Node::Empty(tag) => {
                parts.empty_tags.push(tag);
                parts.deepest_empty = parts.deepest_empty.max(open);
            }
            Node::Element(element) => {
                parts.start_tags.push(&element.tag);
                parts.elements.push((element, open + 1));
            }
            Node::Spoilt(_) => {}
        });
        Some(parts)
    }

    /// Both kinds of tags that have attributes.
    fn tags(&self) -> impl Iterator<Item = &Tag> {
        self.start_tags.iter().chain(&self.empty_tags).copied()
    }

    fn pieces(&self) -> impl Iterator<Item = &Piece> {
        self.tags().flat_map(|tag| &tag.rest)
    }

    /// Does a value in quotes of that kind pass the test?
    fn quoted(&self, of: u8, test: impl Fn(&[u8]) -> bool) -> bool {
        self.pieces()
            .any(|p| matches!(p, Piece::Quoted(quote, value) if *quote == of && test(value)))
    }

    /// Does a value in any quotes pass the test?
    fn in_quotes(&self, test: fn(&[u8]) -> bool) -> bool {
        self.quoted(b'"', test) || self.quoted(b'\'', test)
    }

    fn named(&self, test: fn(&[u8]) -> bool) -> bool {
        self.tags().any(|tag| test(&tag.name))
    }

    fn text(&self, part: &[u8]) -> bool {
        self.texts.iter().any(|text| holds(text, part))
    }

    /// White space of that byte in a start tag of the section.
    fn white(&self, byte: u8) -> bool {
        let pieces = self.own.iter().flat_map(|element| &element.tag.rest);
        pieces
            .into_iter()
            .any(|p| matches!(p, Piece::White(white) if white.contains(&byte)))
    }

    /// White space of that byte in an end tag of the section.
    fn end_white(&self, byte: u8) -> bool {
        self.own
            .iter()
            .any(|e| matches!(&e.end, End::White(white) if white.contains(&byte)))
    }

    /// What stands beside the section: in nothing, in METADATA, in AttachmentSchema.
    fn beside(&self, level: usize) -> impl Iterator<Item = &Node> {
        let [before, behind] = self.split(level);
        before.iter().chain(behind)
    }

    /// The same before and behind the section's element.
    fn split(&self, level: usize) -> [&[Node]; 2] {
        let content = match level {
            0 => self.content,
            _ => &self.own[level - 1].content,
        };
        let is_own =
            |node: &Node| matches!(node, Node::Element(e) if std::ptr::eq(e, self.own[level]));
        let at = content.iter().position(is_own);
        let at = at.expect("the section stands there");
        [&content[..at], &content[at + 1..]]
    }

    /// Another element of the section's name beside it, before (0) or behind (1).
    fn another(&self, level: usize, side: usize) -> bool {
        let name = &self.own[level].tag.name;
        children(self.split(level)[side], name).next().is_some()
    }
}

fn holds(bytes: &[u8], part: &[u8]) -> bool {
    bytes.windows(part.len()).any(|window| window == part)
}

fn any_holds(all: &[&[u8]], part: &[u8]) -> bool {
    all.iter().any(|bytes| holds(bytes, part))
}

fn any_is(all: &[&[u8]], whole: &[u8]) -> bool {
    all.contains(&whole)
}

fn bare(piece: Option<&Piece>) -> &[u8] {
    match piece {
        Some(Piece::Bare(bytes)) => bytes,
        _ => b"",
    }
}

type OfMarkup = (&'static str, fn(&Parts) -> bool);

const OF_MARKUP: &[OfMarkup] = &[
    ("the page's section", |p| p.bytes == PAGE),
    ("the section and nothing else", |p| p.bytes == SECTION),
    ("content before METADATA", |p| !p.split(0)[0].is_empty()),
    ("content behind METADATA", |p| !p.split(0)[1].is_empty()),
    ("content before AttachmentSchema", |p| {
        !p.split(1)[0].is_empty()
    }),
    ("content behind AttachmentSchema", |p| {
        !p.split(1)[1].is_empty()
    }),
    ("content before DataFormat", |p| !p.split(2)[0].is_empty()),
    ("content behind DataFormat", |p| !p.split(2)[1].is_empty()),
    ("text beside METADATA", |p| p.beside(0).any(is_text)),
    ("text beside AttachmentSchema", |p| p.beside(1).any(is_text)),
    ("text beside DataFormat", |p| p.beside(2).any(is_text)),
    ("a comment beside METADATA", |p| p.beside(0).any(is_comment)),
    ("a comment beside AttachmentSchema", |p| {
        p.beside(1).any(is_comment)
    }),
    ("a comment beside DataFormat", |p| {
        p.beside(2).any(is_comment)
    }),
    ("an instruction beside METADATA", |p| {
        p.beside(0).any(is_instruction)
    }),
    ("an instruction beside AttachmentSchema", |p| {
        p.beside(1).any(is_instruction)
    }),
    ("an instruction beside DataFormat", |p| {
        p.beside(2).any(is_instruction)
    }),
    ("character data beside METADATA", |p| {
        p.beside(0).any(is_character_data)
    }),
    ("character data beside AttachmentSchema", |p| {
        p.beside(1).any(is_character_data)
    }),
    ("character data beside DataFormat", |p| {
        p.beside(2).any(is_character_data)
    }),
    ("an empty-element tag beside METADATA", |p| {
        p.beside(0).any(is_empty_tag)
    }),
    ("an empty-element tag beside AttachmentSchema", |p| {
        p.beside(1).any(is_empty_tag)
    }),
    ("an empty-element tag beside DataFormat", |p| {
        p.beside(2).any(is_empty_tag)
    }),
    ("an element beside METADATA", |p| {
        p.beside(0).any(is_element)
    }),
    ("an element beside AttachmentSchema", |p| {
        p.beside(1).any(is_element)
    }),
    ("an element beside DataFormat", |p| {
        p.beside(2).any(is_element)
    }),
    ("two sections", |p| p.sections >= 2),
    ("another METADATA before the section's", |p| p.another(0, 0)),
    ("another METADATA behind the section's", |p| p.another(0, 1)),
    ("another AttachmentSchema before the section's", |p| {
        p.another(1, 0)
    }),
    ("another AttachmentSchema behind the section's", |p| {
        p.another(1, 1)
    }),
    ("another DataFormat before the section's", |p| {
        p.another(2, 0)
    }),
    ("another DataFormat behind the section's", |p| {
        p.another(2, 1)
    }),
    ("an empty METADATA beside the section", |p| {
        p.beside(0)
            .any(|n| matches!(n, Node::Empty(tag) if tag.name == b"METADATA"))
    }),
    ("METADATA in an element", |p| {
        p.elements
            .iter()
            .any(|(e, open)| *open > 1 && e.is(b"METADATA"))
    }),
    ("an element in one of its own name", |p| {
        p.elements
            .iter()
            .any(|(e, _)| children(&e.content, &e.tag.name).next().is_some())
    }),
    ("64 start tags open at once", |p| {
        deepest(p.content) == MOST_OPEN
    }),
    ("an empty-element tag in 64 open start tags", |p| {
        p.deepest_empty == MOST_OPEN
    }),
    ("over 64 start tags in all", |p| {
        p.start_tags.len() > MOST_OPEN
    }),
    ("attributes of METADATA", |p| has_attributes(p.own[0])),
    ("attributes of AttachmentSchema", |p| {
        has_attributes(p.own[1])
    }),
    ("attributes of DataFormat", |p| has_attributes(p.own[2])),
    ("byte 9 in a start tag of the section", |p| p.white(9)),
    ("byte 10 in a start tag of the section", |p| p.white(10)),
    ("byte 13 in a start tag of the section", |p| p.white(13)),
    ("byte 32 in a start tag of the section", |p| p.white(32)),
    ("byte 9 in an end tag of the section", |p| p.end_white(9)),
    ("byte 10 in an end tag of the section", |p| p.end_white(10)),
    ("byte 13 in an end tag of the section", |p| p.end_white(13)),
    ("byte 32 in an end tag of the section", |p| p.end_white(32)),
    ("/ and white space in an open start tag", |p| {
        p.start_tags.iter().any(|tag| {
            matches!(&tag.rest[..], [.., Piece::Bare(b), Piece::White(_)] if b.ends_with(b"/"))
        })
    }),
    ("/ and another byte in an open start tag", |p| {
        p.start_tags
            .iter()
            .any(|tag| bare(tag.rest.first()).starts_with(b"/k"))
    }),
    ("/ behind the name in a start tag of the section", |p| {
        p.own
            .iter()
            .any(|e| bare(e.tag.rest.first()).starts_with(b"/"))
    }),
    ("/ in the quotes that end an open start tag", |p| {
        p.start_tags
            .iter()
            .any(|tag| matches!(tag.rest.last(), Some(Piece::Quoted(_, value)) if value == b"/"))
    }),
    ("a start tag with quotes that ends behind them", |p| {
        p.start_tags
            .iter()
            .any(|tag| matches!(tag.rest.last(), Some(Piece::Quoted(..))))
    }),
    ("/ behind = makes the tag empty", |p| {
        p.empty_tags
            .iter()
            .any(|tag| bare(tag.rest.last()).ends_with(b"="))
    }),
    ("/ behind / makes the tag empty", |p| {
        p.empty_tags
            .iter()
            .any(|tag| bare(tag.rest.last()).ends_with(b"/"))
    }),
    ("/ behind quotes makes the tag empty", |p| {
        p.empty_tags
            .iter()
            .any(|tag| matches!(tag.rest.last(), Some(Piece::Quoted(..))))
    }),
    ("/ behind white space makes the tag empty", |p| {
        p.empty_tags
            .iter()
            .any(|tag| matches!(tag.rest.last(), Some(Piece::White(_))))
    }),
    ("double quotes", |p| p.quoted(b'"', |v| !v.is_empty())),
    ("single quotes", |p| p.quoted(b'\'', |v| !v.is_empty())),
    ("nothing in quotes", |p| p.in_quotes(|v| v.is_empty())),
    ("a double quote in single ones", |p| {
        p.quoted(b'\'', |v| v == b"\"")
    }),
    ("a single quote in double ones", |p| {
        p.quoted(b'"', |v| v == b"'")
    }),
    ("> in quotes", |p| p.in_quotes(|v| v == b">")),
    ("< in quotes", |p| p.in_quotes(|v| v == b"<")),
    ("/> in quotes", |p| p.in_quotes(|v| v == b"/>")),
    ("a comment's opener in quotes", |p| {
        p.in_quotes(|v| v == b"<!--")
    }),
    ("closers in quotes", |p| p.in_quotes(|v| holds(v, b"]]>?>"))),
    ("the section in quotes", |p| p.in_quotes(|v| v == SECTION)),
    ("quotes without a name before them", |p| {
        p.tags()
            .any(|t| matches!(&t.rest[..], [Piece::White(_), Piece::Quoted(..), ..]))
    }),
    ("a name right behind quotes", |p| {
        let behind = |w: &[Piece]| matches!(w, [Piece::Quoted(..), Piece::Bare(_)]);
        p.tags().any(|t| t.rest.windows(2).any(behind))
    }),
    ("an attribute without a value", |p| {
        p.pieces().any(|piece| bare(Some(piece)) == b"k")
    }),
    ("white space around =", |p| {
        let apart = |w: &[Piece]| matches!(w, [Piece::White(_), Piece::Bare(b), Piece::White(_)] if b == b"=");
        p.tags().any(|t| t.rest.windows(3).any(apart))
    }),
    ("a quote in a name", |p| {
        p.named(|name| name == b"a\"b" || name == b"'")
    }),
    ("= in a name", |p| {
        p.named(|name| name == b"a=b" || name == b"=")
    }),
    ("byte 0 in a name", |p| p.named(|name| name == b"\0")),
    ("byte 11 in a name", |p| p.named(|name| name == b"a\x0b")),
    ("byte 12 in a name", |p| p.named(|name| name == b"\x0c")),
    ("a byte over 127 in a name", |p| {
        p.named(|name| !name.is_ascii())
    }),
    ("! within a name", |p| p.named(|name| name == b"a!")),
    ("? within a name", |p| p.named(|name| name == b"a?")),
    ("[CDATA[ as a name", |p| p.named(|name| name == b"[CDATA[")),
    ("> in text", |p| p.text(b">")),
    ("a comment's closer in text", |p| p.text(b"-->")),
    ("an instruction's closer in text", |p| p.text(b"?>")),
    ("a character-data closer in text", |p| p.text(b"]]>")),
    ("/> in text", |p| p.text(b"/>")),
    ("a double quote in text", |p| p.text(b"\"")),
    ("a single quote in text", |p| p.text(b"'")),
    ("an entity in text", |p| p.text(b"&lt;")),
    ("byte 0 in text", |p| p.text(b"\0")),
    ("a byte over 127 in text", |p| {
        p.texts.iter().any(|text| !text.is_ascii())
    }),
    ("a byte-order mark first", |p| {
        p.bytes.starts_with(b"\xEF\xBB\xBF")
    }),
    ("an empty comment", |p| any_is(&p.comments, b"")),
    ("a comment that begins with >", |p| {
        any_is(&p.comments, b">")
    }),
    ("a comment that begins with ->", |p| {
        any_is(&p.comments, b"->")
    }),
    ("a comment that ends with -", |p| any_is(&p.comments, b"-")),
    ("a comment that ends with --", |p| {
        any_is(&p.comments, b"--")
    }),
    ("-- in a comment", |p| any_is(&p.comments, b" -- ")),
    ("a start tag in a comment", |p| any_is(&p.comments, b"<a>")),
    ("an end tag in a comment", |p| any_is(&p.comments, b"</a>")),
    ("< in a comment", |p| any_is(&p.comments, b"<")),
    ("a quote in a comment", |p| {
        any_is(&p.comments, b"\"") || any_is(&p.comments, b"'")
    }),
    ("other closers in a comment", |p| {
        any_holds(&p.comments, b"]]> ?>")
    }),
    ("a comment's opener in a comment", |p| {
        any_is(&p.comments, b"<!--")
    }),
    ("other openers in a comment", |p| {
        any_holds(&p.comments, b"<![CDATA[<?")
    }),
    ("an empty instruction", |p| any_is(&p.instructions, b"")),
    ("an XML declaration", |p| {
        any_holds(&p.instructions, b"xml version")
    }),
    ("an instruction that begins with >", |p| {
        any_is(&p.instructions, b">")
    }),
    ("an instruction that ends with ?", |p| {
        any_holds(&p.instructions, b"?")
    }),
    ("a start tag in an instruction", |p| {
        any_is(&p.instructions, b"<a>")
    }),
    ("an end tag in an instruction", |p| {
        any_is(&p.instructions, b"</a>")
    }),
    ("a quote in an instruction", |p| {
        any_is(&p.instructions, b"'")
    }),
    ("other closers in an instruction", |p| {
        any_holds(&p.instructions, b"--> ]]>")
    }),
    ("an instruction's opener in one", |p| {
        any_is(&p.instructions, b"<?")
    }),
    ("other openers in an instruction", |p| {
        any_holds(&p.instructions, b"<!--<![CDATA[")
    }),
    ("empty character data", |p| any_is(&p.character_data, b"")),
    ("character data that begin with >", |p| {
        any_is(&p.character_data, b">")
    }),
    ("character data that end with ]", |p| {
        any_is(&p.character_data, b"]")
    }),
    ("character data that end with ]]", |p| {
        any_is(&p.character_data, b"]]")
    }),
    ("]] and > apart in character data", |p| {
        any_is(&p.character_data, b"]] >")
    }),
    ("a start tag in character data", |p| {
        any_is(&p.character_data, b"<a>")
    }),
    ("an end tag in character data", |p| {
        any_is(&p.character_data, b"</a>")
    }),
    ("< in character data", |p| any_is(&p.character_data, b"<")),
    ("a quote in character data", |p| {
        any_is(&p.character_data, b"\"") || any_is(&p.character_data, b"'")
    }),
    ("other closers in character data", |p| {
        any_holds(&p.character_data, b"--> ?>")
    }),
    ("openers in character data", |p| {
        any_holds(&p.character_data, b"<![CDATA[<!--<?")
    }),
];

fn is_text(node: &Node) -> bool {
    matches!(node, Node::Text(_))
}

fn is_comment(node: &Node) -> bool {
    matches!(node, Node::Comment(_))
}

fn is_instruction(node: &Node) -> bool {
    matches!(node, Node::Instruction(_))
}

fn is_character_data(node: &Node) -> bool {
    matches!(node, Node::CharacterData(_))
}

fn is_empty_tag(node: &Node) -> bool {
    matches!(node, Node::Empty(_))
}

fn is_element(node: &Node) -> bool {
    matches!(node, Node::Element(_))
}

fn has_attributes(element: &Element) -> bool {
    element
        .tag
        .rest
        .iter()
        .any(|p| matches!(p, Piece::Quoted(..)))
}

/// The names of all of it.
pub fn markup_freedoms() -> impl Iterator<Item = &'static str> {
    OF_MARKUP.iter().map(|freedom| freedom.0)
}

/// What the metadata hold, each once; nothing where they have no section.
pub fn taken(content: &[Node]) -> Vec<&'static str> {
    let Some(parts) = Parts::of(content) else {
        return Vec::new();
    };
    let holds = |freedom: &&OfMarkup| (freedom.1)(&parts);
    OF_MARKUP
        .iter()
        .filter(holds)
        .map(|freedom| freedom.0)
        .collect()
}
