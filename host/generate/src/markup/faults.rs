//! Faults: what makes metadata that have the section not read or not nest.
//!
//! A fault does so by itself and beside any other: where it stands, nothing
//! that may follow mends it. The names `stray`, `open` and `empty` are in faults alone.

use super::document::{encode, sections, Element, End, Node, Piece, MOST_OPEN, VALUE};
use super::draw::chain;
use crate::random::Random;

/// A fault.
pub struct Fault {
    /// What is wrong.
    pub name: &'static str,
    kind: Kind,
}

/// Where a fault stands.
enum Kind {
    /// One of these, anywhere in the content but in the section's DataFormat.
    Anywhere(&'static [&'static [u8]]),
    /// One of these, at the very end.
    AtEnd(&'static [&'static [u8]]),
    /// One of these behind the name in the start tag of one of the section's elements.
    StartTag(&'static [&'static [u8]]),
    /// One of these for the end tag of one of the section's elements; `%` is its name.
    EndTag(&'static [&'static str]),
    /// AttachmentSchema ends behind METADATA.
    Crossed,
    /// A 65th start tag is open.
    Deep,
    /// The metadata end in the section.
    Cut,
}

impl Fault {
    const fn new(name: &'static str, kind: Kind) -> Fault {
        Fault { name, kind }
    }

    /// Must it be put last? Of two such faults one might mend the other.
    pub fn is_last(&self) -> bool {
        matches!(self.kind, Kind::AtEnd(_) | Kind::Cut)
    }

    /// Puts the fault into content that has the section.
    pub fn put(&self, content: &mut Vec<Node>, random: &mut Random) {
        match &self.kind {
            Kind::Anywhere(all) => {
                let (place, _) = any_place(content, 0, random);
                let at = random.below(place.len() + 1);
                place.insert(at, Node::Spoilt(random.pick(all).to_vec()));
            }
            Kind::AtEnd(all) => content.push(Node::Spoilt(random.pick(all).to_vec())),
            Kind::StartTag(all) => {
                let element = own(content, random.below(3));
                let spoilt = Piece::Spoilt(random.pick(all).to_vec());
                element.tag.rest.push(spoilt);
            }
            Kind::EndTag(all) => {
                let element = own(content, random.below(3));
                let name = String::from_utf8_lossy(&element.tag.name);
                let tag = random.pick(all).replace('%', &name);
                element.end = End::Spoilt(tag.into_bytes());
            }
            Kind::Crossed => {
                own(content, 1).end = End::Spoilt(b"</METADATA>".to_vec());
                own(content, 0).end = End::Spoilt(b"</AttachmentSchema>".to_vec());
            }
            Kind::Deep => {
                let (place, open) = any_place(content, 0, random);
                let more = random.pick(&[1, 1, 1, 2, 40]);
                place.extend(chain(&[b"a", b"b"], MOST_OPEN - open + more, Vec::new()));
            }
            Kind::Cut => {
                let at = section_at(content).expect("content with the section");
                content.truncate(at + 1);
                let mut bytes = encode(&content[at..]);
                bytes.truncate(1 + random.below(bytes.len() - 1));
                content[at] = Node::Spoilt(bytes);
            }
        }
    }
}

/// The content of some element but the section's last, or the outermost, with
/// the number of start tags that are open in it.
fn any_place<'a>(
    content: &'a mut Vec<Node>,
    open: usize,
    random: &mut Random,
) -> (&'a mut Vec<Node>, usize) {
    let is_place = |node: &Node| match node {
        Node::Element(element) => encode(&element.content) != VALUE,
        _ => false,
    };
    let inner: Vec<usize> = (0..content.len())
        .filter(|&k| is_place(&content[k]))
        .collect();
    if inner.is_empty() || random.percent(40) {
        return (content, open);
    }
    match &mut content[random.pick(&inner)] {
        Node::Element(element) => any_place(&mut element.content, open + 1, random),
        _ => unreachable!("only elements are places"),
    }
}

/// The number of the first METADATA with the section in it.
fn section_at(content: &[Node]) -> Option<usize> {
    (0..content.len()).find(|&k| !sections(&content[k..k + 1]).is_empty())
}

/// An element of the first section: 0 is METADATA, 2 is DataFormat.
fn own(content: &mut [Node], which: usize) -> &mut Element {
    let at = section_at(content).expect("content with the section");
    let metadata = element(&mut content[at]);
    if which == 0 {
        return metadata;
    }
    let schema = inner(metadata, b"AttachmentSchema", |schema| {
        schema.content.iter().any(is_data_format)
    });
    match which {
        1 => schema,
        _ => inner(schema, b"DataFormat", |format| {
            encode(&format.content) == VALUE
        }),
    }
}

fn is_data_format(node: &Node) -> bool {
    matches!(node, Node::Element(e) if e.is(b"DataFormat") && encode(&e.content) == VALUE)
}

/// The first element of that name in another that passes the test.
fn inner<'a>(outer: &'a mut Element, name: &[u8], test: fn(&Element) -> bool) -> &'a mut Element {
    let found = |node: &&mut Node| matches!(node, Node::Element(e) if e.is(name) && test(e));
    element(outer.content.iter_mut().find(found).expect("the section"))
}

fn element(node: &mut Node) -> &mut Element {
    match node {
        Node::Element(element) => element,
        _ => unreachable!("the section's nodes are elements"),
    }
}

/// All faults.
pub const FAULTS: &[Fault] = &[
    Fault::new(
        "< before white space",
        Kind::Anywhere(&[b"< a/>", b"<\ta/>", b"<\n>", b"< "]),
    ),
    Fault::new(
        "< before <",
        Kind::Anywhere(&[b"<<a/>", b"<</a>", b"<<!---->"]),
    ),
    Fault::new(
        "a start tag without a name",
        Kind::Anywhere(&[b"<>", b"<></>", b"< >"]),
    ),
    Fault::new(
        "an empty-element tag without a name",
        Kind::Anywhere(&[b"< />", b"< a='b'/>"]),
    ),
    Fault::new(
        "an end tag without a name",
        Kind::Anywhere(&[b"</>", b"<a></>", b"<a></ >"]),
    ),
    Fault::new(
        "white space before an end tag's name",
        Kind::Anywhere(&[b"<a></ a>", b"<a></\na>"]),
    ),
    Fault::new("// in an end tag", Kind::Anywhere(&[b"<a><//a>", b"<//>"])),
    Fault::new(
        "a start tag's name begins with !",
        Kind::Anywhere(&[b"<!a></!a>", b"<!a>", b"<!></!>"]),
    ),
    Fault::new(
        "an empty-element tag's name begins with !",
        Kind::Anywhere(&[b"<!a/>", b"<!/>"]),
    ),
    Fault::new(
        "an end tag's name begins with !",
        Kind::Anywhere(&[b"<a></!a>", b"</!>", b"</!-- -->"]),
    ),
    Fault::new(
        "a document type",
        Kind::Anywhere(&[b"<!DOCTYPE a>", b"<!ELEMENT a ANY>", b"<!>"]),
    ),
    Fault::new(
        "a comment's opener with a byte amiss",
        Kind::Anywhere(&[b"<!- a -->", b"<!-a-->", b"<! -- a -->"]),
    ),
    Fault::new(
        "a character-data opener with a byte amiss",
        Kind::Anywhere(&[
            b"<![cdata[a]]>",
            b"<![CDATA]]>",
            b"<![CDATA []]>",
            b"<![CDAT[]]>",
            b"<! [CDATA[]]>",
            b"<![]]>",
            b"<![IGNORE[]]>",
        ]),
    ),
    Fault::new(
        "< in a start tag's name",
        Kind::Anywhere(&[b"<a<></a<>", b"<a<b></a<b>", b"<a</a>"]),
    ),
    Fault::new(
        "< in an end tag's name",
        Kind::Anywhere(&[b"<a></a<>", b"<a></a<a>"]),
    ),
    Fault::new(
        "< behind a start tag's name",
        Kind::Anywhere(&[b"<a <></a>", b"<a b=<c></a>", b"<a/<></a>", b"<a </a>"]),
    ),
    Fault::new(
        "< behind quotes",
        Kind::Anywhere(&[b"<a b=\"c\"<></a>", b"<a b='c' <></a>", b"<a ''<'/>"]),
    ),
    Fault::new(
        "< behind an end tag's name",
        Kind::Anywhere(&[b"<a></a <>", b"<a></a <b>"]),
    ),
    Fault::new(
        "/ in an end tag",
        Kind::Anywhere(&[b"<a></a/>", b"<a></a />", b"<a></a/ >", b"<a></a/a>"]),
    ),
    Fault::new(
        "an attribute in an end tag",
        Kind::Anywhere(&[b"<a></a b>", b"<a></a b='c'>", b"<a></a ''>", b"<a></a =>"]),
    ),
    Fault::new(
        "quotes in an end tag",
        Kind::Anywhere(&[b"<a></a \">\">", b"<a></a '>'>"]),
    ),
    Fault::new(
        "byte 11 or 12 behind an end tag's name",
        Kind::Anywhere(&[b"<stray></stray\x0b>", b"<stray></stray \x0c>"]),
    ),
    Fault::new(
        "an end tag of another name",
        Kind::Anywhere(&[b"<a></stray>", b"<stray></a>"]),
    ),
    Fault::new(
        "an end tag in another case",
        Kind::Anywhere(&[b"<stray></Stray>", b"<STRAY></stray>"]),
    ),
    Fault::new(
        "an end tag a byte longer or shorter",
        Kind::Anywhere(&[b"<stray></strays>", b"<strays></stray>", b"<stray></tray>"]),
    ),
    Fault::new(
        "an end tag of an instruction's name",
        Kind::Anywhere(&[b"</?stray>", b"<?a?></?a>", b"<a></?a>"]),
    ),
    Fault::new(
        "an end tag with nothing open by its name",
        Kind::Anywhere(&[b"</stray>", b"text</stray >"]),
    ),
    Fault::new(
        "an end tag behind an empty-element tag",
        Kind::Anywhere(&[
            b"<empty/></empty>",
            b"<empty />text</empty>",
            b"<empty b='c'/></empty>",
        ]),
    ),
    Fault::new(
        "an end tag behind one that / behind = makes empty",
        Kind::Anywhere(&[b"<empty b=/></empty>", b"<empty b=c/></empty>"]),
    ),
    Fault::new(
        "end tags crossed",
        Kind::Anywhere(&[b"<stray><a></stray></a>", b"<a><stray></a></stray>"]),
    ),
    Fault::new(
        "a start tag that stays open",
        Kind::Anywhere(&[b"<open>", b"<open ><a></a>", b"<open b='c'>"]),
    ),
    Fault::new(
        "/ before white space leaves a start tag open",
        Kind::Anywhere(&[b"<open/ >", b"<open / >", b"<open/\n>"]),
    ),
    Fault::new(
        "/ before a byte leaves a start tag open",
        Kind::Anywhere(&[b"<open/b>", b"<open /b>", b"<open/=>"]),
    ),
    Fault::new(
        "/ in quotes leaves a start tag open",
        Kind::Anywhere(&[b"<open b=\"/\">", b"<open b='/'>", b"<open \"/\">"]),
    ),
    Fault::new(
        "> in quotes leaves a start tag open",
        Kind::Anywhere(&[b"<open b=\"/>\">", b"<open b='></open>'>"]),
    ),
    Fault::new(
        "a comment hides an end tag",
        Kind::Anywhere(&[
            b"<open><!--</open>-->",
            b"<open><![CDATA[</open>]]>",
            b"<open><?</open>?>",
        ]),
    ),
    Fault::new(
        "a part is skipped to its first closer",
        Kind::Anywhere(&[
            b"<!----><open>-->",
            b"<![CDATA[]]><open>]]>",
            b"<??><open>?>",
        ]),
    ),
    Fault::new("over 64 start tags open at once", Kind::Deep),
    Fault::new(
        "< in a start tag of the section",
        Kind::StartTag(&[b"<", b" <", b" a=<", b"/<", b"\n<a"]),
    ),
    Fault::new(
        "no end tag of an element of the section",
        Kind::EndTag(&[""]),
    ),
    Fault::new(
        "/ in an end tag of the section",
        Kind::EndTag(&["</%/>", "</% />", "</%/ >"]),
    ),
    Fault::new(
        "an attribute in an end tag of the section",
        Kind::EndTag(&["</% a>", "</% a='b'>", "</% \"\">"]),
    ),
    Fault::new(
        "another name in an end tag of the section",
        Kind::EndTag(&["</%x>", "</x%>", "</%\x0b>", "</%\0>", "</%\">", "</%=>"]),
    ),
    Fault::new(
        "white space before a name in an end tag of the section",
        Kind::EndTag(&["</ %>", "< /%>", "</\n%>"]),
    ),
    Fault::new(
        "a start tag for an end tag of the section",
        Kind::EndTag(&["<%>", "<%/>", "</>"]),
    ),
    Fault::new("end tags of the section crossed", Kind::Crossed),
    Fault::new("it ends in the section", Kind::Cut),
    Fault::new("it breaks off behind <", Kind::AtEnd(&[b"<"])),
    Fault::new("it breaks off behind </", Kind::AtEnd(&[b"<a></", b"</"])),
    Fault::new(
        "it breaks off in a start tag's name",
        Kind::AtEnd(&[b"<a", b"<METADATA", b"<a\"b"]),
    ),
    Fault::new(
        "it breaks off in an end tag's name",
        Kind::AtEnd(&[b"<a></a", b"</METADATA"]),
    ),
    Fault::new(
        "it breaks off behind a start tag's name",
        Kind::AtEnd(&[b"<a ", b"<a b", b"<a b=", b"<a\n"]),
    ),
    Fault::new(
        "it breaks off behind a tag's /",
        Kind::AtEnd(&[b"<a/", b"<a b=/", b"<a b='c'/"]),
    ),
    Fault::new(
        "it breaks off behind an end tag's name",
        Kind::AtEnd(&[b"<a></a ", b"<a></a\n"]),
    ),
    Fault::new(
        "it breaks off in double quotes",
        Kind::AtEnd(&[b"<a b=\"", b"<a b=\"></a>", b"<a b=\"'></a>", b"<a b=\"/>"]),
    ),
    Fault::new(
        "it breaks off in single quotes",
        Kind::AtEnd(&[b"<a b='", b"<a b='></a>", b"<a b='\"></a>", b"<a b='/>"]),
    ),
    Fault::new(
        "it breaks off behind quotes",
        Kind::AtEnd(&[b"<a b=\"c\"", b"<a b='>'", b"<a b=''"]),
    ),
    Fault::new(
        "it breaks off in an opener",
        Kind::AtEnd(&[b"<!", b"<!-", b"<![", b"<![C", b"<![CDAT", b"<![CDATA"]),
    ),
    Fault::new(
        "it breaks off in a comment",
        Kind::AtEnd(&[b"<!--", b"<!-- a", b"<!-- <a/>", b"<!-- ]]> ?>"]),
    ),
    Fault::new(
        "it breaks off in a comment's closer",
        Kind::AtEnd(&[
            b"<!-- -",
            b"<!-- --",
            b"<!-- ->",
            b"<!-- -- >",
            b"<!-- --!>",
        ]),
    ),
    Fault::new(
        "<!--> is an open comment",
        Kind::AtEnd(&[b"<!-->", b"<!--><a/>"]),
    ),
    Fault::new(
        "<!---> is an open comment",
        Kind::AtEnd(&[b"<!--->", b"<!---><a/>"]),
    ),
    Fault::new(
        "it breaks off in an instruction",
        Kind::AtEnd(&[b"<?", b"<?xml ", b"<?a>", b"<? <a/> ]]> -->"]),
    ),
    Fault::new(
        "it breaks off in an instruction's closer",
        Kind::AtEnd(&[b"<? ?", b"<? ? >", b"<???"]),
    ),
    Fault::new(
        "<?> is an open instruction",
        Kind::AtEnd(&[b"<?>", b"<?><a/>", b"<?a></?a>"]),
    ),
    Fault::new(
        "it breaks off in character data",
        Kind::AtEnd(&[
            b"<![CDATA[",
            b"<![CDATA[a",
            b"<![CDATA[ --> ?>",
            b"<![CDATA[<a/>",
        ]),
    ),
    Fault::new(
        "it breaks off in a character-data closer",
        Kind::AtEnd(&[
            b"<![CDATA[]",
            b"<![CDATA[]]",
            b"<![CDATA[]>",
            b"<![CDATA[]] >",
        ]),
    ),
];
