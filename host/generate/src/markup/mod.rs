//! Metadata of a sub-block by the rules of paper 02, Req 01: with the section of
//! a chunk container, without it, and with faults, each by name.

mod document;
mod draw;
mod faults;
mod freedoms;
mod misses;
mod tokens;

use crate::format::{MARKER, SECTION};
use crate::random::Random;
use document::{declares, encode, Node, Tag, MOST_OPEN};
use draw::{chain, content, section, PAGE};
use faults::{Fault, FAULTS};
use misses::MISSES;

pub use tokens::draw_tokens;

/// The names of metadata that are not drawn by a table.
const NO_METADATA: &str = "no metadata";
const OLD_MARKER: &str = "the marker of document 01 in metadata that declare nothing";
const ANY_BYTES: &str = "the marker among any bytes";
const WIDE: &str = "the section in two bytes a letter";
const SHORT: &str = "the section without its last byte";
const TWO_FAULTS: &str = "two faults at once";
const OTHERS: [&str; 6] = [NO_METADATA, OLD_MARKER, ANY_BYTES, WIDE, SHORT, TWO_FAULTS];

/// Metadata of a sub-block, with all that is known of them.
#[derive(Clone, Debug, Default)]
pub struct Metadata {
    /// The bytes.
    pub bytes: Vec<u8>,
    /// The attachment is a chunk container.
    pub declares: bool,
    /// One `>` more behind them would declare one.
    pub lacks_last: bool,
    /// By name, what they hold or what is wrong with them.
    pub names: Vec<&'static str>,
}

/// The names of everything that metadata may hold or have wrong.
pub fn metadata_names() -> Vec<&'static str> {
    let mut names: Vec<&str> = freedoms::markup_freedoms().collect();
    names.extend(MISSES.iter().map(|miss| miss.name));
    names.extend(FAULTS.iter().map(|fault| fault.name));
    names.extend(OTHERS);
    names
}

impl Metadata {
    /// Metadata that declare a chunk container.
    pub fn declaring(random: &mut Random) -> Metadata {
        let content = declaring(random);
        assert!(declares(&content), "the section stands in it");
        Metadata {
            bytes: encode(&content),
            declares: true,
            lacks_last: false,
            names: freedoms::taken(&content),
        }
    }

    /// Metadata that declare none: near to it, or with one fault or two.
    pub fn other(random: &mut Random) -> Metadata {
        match random.below(20) {
            0..=7 => Metadata::missing(random),
            8..=14 => Metadata::faulty(random),
            15 | 16 => Metadata::faulty_twice(random),
            17 => {
                let (before, behind) = (random.below(30), random.below(30));
                let (before, behind) = (random.bytes(before), random.bytes(behind));
                let bytes = [&before, &MARKER[..], &behind].concat();
                Metadata::undeclared(bytes, vec![ANY_BYTES])
            }
            18 => {
                let wide = |byte: &u8| [*byte, 0];
                let bytes = PAGE.iter().flat_map(wide).collect();
                Metadata::undeclared(bytes, vec![WIDE])
            }
            _ => {
                let whole = random.pick(&[SECTION, PAGE]);
                let short = whole[..whole.len() - 1].to_vec();
                let mut metadata = Metadata::undeclared(short, vec![SHORT]);
                metadata.lacks_last = true;
                metadata
            }
        }
    }

    /// No metadata.
    pub fn none() -> Metadata {
        Metadata::undeclared(Vec::new(), vec![NO_METADATA])
    }

    fn undeclared(bytes: Vec<u8>, mut names: Vec<&'static str>) -> Metadata {
        if bytes.windows(MARKER.len()).any(|window| window == MARKER) {
            names.push(OLD_MARKER);
        }
        Metadata {
            bytes,
            declares: false,
            lacks_last: false,
            names,
        }
    }

    fn missing(random: &mut Random) -> Metadata {
        let miss = &MISSES[random.below(MISSES.len())];
        loop {
            let content = miss.draw(random);
            // What is drawn beside the miss may be a section.
            if !declares(&content) {
                return Metadata::undeclared(encode(&content), vec![miss.name]);
            }
        }
    }

    fn faulty(random: &mut Random) -> Metadata {
        let fault = any_fault(random);
        let mut content = declaring(random);
        fault.put(&mut content, random);
        assert!(!declares(&content), "{}", fault.name);
        Metadata::undeclared(encode(&content), vec![fault.name])
    }

    fn faulty_twice(random: &mut Random) -> Metadata {
        let mut two = [any_fault(random), any_fault(random)];
        while two[0].is_last() {
            two[0] = any_fault(random);
        }
        let mut content = declaring(random);
        for fault in two {
            fault.put(&mut content, random);
        }
        Metadata::undeclared(encode(&content), vec![TWO_FAULTS])
    }
}

fn any_fault(random: &mut Random) -> &'static Fault {
    &FAULTS[random.below(FAULTS.len())]
}

/// Content that declares a container.
fn declaring(random: &mut Random) -> Vec<Node> {
    match random.below(24) {
        0 => return draw::page(),
        1 => return draw::bare_section(),
        _ => {}
    }
    let mut all = content(random, 2);
    all.push(section(random));
    all.extend(content(random, 2));
    let at = random.below(all.len() + 1);
    match random.below(12) {
        0 => all.insert(at, section(random)),
        1 => all.insert(at, draw::around(random, b"METADATA", Vec::new())),
        2 => all.insert(at, Node::Empty(Tag::new(b"METADATA"))),
        3 => all.insert(0, Node::Text(b"\xEF\xBB\xBF".to_vec())),
        4 => deepen(&mut all, at, random),
        _ => {}
    }
    all
}

/// Puts 64 open start tags beside the section, or in METADATA.
fn deepen(all: &mut Vec<Node>, at: usize, random: &mut Random) {
    let innermost = match random.percent(50) {
        true => vec![Node::Empty(Tag::new(b"a"))],
        false => Vec::new(),
    };
    let names: &[&[u8]] = match random.below(3) {
        0 => &[b"a"],
        1 => &[b"a", b"b"],
        _ => &[b"METADATA", b"AttachmentSchema", b"DataFormat"],
    };
    for node in all.iter_mut() {
        if let Node::Element(element) = node {
            if element.is(b"METADATA") && random.percent(50) {
                element
                    .content
                    .extend(chain(names, MOST_OPEN - 1, innermost));
                return;
            }
        }
    }
    all.splice(at..at, chain(names, MOST_OPEN, innermost));
}

#[cfg(test)]
mod tests {
    use super::*;
    use crate::tally::Tally;

    #[test]
    fn the_page_and_the_bare_section_are_their_trees() {
        assert_eq!(encode(&draw::page()), PAGE);
        assert_eq!(encode(&draw::bare_section()), SECTION);
    }

    #[test]
    fn no_two_names_are_the_same() {
        let mut names = metadata_names();
        let count = names.len();
        names.sort_unstable();
        names.dedup();
        assert_eq!(names.len(), count);
    }

    #[test]
    fn twenty_thousand_metadata_reach_every_name() {
        let mut tally = Tally::new("Metadata", metadata_names());
        let random = &mut Random::new(0);
        tally.add(Metadata::none().names[0]);
        for _ in 0..10_000 {
            for metadata in [Metadata::declaring(random), Metadata::other(random)] {
                metadata.names.iter().for_each(|name| tally.add(name));
            }
        }
        assert!(tally.missing().is_empty(), "{:?}", tally.missing());
    }

    #[test]
    fn drawn_tokens_are_1_to_400_bytes() {
        let random = &mut Random::new(0);
        for _ in 0..10_000 {
            assert!((1..=400).contains(&draw_tokens(random).len()));
        }
    }
}
