//! Metadata of drawn tokens, with nothing foretold: for two readers to agree on.

use crate::random::Random;

/// At most so many bytes.
const LONGEST: usize = 400;

type Token = &'static [u8];

/// Brackets, quotes, and the openers and closers cut at every byte. `_` is a space, here and below.
const MARKS: &str = "< < </ </ /> /> > > > \" \" ' ' = / _ _ ! \
    <! <!- <!-- <!-- - -- --> -> <? <? ? ?> <![ <![C <![CD <![CDA <![CDAT <![CDATA <![CDATA[ ] ]] ]]> ]>";

/// Names, and the value.
const NAMES: &str = "METADATA AttachmentSchema DataFormat a a A CHUNKCONTAINER";

/// White space, and bytes that are none.
const BYTES: [Token; 6] = [b"\t", b"\n", b"\r", b"\x0b", b"\x0c", b"\0"];

/// What reads wherever content stands.
const CONTENT: [&str; 16] = [
    "a",
    "_",
    ">",
    "< a />",
    "< a _ />",
    "< a = />",
    "< a > </ a >",
    "< a > a </ a _ >",
    "< METADATA />",
    "< DataFormat > a </ DataFormat >",
    "<!-- -->",
    "<!-- < a > - -->",
    "<? ?>",
    "<? a > ?>",
    "<![CDATA[ ] ]]>",
    "<![CDATA[ < a > ]]>",
];

/// What reads behind a start tag's name.
const ATTRIBUTES: [&str; 8] = [
    "_",
    "_ _",
    "_ a = \" a \"",
    "_ a = ' > '",
    "_ a = \" < /> \"",
    "_ \" ' \"",
    "/ a",
    "/ _",
];

/// The section. Content may stand before the tokens of `GAPS`, attributes before
/// those of `BEHIND`, white space before those of `END_BEHIND`.
const SECTION: &str = "< METADATA > < AttachmentSchema > < DataFormat > CHUNKCONTAINER \
    </ DataFormat > </ AttachmentSchema > </ METADATA >";
const GAPS: [usize; 6] = [0, 3, 6, 13, 16, 19];
const BEHIND: [usize; 3] = [2, 5, 8];
const END_BEHIND: [usize; 3] = [12, 15, 18];

/// Names of the section and what stands for them throughout.
const OTHER_NAMES: [(Token, Token); 7] = [
    (b"METADATA", b"Metadata"),
    (b"METADATA", b"METADATAS"),
    (b"AttachmentSchema", b"Attachmentschema"),
    (b"AttachmentSchema", b"AttachmentSchem"),
    (b"DataFormat", b"dataFormat"),
    (b"DataFormat", b"DataFormat="),
    (b"CHUNKCONTAINER", b"CHUNKContainer"),
];

/// Metadata of 1 to 400 bytes: one in four of any tokens, the others a section
/// with up to three tokens put in, taken out or exchanged.
pub fn draw_tokens(random: &mut Random) -> Vec<u8> {
    let alphabet: Vec<Token> = split(MARKS).chain(split(NAMES)).chain(BYTES).collect();
    let mut tokens = match random.below(4) {
        0 => any(&alphabet, random),
        _ => near(&alphabet, random),
    };
    while tokens.iter().map(|token| token.len()).sum::<usize>() > LONGEST {
        tokens.pop();
    }
    tokens.concat()
}

fn split(tokens: &'static str) -> impl Iterator<Item = Token> {
    let token = |token| match token {
        "_" => " ",
        other => other,
    };
    tokens.split_whitespace().map(move |t| token(t).as_bytes())
}

fn any(alphabet: &[Token], random: &mut Random) -> Vec<Token> {
    let count = 1 + random.below(60);
    (0..count).map(|_| random.pick(alphabet)).collect()
}

fn near(alphabet: &[Token], random: &mut Random) -> Vec<Token> {
    let mut tokens = section(random);
    if random.percent(10) {
        let (name, other) = random.pick(&OTHER_NAMES);
        let named = tokens.iter_mut().filter(|token| **token == name);
        named.for_each(|token| *token = other);
    }
    for _ in 0..random.pick(&[0, 1, 1, 1, 2, 2, 3]) {
        change(&mut tokens, alphabet, random);
    }
    tokens
}

/// The section with what may stand beside it, and one in eight in another element.
fn section(random: &mut Random) -> Vec<Token> {
    let around = match random.below(8) {
        0 => {
            let name = random.pick(&["a", "METADATA", "AttachmentSchema", "DataFormat"]);
            let (from, to) = (random.below(GAPS.len()), random.below(GAPS.len()));
            Some((name.as_bytes(), GAPS[from.min(to)], GAPS[from.max(to)]))
        }
        _ => None,
    };
    let own: Vec<Token> = split(SECTION).collect();
    let mut tokens = Vec::new();
    for at in 0..=own.len() {
        if let Some((name, from, to)) = around {
            if at == from {
                tokens.extend([b"<", name, b">"]);
            }
            if at == to {
                tokens.extend([b"</", name, b">"]);
            }
        }
        if GAPS.contains(&at) {
            for _ in 0..random.pick(&[0, 0, 0, 0, 1, 2]) {
                tokens.extend(split(random.pick(&CONTENT)));
            }
        }
        if BEHIND.contains(&at) && random.percent(20) {
            tokens.extend(split(random.pick(&ATTRIBUTES)));
        }
        if END_BEHIND.contains(&at) && random.percent(10) {
            tokens.push(random.pick(&BYTES[..3]));
        }
        tokens.extend(own.get(at));
    }
    tokens
}

fn change(tokens: &mut Vec<Token>, alphabet: &[Token], random: &mut Random) {
    let at = random.below(tokens.len());
    match random.below(5) {
        0 | 1 => tokens.insert(at, random.pick(alphabet)),
        2 if tokens.len() > 1 => {
            tokens.remove(at);
        }
        3 => tokens[at] = random.pick(alphabet),
        _ => {
            let other = random.below(tokens.len());
            tokens.swap(at, other);
        }
    }
}
