//! Metadata of a sub-block: which declare a chunk container. Each stands in a
//! file of one tile whose attachment is no row of chunks, so that the file is
//! refused as 17 exactly where they declare one and 1.2 is the release. Some stand
//! there with a mask, which both composers use where they do.

use crate::planes;
use crate::read::Read;
use crate::reader;
use crate::report::Report;
use generate::ask::{Ask, Request};
use generate::{draw_tokens, Metadata, OneTile, Random};
use reference::{Masks, Question, Refusal, Release};

/// A seed brings so many metadata of drawn tokens with it.
const TOKENS: usize = 8;

/// And of those with foretold answers so many that declare a container, and so many that don't.
const FORETOLD: usize = 2;

/// One in so many stands with a mask too.
const MASKED: usize = 8;

/// Drawn tokens, of which nothing is foretold, and metadata by what they hold.
pub fn check(random: &mut Random, report: &mut Report) {
    let mut file = OneTile::new();
    for _ in 0..TOKENS {
        let metadata = draw_tokens(random);
        let declares = check_one("drawn tokens", &metadata, &mut file, random, report);
        report.tokens.note(declares);
    }
    check_foretold(&Metadata::none(), &mut file, random, report);
    for _ in 0..FORETOLD {
        check_foretold(&Metadata::declaring(random), &mut file, random, report);
        check_foretold(&Metadata::other(random), &mut file, random, report);
    }
}

fn check_foretold(
    metadata: &Metadata,
    file: &mut OneTile,
    random: &mut Random,
    report: &mut Report,
) {
    let stage = metadata.names.first().unwrap_or(&"the section");
    let declares = check_one(stage, &metadata.bytes, file, random, report);
    report.foretold.note(declares);
    if report.compare("foretold", &declares, &metadata.declares) {
        for name in &metadata.names {
            report.metadata_names.add(name);
        }
    }
}

/// Every string of up to four of these bytes, at each of these places in the section: once in a run.
const SHORT: &[u8; 12] = b"<>/!?-[a\"'= ";
const SHORT_PLACES: [usize; 3] = [
    0,
    "<METADATA><AttachmentSchema><DataFormat".len(),
    generate::SECTION.len(),
];

/// All of them.
pub fn check_short(report: &mut Report) {
    let mut file = OneTile::new();
    for length in 1..=4 {
        for number in 0..SHORT.len().pow(length) {
            let digit = |k| SHORT[number / SHORT.len().pow(k) % SHORT.len()];
            let part: Vec<u8> = (0..length).map(digit).collect();
            for at in SHORT_PLACES {
                let (before, behind) = generate::SECTION.split_at(at);
                let metadata = [before, &part, behind].concat();
                let declares = check_judged("every short string", &metadata, &mut file, report);
                report.short.note(declares);
            }
        }
    }
}

/// Long metadata of one kind, and deep ones, each once in a run.
pub fn check_long(report: &mut Report) {
    let mut file = OneTile::new();
    for (name, metadata) in long() {
        let refused = check_judged(name, &metadata, &mut file, report);
        report.compare(name, &refused, &name.starts_with("read"));
    }
}

const LONG: usize = 4 << 20;

/// About 4 MiB each with the section before; the first word says whether all of it reads.
fn long() -> Vec<(&'static str, Vec<u8>)> {
    let many = |part: &str| part.repeat(LONG / part.len());
    let nested = |tags: usize| format!("{}{}", "<a>".repeat(tags), "</a>".repeat(tags));
    let around = |start: &str, part: &str, end: &str| format!("{start}{}{end}", many(part));
    let name = "n".repeat(LONG / 2);
    let all = [
        ("read: text", many("a")),
        ("read: brackets in text", many(">")),
        ("read: elements", many("<a></a>")),
        ("read: empty-element tags", many("<a/>")),
        ("read: comments", many("<!---->")),
        ("read: instructions", many("<??>")),
        ("read: character data", many("<![CDATA[]]>")),
        ("read: attributes", around("<a", " b='c'", "/>")),
        ("read: one attribute", around("<a b='", "<", "'/>")),
        ("read: one name", format!("<{name}></{name}>")),
        (
            "read: white space of an end tag",
            around("<a></a", " ", ">"),
        ),
        ("read: one comment", around("<!--", "-", "-->")),
        ("read: one instruction", around("<?", "?", "?>")),
        (
            "read: one section of character data",
            around("<![CDATA[", "]", "]]>"),
        ),
        (
            "read: 64 open start tags, again and again",
            nested(64).repeat(LONG / nested(64).len()),
        ),
        ("open: start tags", many("<a>")),
        ("open: brackets", many("<")),
        ("open: end tags", many("</a>")),
        ("open: one comment", around("<!--", "-", "")),
        ("open: one instruction", around("<?", "?", "")),
        (
            "open: one section of character data",
            around("<![CDATA[", "]", ""),
        ),
        ("open: one name", around("<", "n", "")),
        ("open: one start tag", around("<a ", "b", "")),
        ("open: one attribute", around("<a '", "b", "")),
        ("open: as many end tags as start tags", nested(LONG / 7)),
        (
            "open: names that differ in the last byte",
            format!("<{name}a></{name}b>"),
        ),
    ];
    let whole = |part: String| [generate::SECTION, part.as_bytes()].concat();
    all.into_iter()
        .map(|(name, part)| (name, whole(part)))
        .collect()
}

/// The library and the reference on one, and the composers on one in eight. Answers
/// whether it declares a container, by the reference.
fn check_one(
    stage: &str,
    metadata: &[u8],
    file: &mut OneTile,
    random: &mut Random,
    report: &mut Report,
) -> bool {
    let declares = check_judged(stage, metadata, file, report);
    if random.below(MASKED) == 0 {
        let lines = [random.word() as u8, random.word() as u8];
        let bytes = file.with(metadata, &OneTile::mask(lines));
        report.at(stage, bytes);
        check_masked(bytes, declares, random, report);
    }
    declares
}

/// The verdicts of both. Answers whether the file is refused as 17 under 1.2; under
/// 1.02 it is accepted always.
fn check_judged(stage: &str, metadata: &[u8], file: &mut OneTile, report: &mut Report) -> bool {
    let bytes = file.with(metadata, &OneTile::NO_CHUNK);
    report.at(stage, bytes);
    let [newer, older] = Read::new(bytes, report).refusals();
    let refused = Refusal::new(17, OneTile::attachment_at(metadata));
    if newer.is_some_and(|refusal| refusal != refused) || older.is_some() {
        report.differs(format!("refused otherwise: {newer:?}, {older:?}"));
    }
    newer.is_some()
}

/// The tile's record, and its plane by both composers, masks on. Under 1.02 it has
/// no mask, whatever the metadata declare.
fn check_masked(bytes: &[u8], declares: bool, random: &mut Random, report: &mut Report) {
    let read = &Read::new(bytes, report);
    let has_mask = |release| {
        let tile = read.under(release).and_then(|file| file.tile(0));
        tile.is_ok_and(|tile| tile.mask.is_some())
    };
    let masked = Release::ALL.map(has_mask);
    report.compare("a mask", &masked, &[declares, false]);
    reader::check_request(read, Request::Tile(0), report);
    let (width, height) = OneTile::SIDES;
    let mut ask = Ask {
        question: Question {
            starts: Vec::new(),
            any_scene: false,
            pixel_type: 0,
            background: vec![random.word() as u8],
            left: random.between(-2, 2) as i32,
            top: 0,
            width,
            height,
            masks: Masks::On,
        },
        target: 0,
        map: 0,
    };
    (ask.target, ask.map) = (ask.target_needed(), ask.map_needed());
    let refusals = planes::compose(read, &ask, random, report).refusals();
    report.compare("a plane", &refusals, &[None; 2]);
    report.masked += 1;
}
