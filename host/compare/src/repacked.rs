//! What the request says of a clean file, held of the library's own answers: it is
//! accepted, has the same entries and records apart from places and the same parts, and
//! composes the same planes with the same refusals, places aside.

use crate::lent::Buffers;
use crate::planes::{plain, COMPOSERS};
use crate::read::Read;
use crate::report::{name, Report};
use czi::calls::{
    self, AttachmentRecord, Figures, Span, DIMENSION_NUMBERS, TILE_NUMBERS, TILE_STARTS,
};
use generate::ask::Ask;
use generate::Random;
use reference::Release;
use std::ops::Range;

/// The names of what both files have in common.
pub const ALIKE: [&str; 7] = [
    "a clean file with the same entries, records and parts",
    "17 or 18 under 1.2 of both files",
    "a plane with pixels of a tile",
    "a plane of the background alone",
    "a plane with masks on under 1.2",
    "a question refused as 20, 21 or 22",
    "a question refused as 23 at the same entry",
];

/// Of a file with more attachments, so many of the first are asked for, and the last.
const MOST_ASKED: u64 = 16;

/// Where a tile's record has places: the entry's, the sub-block's, those of its parts, each
/// with a length behind it, and of the mask. And where it has the number of dimensions.
const ENTRY: usize = 1;
const SUB_BLOCK: usize = 3;
const DIMENSIONS: usize = 5;
const PARTS: [usize; 3] = [11, 13, 15];
const ATTACHMENT: usize = 15;
const HAS_MASK: usize = 17;
const MASK: usize = 18;

/// The places of the entries, in the file and in the clean one.
pub type Places = [Vec<u64>; 2];

/// All that the library says of a file, places aside.
struct Said<'a> {
    figures: Figures,
    tiles: Vec<u64>,
    starts: Vec<i32>,
    dimensions: Vec<u64>,
    dimension_starts: Vec<i32>,
    attachments: Vec<AttachmentRecord>,
    /// Of each tile metadata, pixels and attachment, the XML and its attachment, the
    /// attachments' data.
    parts: Vec<Option<&'a [u8]>>,
    /// The places of the entries, which are not compared.
    places: Vec<u64>,
}

/// The clean file is accepted, its figures are those of its own length and of as many
/// segments as there are to write, and all else that the library says of it is what it
/// says of the file.
pub fn hold_clean(release: Release, read: &Read, new: &[u8], report: &mut Report) -> Places {
    let old = read.bytes;
    let verdict = report.call(release, |number| calls::judge(new, number));
    if (verdict.number, verdict.place) != (0, 0) {
        let release = name(release);
        report.differs(format!("the clean file under {release}: {verdict:?}"));
    }
    hold_other_release(release, read, new, report);
    let (said, clean) = (ask(release, old, report), ask(release, new, report));
    let listed = [92, 104].map(|field| u64::from(old[field..field + 8] != [0; 8]));
    let Figures {
        tiles, attachments, ..
    } = said.figures;
    let segments = 2 + tiles + attachments + listed[0] + listed[1];
    let wanted = Figures {
        bytes: new.len() as u64,
        segments,
        ..said.figures
    };
    let same = [
        ("figures", clean.figures == wanted),
        ("tiles", clean.tiles == said.tiles),
        ("starts", clean.starts == said.starts),
        ("dimensions", clean.dimensions == said.dimensions),
        (
            "starts of dimensions",
            clean.dimension_starts == said.dimension_starts,
        ),
        ("attachments", clean.attachments == said.attachments),
        ("parts", clean.parts == said.parts),
        ("parts within it", !clean.parts.contains(&None)),
        ("entries", are_entries_kept((old, &said), (new, &clean))),
        ("entries A1", are_entries_a1_kept(old, new, attachments)),
    ];
    for (what, _) in same.iter().filter(|(_, is_same)| !is_same) {
        let release = name(release);
        report.differs(format!("the clean file has other {what} under {release}"));
    }
    report
        .alike
        .add("a clean file with the same entries, records and parts");
    [said.places, clean.places]
}

/// The entries are the same apart from positions and spare bytes, and these are zero.
fn are_entries_kept((old, said): (&[u8], &Said), (new, clean): (&[u8], &Said)) -> bool {
    let rows = said.tiles.chunks_exact(TILE_NUMBERS);
    let mut places = said.places.iter().zip(&clean.places).zip(rows);
    places.all(|((place, clean_place), row)| {
        let length = 32 + 20 * row[DIMENSIONS];
        let entries = (part(old, *place, length), part(new, *clean_place, length));
        is_kept(entries, 6..14, 23..28)
    })
}

/// And so are the entries A1, by what the file segment names.
fn are_entries_a1_kept(old: &[u8], new: &[u8], attachments: u64) -> bool {
    (0..attachments).all(|k| {
        let [entry, clean] = [old, new].map(|bytes| {
            let mut directory = [0; 8];
            directory.copy_from_slice(&bytes[104..112]);
            let place = u64::from_le_bytes(directory).checked_add(32 + 256 + 128 * k)?;
            part(bytes, place, 128)
        });
        is_kept((entry, clean), 12..20, 2..12)
    })
}

/// Two entries are there and the same, but for a position, and spare bytes, which are zero
/// in the second.
fn is_kept(
    entries: (Option<&[u8]>, Option<&[u8]>),
    position: Range<usize>,
    spare: Range<usize>,
) -> bool {
    let (Some(entry), Some(clean)) = entries else {
        return false;
    };
    (0..entry.len()).all(|k| match k {
        _ if position.contains(&k) => true,
        _ if spare.contains(&k) => clean[k] == 0,
        _ => clean[k] == entry[k],
    })
}

/// The bytes of a file from there on, if they are in it.
fn part(bytes: &[u8], start: u64, length: u64) -> Option<&[u8]> {
    let end = start.checked_add(length)?;
    bytes.get(start as usize..end as usize)
}

/// What the other release says of the file it says of the clean one: accepted, or refused
/// with the same number.
fn hold_other_release(release: Release, read: &Read, new: &[u8], report: &mut Report) {
    let other = match release {
        Release::V1_2 => Release::V1_02,
        Release::V1_02 => Release::V1_2,
    };
    let file = read.under(other).err().map_or(0, |refusal| refusal.number);
    let clean = report.call(other, |number| calls::judge(new, number).number);
    let what = || "the clean file of another release".to_string();
    report.compare_under(other, what, &clean, &file);
    if file != 0 {
        report.alike.add("17 or 18 under 1.2 of both files");
    }
}

/// Asks the library for all records of an accepted file.
fn ask<'a>(release: Release, bytes: &'a [u8], report: &mut Report) -> Said<'a> {
    let figures = report.call(release, |number| calls::summary(bytes, number).value);
    let mut tiles = vec![0; TILE_NUMBERS * figures.tiles as usize];
    let mut starts = vec![0; TILE_STARTS * figures.tiles as usize];
    report.call(release, |number| {
        calls::tiles(bytes, number, &mut tiles, &mut starts)
    });
    let rows = tiles.chunks_exact(TILE_NUMBERS);
    let count = rows.clone().map(|row| row[DIMENSIONS] as usize).sum();
    let mut dimensions = vec![0; DIMENSION_NUMBERS * count];
    let mut dimension_starts = vec![0; count];
    report.call(release, |number| {
        calls::dimensions(bytes, number, &mut dimensions, &mut dimension_starts)
    });
    let part = |start, length| part(bytes, start, length);
    let mut parts = Vec::new();
    for row in rows.clone() {
        parts.extend(PARTS.map(|k| part(row[k], row[k + 1])));
    }
    let xml = report.call(release, |number| calls::common_xml(bytes, number));
    let attached = report.call(release, |number| calls::common_attachment(bytes, number));
    let spanned = |span: Span| part(span.start, span.length);
    parts.extend([spanned(xml.value), spanned(attached.value)]);
    let mut attachments = Vec::new();
    let last = figures.attachments.saturating_sub(1);
    for entry in (0..figures.attachments).filter(|k| *k < MOST_ASKED || *k == last) {
        let mut record = AttachmentRecord {
            guid: [0; calls::ATTACHMENT_GUID],
            file_type: [0; calls::ATTACHMENT_FILE_TYPE],
            name: [0; calls::ATTACHMENT_NAME],
        };
        let data = report.call(release, |number| {
            calls::attachment(bytes, number, entry, &mut record)
        });
        parts.push(spanned(data.value));
        attachments.push(record);
    }
    let places = rows.map(|row| row[ENTRY]).collect();
    hide_places(&mut tiles);
    Said {
        figures,
        tiles,
        starts,
        dimensions,
        dimension_starts,
        attachments,
        parts,
        places,
    }
}

/// The records without places; that of a mask is counted from its attachment.
fn hide_places(tiles: &mut [u64]) {
    for row in tiles.chunks_exact_mut(TILE_NUMBERS) {
        if row[HAS_MASK] != 0 {
            row[MASK] = row[MASK].wrapping_sub(row[ATTACHMENT]);
        }
        for place in [ENTRY, SUB_BLOCK].into_iter().chain(PARTS) {
            row[place] = 0;
        }
    }
}

/// Both composers say and leave the same of both files, the clean one by that name; the
/// place of 23 is that of the same entry. Answers the refusal's number and the covered
/// count.
pub fn hold_same_plane(
    release: Release,
    (old, new, clean_name): (&[u8], &[u8], &str),
    places: &Places,
    ask: &Ask,
    random: &mut Random,
    report: &mut Report,
) -> (u32, u64) {
    let plain = plain(ask, random);
    let lent = Buffers::new(ask.target, ask.map, random.word());
    let mut covered = 0;
    let mut refused = 0;
    for (composer, call) in COMPOSERS {
        let mut left = [lent.clone(), lent.clone()];
        let said = [0, 1].map(|k| {
            let (target, map) = (left[k].target.lend(), left[k].map.lend());
            let bytes = [old, new][k];
            report.call(release, |number| call(bytes, number, &plain, target, map))
        });
        let [file, clean] = said;
        let entry = |k: usize| places[k].iter().position(|place| *place == said[k].place);
        let is_same_place = match file.number {
            23 => entry(0).is_some() && entry(0) == entry(1),
            _ => file.place == clean.place,
        };
        let is_same = file.number == clean.number
            && is_same_place
            && file.value == clean.value
            && left[0] == left[1];
        if !is_same {
            let release = name(release);
            report.differs(format!(
                "{composer} under {release}: {file:?}, and {clean:?} of {clean_name}, \
                 or another plane: {plain:?}"
            ));
        }
        (covered, refused) = (file.value.covered, file.number);
    }
    (refused, covered)
}

/// A plane of a file and of its clean file.
pub fn hold_plane(
    release: Release,
    (old, new): (&[u8], &[u8]),
    places: &Places,
    ask: &Ask,
    random: &mut Random,
    report: &mut Report,
) {
    let files = (old, new, "the clean file");
    let (refused, covered) = hold_same_plane(release, files, places, ask, random, report);
    if refused == 0 && ask.question.masks_on() && release == Release::V1_2 {
        report.alike.add("a plane with masks on under 1.2");
    }
    report.alike.add(match refused {
        0 if covered == 0 => "a plane of the background alone",
        0 => "a plane with pixels of a tile",
        23 => "a question refused as 23 at the same entry",
        _ => "a question refused as 20, 21 or 22",
    });
}

#[cfg(test)]
mod tests {
    use super::*;
    use generate::sound;

    #[test]
    fn places_are_hidden_and_nothing_else() {
        let mut row: Vec<u64> = (100..100 + TILE_NUMBERS as u64).collect();
        hide_places(&mut row);
        let changed = (0..TILE_NUMBERS).filter(|k| row[*k] != 100 + *k as u64);
        assert_eq!(changed.collect::<Vec<_>>(), [1, 3, 11, 13, 15, 18]);
        assert_eq!(row[18], 3, "counted from the attachment");
    }

    #[test]
    fn a_clean_file_with_another_part_is_a_difference() {
        let is_held = |old: &[u8], new: &[u8]| {
            let mut report = Report::new();
            report.at("held", old);
            let read = Read::new(old, &mut report);
            hold_clean(Release::V1_2, &read, new, &mut report);
            report.passed(true)
        };
        let mut noticed = 0;
        for seed in 0..20 {
            let sound = sound(seed);
            let mut clean = sound.clean();
            assert!(is_held(&sound.bytes, &clean), "seed {seed}");
            let read = reference::judge(&clean, Release::V1_2).expect("an accepted file");
            let tiles = read.tiles.iter().map(|tile| tile.pixels.start);
            let attached = read.attachments.iter().map(|a| a.place + 30);
            let at: Vec<u64> = tiles.chain(attached).collect();
            for at in at {
                clean[at as usize] ^= 1;
                assert!(!is_held(&sound.bytes, &clean), "seed {seed}, {at}");
                clean[at as usize] ^= 1;
                noticed += 1;
            }
        }
        assert!(noticed > 20, "{noticed}");
    }
}
