//! Layers, of the library's own answers: a file whose layered tiles hold the asked layer
//! alone says and composes the same; each of 1,024 layers is given when it is asked for;
//! and layers that begin past 2^32 bytes of pixels.

use crate::lent::{Buffers, Lent};
use crate::planes::{plain, COMPOSERS};
use crate::read::Read;
use crate::reader;
use crate::repacked::hold_same_plane;
use crate::repacks::question;
use crate::report::{name, Report};
use crate::zeros::Zeros;
use czi::calls::{self, Answer, Counted, Plain, TILE_NUMBERS, TILE_STARTS};
use generate::ask::{layer, meets, selects, Ask};
use generate::{Layered, OneLayer, OneTile, Random, Settings, Sound, Tile, MOST_LAYERS};
use reference::{judge, Masks, Question, Release};

/// A sound file with layers gets so many questions, each to it and to a cut one.
const ASKED: usize = 2;

/// The names of what both files are asked.
pub const CUT: [&str; 9] = [
    "a plane with a first layer",
    "a plane with a layer past the first",
    "a plane with layers of two tiles",
    "a plane with layers and a tile without them",
    "a plane with masks on under 1.2, and a mask of layers",
    "a plane without layers",
    "a question refused as 20, 21 or 22",
    "a question refused as 23 at the same entry",
    "a quote with layers",
];

/// The names of layers that are asked one by one.
pub const FAR: [&str; 6] = [
    "one of 1,024 layers",
    "one before the first, or one past the last",
    "the last layer at 2^31 - 2",
    "a layer from 2^31 bytes of pixels on",
    "a layer from 2^32 bytes of pixels on",
    "a layer from 2^38 bytes of pixels on",
];

/// Where a record has what a file cut to one layer keeps: all but places, the length of
/// the pixels, and the layers.
const KEPT: [usize; 15] = [0, 2, 4, 5, 6, 7, 8, 9, 10, 12, 16, 17, 19, 20, 21];
const ENTRY: usize = 1;
const PIXELS: usize = 13;
const LETTER: usize = 22;
const SIZE: usize = 23;

/// A sound file with layers, against ones with the asked layer alone.
pub fn check(read: &Read, sound: &Sound, random: &mut Random, report: &mut Report) {
    let mut tiles = sound.entries.iter().map(|entry| sound.tile(entry));
    if tiles.all(|tile| tile.layered().is_none()) {
        return;
    }
    for _ in 0..ASKED {
        let ask = question(sound, random);
        let cut = sound.cut(&ask.question);
        for release in Release::ALL {
            hold_cut(release, read.bytes, (sound, &cut), &ask, random, report);
        }
    }
    report.check_unchanged(read.bytes);
}

/// The records of a file, row by row.
struct Rows {
    numbers: Vec<u64>,
    starts: Vec<i32>,
}

impl Rows {
    fn ask(release: Release, bytes: &[u8], tiles: usize, report: &mut Report) -> Rows {
        let mut rows = Rows {
            numbers: vec![0; TILE_NUMBERS * tiles],
            starts: vec![0; TILE_STARTS * tiles],
        };
        let said = report.call(release, |number| {
            calls::tiles(bytes, number, &mut rows.numbers, &mut rows.starts)
        });
        if (said.number, said.value) != (0, tiles as u64) {
            report.differs(format!("records of {tiles} tiles: {said:?}"));
        }
        rows
    }

    fn each(&self) -> impl Iterator<Item = (&[u64], &[i32])> {
        let numbers = self.numbers.chunks_exact(TILE_NUMBERS);
        numbers.zip(self.starts.chunks_exact(TILE_STARTS))
    }

    fn places(&self) -> Vec<u64> {
        self.each().map(|(numbers, _)| numbers[ENTRY]).collect()
    }
}

/// Records, parts, figures, marks, planes and quotes of both files.
fn hold_cut(
    release: Release,
    old: &[u8],
    (sound, cut): (&Sound, &OneLayer),
    ask: &Ask,
    random: &mut Random,
    report: &mut Report,
) {
    let new = &cut.bytes[..];
    let verdict = report.call(release, |number| calls::judge(new, number));
    if (verdict.number, verdict.place) != (0, 0) {
        let release = name(release);
        return report.differs(format!(
            "a file cut to one layer under {release}: {verdict:?}"
        ));
    }
    let tiles = sound.entries.len();
    let [all, one] = [old, new].map(|bytes| Rows::ask(release, bytes, tiles, report));
    for (k, entry) in sound.entries.iter().enumerate() {
        let rows = [&all, &one].map(|rows| rows.each().nth(k).expect("as many rows as tiles"));
        let tile = (sound.tile(entry), cut.numbers[k]);
        if let Err(what) = is_cut((old, new), rows, tile) {
            let release = name(release);
            report.differs(format!(
                "{what} of tile {k} cut to one layer under {release}"
            ));
        }
    }
    let figures = [old, new].map(|bytes| {
        let said = report.call(release, |number| calls::summary(bytes, number));
        (
            said.number,
            said.value.tiles,
            said.value.has_box,
            said.value.corners,
        )
    });
    report.compare("figures cut to one layer", &figures[1], &figures[0]);
    let plain = plain(ask, random);
    let marks = [old, new].map(|bytes| {
        let mut marks = Lent::<u8>::new(tiles, 7);
        let said = report.call(release, |number| {
            calls::chosen(bytes, number, &plain, marks.lend())
        });
        (said, marks)
    });
    report.compare("marks cut to one layer", &marks[1], &marks[0]);
    let places = [all.places(), one.places()];
    let files = (old, new, "the file cut to one layer");
    let (refused, covered) = hold_same_plane(release, files, &places, ask, random, report);
    note(release, sound, ask, (refused, covered), report);
    if refused == 0 && random.percent(25) {
        hold_quote(release, (old, new), ask, &plain, random, report);
    }
}

/// The cut tile's record is that of the tile without layers, and its pixels are the
/// layer's; the tile's record has the planned layers, and its pixels are those of all.
fn is_cut(
    (old, new): (&[u8], &[u8]),
    [(numbers, starts), (cut_numbers, cut_starts)]: [(&[u64], &[i32]); 2],
    (tile, layer): (&Tile, usize),
) -> Result<(), &'static str> {
    let planned = tile
        .layered()
        .map_or((0, 0, 0), |d| (u64::from(d.letter), d.start, d.size as u64));
    if (numbers[LETTER], starts[3], numbers[SIZE]) != planned {
        return Err("other layers");
    }
    if (cut_numbers[LETTER], cut_starts[3], cut_numbers[SIZE]) != (0, 0, 0) {
        return Err("layers");
    }
    let kept = KEPT.into_iter().all(|k| numbers[k] == cut_numbers[k]);
    if !kept || starts[..3] != cut_starts[..3] {
        return Err("another record");
    }
    let pixels = |bytes: &[u8], row: &[u64]| {
        let part = bytes.get(row[PIXELS] as usize..)?;
        Some(part.get(..row[PIXELS + 1] as usize)?.to_vec())
    };
    let (Some(all), Some(one)) = (pixels(old, numbers), pixels(new, cut_numbers)) else {
        return Err("no pixels");
    };
    if all != tile.pixels || one != tile.layer(layer) {
        return Err("other pixels");
    }
    Ok(())
}

/// A quote is the same of both.
fn hold_quote(
    release: Release,
    (old, new): (&[u8], &[u8]),
    ask: &Ask,
    plain: &Plain,
    random: &mut Random,
    report: &mut Report,
) {
    let settings = Settings::draw(random).bytes();
    let lent = (
        Buffers::new(ask.target, ask.map, 9),
        Lent::<u8>::new(60, 11),
    );
    let quotes = [old, new].map(|bytes| {
        let (mut buffers, mut sheet) = lent.clone();
        let (target, map) = (buffers.target.lend(), buffers.map.lend());
        let said = report.call(release, |number| {
            calls::quote(bytes, number, plain, &settings, target, map, sheet.lend())
        });
        (said, buffers, sheet)
    });
    if quotes[0] != quotes[1] {
        let [all, one] = quotes.map(|quote| quote.0);
        let release = name(release);
        report.differs(format!(
            "quote under {release}: {all:?}, and {one:?} of the file cut to one layer, or other \
             bytes: {plain:?}"
        ));
    }
    report.cut.add("a quote with layers");
}

/// Counts what both files were asked, by the plan.
fn note(
    release: Release,
    sound: &Sound,
    ask: &Ask,
    (refused, covered): (u32, u64),
    report: &mut Report,
) {
    let question = &ask.question;
    match refused {
        0 => {}
        23 => return report.cut.add("a question refused as 23 at the same entry"),
        _ => return report.cut.add("a question refused as 20, 21 or 22"),
    }
    let tiles = sound.entries.iter().map(|entry| sound.tile(entry));
    let shown = tiles.filter(|tile| selects(question, tile) && meets(question, tile));
    let (layered, flat): (Vec<&Tile>, Vec<&Tile>) =
        shown.partition(|tile| tile.layered().is_some());
    let Some(first) = layered.first() else {
        return report.cut.add("a plane without layers");
    };
    let mut note = |is_so: bool, name: &str| {
        if is_so {
            report.cut.add(name);
        }
    };
    let number = |tile: &Tile| layer(question, tile);
    note(
        covered > 0 && layered.iter().any(|tile| number(tile) == 0),
        "a plane with a first layer",
    );
    note(
        covered > 0 && layered.iter().any(|tile| number(tile) > 0),
        "a plane with a layer past the first",
    );
    note(
        layered.iter().any(|tile| !std::ptr::eq(*tile, *first)),
        "a plane with layers of two tiles",
    );
    note(
        !flat.is_empty(),
        "a plane with layers and a tile without them",
    );
    note(
        release == Release::V1_2
            && question.masks_on()
            && layered.iter().any(|tile| tile.mask().is_some()),
        "a plane with masks on under 1.2, and a mask of layers",
    );
}

/// What a tile with layers is asked, one layer after the other: each is foretold.
struct Asked<'a> {
    bytes: &'a [u8],
    letter: u8,
    /// The window, and how long a pixel is.
    window: [i32; 2],
    width: usize,
    pixel_type: u32,
    pixel: usize,
}

impl Asked<'_> {
    /// Both composers under both releases, and the reference, give these bytes at that
    /// start, or the background where there are none.
    fn check(&self, start: i32, wanted: Option<&[u8]>, report: &mut Report) {
        let mut starts = vec![0; 26];
        starts[usize::from(self.letter - b'A')] = start;
        let question = Question {
            starts,
            any_scene: false,
            pixel_type: self.pixel_type,
            background: vec![0xB7; self.pixel],
            left: self.window[0],
            top: self.window[1],
            width: self.width as u32,
            height: 1,
            masks: Masks::On,
        };
        let ask = Ask {
            question,
            target: self.width * self.pixel,
            map: self.width.div_ceil(8),
        };
        let mut left = Buffers::new(ask.target, ask.map, report.salt());
        let (mut map, covered) = (vec![0; ask.map], wanted.map_or(0, |_| self.width));
        (0..covered).for_each(|k| map[k / 8] |= 0x80 >> (k % 8));
        let background = ask.question.background.repeat(self.width);
        let target = wanted.unwrap_or(&background);
        let said = Answer {
            number: 0,
            place: 0,
            value: Counted {
                covered: covered as u64,
                stored: covered as u64,
            },
        };
        let plain = plain(&ask, &mut Random::new(report.salt()));
        for release in Release::ALL {
            report.under(release).questions += 1;
            for (composer, call) in COMPOSERS {
                let (lent_target, lent_map) = (left.target.lend(), left.map.lend());
                let got = report.call(release, |number| {
                    call(self.bytes, number, &plain, lent_target, lent_map)
                });
                let is_same = got == said && left.target.lent() == target && left.map.lent() == map;
                if !is_same {
                    let release = name(release);
                    report.differs(format!(
                        "{composer} under {release} at {start}: {got:?}, or another plane"
                    ));
                }
            }
            let (target, map) = (left.target.lend(), left.map.lend());
            let file = judge(self.bytes, release);
            let counts = file.and_then(|file| file.compose(&ask.question, target, map));
            let covered = counts.map(|counts| counts.covered);
            report.compare("the reference", &covered, &Ok(said.value.covered));
            let is_same = left.target.lent() == wanted.unwrap_or(&background);
            report.compare("the reference's plane", &is_same, &true);
        }
    }
}

/// Each of 1,024 layers, and one before and one past them: once in a run.
pub fn check_every(report: &mut Report) {
    let last = i32::MAX - MOST_LAYERS;
    for (pixel_type, pixel, letter, start) in [
        (1, 2, b'Z', 0),
        (11, 24, b'A', last),
        (0, 1, b'T', i32::MIN),
    ] {
        let tile = OneTile::layered((5, 1), (pixel_type, pixel), (letter, start, 1_024));
        let mut bytes = tile.head.clone();
        for number in 0..1_024 {
            bytes.extend(pixels(number, tile.layer));
        }
        bytes.resize(tile.length, 0);
        report.at("each of 1,024 layers", &bytes);
        let read = Read::new(&bytes, report);
        reader::check(&read, report);
        let asked = Asked {
            bytes: &bytes,
            letter,
            window: [0, 0],
            width: 5,
            pixel_type: pixel_type as u32,
            pixel,
        };
        for number in 0..1_024 {
            let pixels = pixels(number, tile.layer);
            asked.check(start + number as i32, Some(&pixels), report);
            report.far.add("one of 1,024 layers");
        }
        let outside = [start.checked_sub(1), start.checked_add(1_024)];
        for outside in outside.into_iter().flatten() {
            asked.check(outside, None, report);
            report.far.add("one before the first, or one past the last");
        }
        if start == last {
            report.far.add("the last layer at 2^31 - 2");
        }
        report.check_unchanged(&bytes);
    }
}

/// The pixels of a layer, in which its number stands.
fn pixels(number: usize, length: usize) -> Vec<u8> {
    let mut pixels: Vec<u8> = (0..length).map(|k| (k * 7 + number) as u8).collect();
    pixels[0] = (number >> 8) as u8;
    pixels
}

/// Layers that begin past 2^31, 2^32 and 2^38 bytes: once in a run. Their files are zero
/// bytes mapped without memory, but for some pixels of some layers.
pub fn check_far(report: &mut Report) {
    let numbers = [
        0, 1, 127, 128, 255, 256, 257, 511, 512, 682, 683, 767, 1_022, 1_023,
    ];
    for (sides, pixel_type, pixel) in [((1 << 16, 1 << 8), 0, 1), ((1 << 15, 1 << 9), 11, 24)] {
        report.at("layers of a large tile", &[]);
        let start = -500;
        let tile = OneTile::layered(sides, (pixel_type, pixel), (b'Q', start, 1_024));
        // Three pixels in row 5, from column 11 on.
        let within = (5 * sides.0 + 11) * pixel;
        let mut parts = vec![(0, tile.head.clone())];
        for number in numbers {
            parts.push((tile.at(number) + within, pixels(number, 3 * pixel)));
        }
        let bytes = match Zeros::but_for(tile.length, &parts) {
            Ok(bytes) => bytes,
            Err(error) => return report.differs(format!("can't be mapped: {error}")),
        };
        check_views(&bytes, &tile, report);
        let asked = Asked {
            bytes: &bytes,
            letter: b'Q',
            window: [11, 5],
            width: 3,
            pixel_type: pixel_type as u32,
            pixel,
        };
        for number in numbers {
            let pixels = pixels(number, 3 * pixel);
            asked.check(start + number as i32, Some(&pixels), report);
            let begins = number * tile.layer;
            for (bytes, name) in [(1 << 31, FAR[3]), (1 << 32, FAR[4]), (1 << 38, FAR[5])] {
                if begins >= bytes {
                    report.far.add(name);
                }
            }
        }
        // A layer of zero bytes.
        asked.check(start + 300, Some(&vec![0; 3 * pixel]), report);
        asked.check(start - 1, None, report);
        asked.check(start + 1_024, None, report);
    }
}

/// The view of the pixels is all layers.
fn check_views(bytes: &[u8], tile: &Layered, report: &mut Report) {
    let said = report.of_each(|release| calls::tile_pixels(bytes, release, 0));
    let wanted = (0, tile.at(0) as u64, 1_024 * tile.layer as u64);
    for said in said {
        let got = (said.number, said.value.start, said.value.length);
        report.compare("the view of all layers", &got, &wanted);
    }
}

#[cfg(test)]
mod tests {
    use super::*;
    use generate::ask::draw;
    use generate::sound;

    /// A file cut to another layer than the asked one, or with other pixels, is noticed.
    #[test]
    fn a_file_cut_otherwise_is_a_difference() {
        let is_held = |sound: &Sound, cut: &OneLayer, ask: &Ask| {
            let mut report = Report::new();
            report.at("held", &sound.bytes);
            let random = &mut Random::new(5);
            let both = (sound, cut);
            hold_cut(Release::V1_2, &sound.bytes, both, ask, random, &mut report);
            report.passed(true)
        };
        let mut noticed = 0;
        for seed in 0..60 {
            let sound = sound(seed);
            let ask = draw(&sound, &mut Random::new(seed));
            let mut cut = sound.cut(&ask.question);
            assert!(is_held(&sound, &cut, &ask), "seed {seed}");
            let read = judge(&cut.bytes, Release::V1_2).expect("an accepted file");
            let pixels: Vec<u64> = read.tiles.iter().map(|tile| tile.pixels.start).collect();
            for (entry, at) in sound.entries.iter().zip(pixels) {
                if sound.tile(entry).layered().is_some() {
                    cut.bytes[at as usize] ^= 1;
                    assert!(!is_held(&sound, &cut, &ask), "seed {seed}, {at}");
                    cut.bytes[at as usize] ^= 1;
                    noticed += 1;
                }
            }
        }
        assert!(noticed > 20, "{noticed}");
    }
}
