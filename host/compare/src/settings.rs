//! Settings of a quote, each kind once in a run: every byte of sound ones changed, every
//! short pitch, every pitch in nanometres, long settings, and large planes.

use crate::lent::{Enclosed, Sheeted};
use crate::quotes::{answered, by_reference};
use crate::read::Read;
use crate::report::{name, Report};
use czi::calls::{self, Plain};
use generate::{OneTile, SECTION};
use reference::{Masks, Question, Release};

/// A file of one tile and a window of two of its pixels; of these the mask has one, so
/// that count and area show the choice of masks and both pitches.
struct Desk<'a> {
    read: &'a Read<'a>,
    question: Question,
    lent: Sheeted,
    got: Sheeted,
    wanted: Sheeted,
}

/// Runs a check on the desk.
fn at_desk(stage: &str, report: &mut Report, check: impl FnOnce(&mut Desk, &mut Report)) {
    let mut file = OneTile::new();
    let bytes = file.with(SECTION, &OneTile::mask([0x80, 0]));
    report.at(stage, bytes);
    let read = &Read::new(bytes, report);
    let lent = Sheeted::new(2, 1, 53, report.salt());
    let mut desk = Desk {
        read,
        question: question(2, 1),
        got: lent.clone(),
        wanted: lent.clone(),
        lent,
    };
    check(&mut desk, report);
}

/// The window of these sides at 0, 0.
fn question(width: u32, height: u32) -> Question {
    Question {
        starts: Vec::new(),
        any_scene: false,
        pixel_type: 0,
        background: vec![0xEE],
        left: 0,
        top: 0,
        width,
        height,
        masks: Masks::NotChosen,
    }
}

fn plain(question: &Question) -> Plain<'_> {
    Plain {
        starts: &question.starts,
        any_scene: 0,
        pixel_type: question.pixel_type,
        background: &question.background,
        left: question.left,
        top: question.top,
        width: question.width,
        height: question.height,
        masks: 0,
    }
}

impl Desk<'_> {
    /// A quote by these settings under each release, the last under 1.2. Answers whether
    /// they are sound, by the reference.
    fn check(&mut self, settings: &[u8], report: &mut Report) -> bool {
        self.check_under(Release::V1_02, settings, report);
        self.check_under(Release::V1_2, settings, report)
    }

    fn check_under(&mut self, release: Release, settings: &[u8], report: &mut Report) -> bool {
        report.under(release).quotes += 1;
        let settings = Enclosed::new(settings, report.salt());
        self.wanted.copy(&self.lent);
        self.got.copy(&self.lent);
        let file = self.read.under(release);
        let quoted = by_reference(file, &self.question, settings.part(), &mut self.wanted);
        let (got, plain) = (&mut self.got, plain(&self.question));
        let (target, map) = (got.buffers.target.lend(), got.buffers.map.lend());
        let sheet = got.sheet.lend();
        let said = report.call(release, |number| {
            let bytes = self.read.bytes;
            calls::quote(bytes, number, &plain, settings.part(), target, map, sheet)
        });
        let is_same = said == answered(quoted) && self.got == self.wanted && settings.is_as_lent();
        if !is_same {
            let (shown, wanted) = (settings.part().escape_ascii(), answered(quoted));
            let (release, difference) = (name(release), self.got.difference(&self.wanted));
            report.differs(format!(
                "quote under {release}: {said:?} instead of {wanted:?}, {difference:?}: \"{shown}\""
            ));
        }
        quoted.is_ok()
    }
}

/// Sound settings of either edition, with a masks line and without, with decimals and
/// without.
const SOUND: [&[u8]; 8] = [
    b"edition=1\npitch_x=7\npitch_y=12\n",
    b"edition=1\npitch_x=0.325\npitch_y=65.535\n",
    b"edition=1\npitch_x=00065\npitch_y=1\nmasks=on\n",
    b"edition=1\npitch_x=1.5\npitch_y=00000.001\nmasks=off\n",
    b"edition=2\npitch_x=65\npitch_y=00001\n",
    b"edition=2\npitch_x=64.99\npitch_y=0.1\n",
    b"edition=2\npitch_x=10\npitch_y=9\nmasks=on\n",
    b"edition=2\npitch_x=00012.345\npitch_y=6.50\nmasks=off\n",
];

/// What is put in everywhere.
const PUT: &[&[u8]] = &[
    b"\n",
    b"\r",
    b"\r\n",
    b" ",
    b"\t",
    b"\0",
    b",",
    b".",
    b"-",
    b"+",
    b"=",
    b"_",
    b"0",
    b"1",
    b"2",
    b"5",
    b"6",
    b"9",
    b"/",
    b":",
    b";",
    b"a",
    b"e",
    b"E",
    b"f",
    b"n",
    b"o",
    b"\x7F",
    b"\x80",
    b"\xA0",
    b"\xC2",
    b"\xC2\xA0",
    b"\xFF",
    b"\xEF\xBB\xBF",
    b"00",
    b"masks=on\n",
    b"pitch_x=1\n",
];

/// Every byte replaced by every other, taken out, doubled, exchanged with the next;
/// parts put in everywhere; cut at every length from either end; lines exchanged,
/// doubled, taken out.
pub fn check_changed(report: &mut Report) {
    at_desk("settings with a change", report, |desk, report| {
        for sound in SOUND {
            let is_sound = desk.check(sound, report);
            report.compare("settings without a change", &is_sound, &true);
        }
        let mut check = |settings: &[u8]| {
            let is_sound = desk.check(settings, report);
            report.changed.note(is_sound);
        };
        for sound in SOUND {
            let mut changed = sound.to_vec();
            for (at, byte) in sound.iter().enumerate() {
                for other in 0..=255 {
                    changed[at] = other;
                    check(&changed);
                }
                changed[at] = *byte;
                let (before, behind) = sound.split_at(at);
                check(before);
                check(behind);
                check(&[before, &behind[1..]].concat());
                check(&[before, &behind[..1], behind].concat());
                if let Some(next) = behind.get(1) {
                    check(&[before, &[*next, *byte], &behind[2..]].concat());
                }
            }
            for at in 0..=sound.len() {
                let (before, behind) = sound.split_at(at);
                for part in PUT {
                    check(&[before, part, behind].concat());
                }
            }
            check_lines(sound, &mut check);
        }
    });
}

fn check_lines(sound: &[u8], check: &mut impl FnMut(&[u8])) {
    let lines: Vec<&[u8]> = sound.split_inclusive(|byte| *byte == b'\n').collect();
    for first in 0..lines.len() {
        for second in 0..lines.len() {
            let mut exchanged = lines.clone();
            exchanged.swap(first, second);
            check(&exchanged.concat());
            let mut again = lines.clone();
            again.insert(second, lines[first]);
            check(&again.concat());
            let mut instead = lines.clone();
            instead[second] = lines[first];
            check(&instead.concat());
        }
        let mut without = lines.clone();
        without.remove(first);
        check(&without.concat());
    }
    check(&sound.repeat(2));
}

/// Bytes of short pitches, and their greatest length.
const PITCHES: [(&[u8], u32); 2] = [(b"01569.,- \n", 5), (b"06.", 10)];

/// Every pitch of up to so many of these bytes along X, and along Y all but the longest.
pub fn check_pitches(report: &mut Report) {
    at_desk("every short pitch", report, |desk, report| {
        for (bytes, longest) in PITCHES {
            for length in 0..=longest {
                for number in 0..bytes.len().pow(length) {
                    let digit = |k| bytes[number / bytes.len().pow(k) % bytes.len()];
                    let pitch: Vec<u8> = (0..length).map(digit).collect();
                    let x = [b"edition=1\npitch_x=", &pitch[..], b"\npitch_y=0.003\n"];
                    let is_sound = desk.check(&x.concat(), report);
                    report.pitches.note(is_sound);
                    if length < longest {
                        let y = [b"edition=2\npitch_x=0.007\npitch_y=", &pitch[..], b"\n"];
                        let is_sound = desk.check(&y.concat(), report);
                        report.pitches.note(is_sound);
                    }
                }
            }
        }
    });
}

/// Every pitch from 0 to over 65,535 nanometres, with three decimals along X and in its
/// shortest writing along Y.
pub fn check_nanometres(report: &mut Report) {
    at_desk("every pitch in nanometres", report, |desk, report| {
        for nanometres in (0..67_000_u64).chain((67_000..99_999_999).step_by(9_973)) {
            let (whole, rest) = (nanometres / 1000, nanometres % 1000);
            let long = format!("{whole}.{rest:03}");
            let short = long.trim_end_matches('0').trim_end_matches('.');
            let text = format!("edition=2\npitch_x={long}\npitch_y={short}\nmasks=off\n");
            let is_sound = desk.check(text.as_bytes(), report);
            let wanted = (1..=65_535).contains(&nanometres);
            report.compare("sound", &is_sound, &wanted);
            if is_sound {
                let area = 2 * nanometres * nanometres;
                let wanted = format!("covered=2\narea_nm2={area}\n");
                let is_written = desk.got.sheet.lent().starts_with(wanted.as_bytes());
                report.compare(&format!("the sheet by {text:?}"), &is_written, &true);
            }
            report.pitches.note(is_sound);
        }
    });
}

/// About so long.
const LONG: usize = 1 << 20;

/// Long settings of one kind.
pub fn check_long(report: &mut Report) {
    at_desk("long settings", report, |desk, report| {
        let many = |part: &str| part.repeat(LONG / part.len());
        let sound = "edition=1\npitch_x=1\npitch_y=1\nmasks=on\n";
        let all = [
            many("0"),
            many("1"),
            many(","),
            many("\n"),
            many("\0"),
            many("="),
            many("."),
            many("edition=1\n"),
            many(sound),
            format!("{},", many("1")),
            format!("{sound}{},", many("\n")),
            format!("{sound}{}", many("masks=on\n")),
            format!("edition={}\npitch_x=1\npitch_y=1\n", many("1")),
            format!("edition=1\npitch_x={}1\npitch_y=1\n", many("0")),
            format!("edition=1\npitch_x=1.{}\npitch_y=1\n", many("0")),
            format!("edition=1\npitch_x=1\npitch_y={}.5\n", many("0")),
            format!("edition=1\npitch_x=1\npitch_y=1\nmasks=on{}\n", many("n")),
        ];
        for settings in all {
            let is_sound = desk.check(settings.as_bytes(), report);
            report.compare("long settings", &is_sound, &false);
        }
    });
}

/// The sides of large planes, all odd so that an area has no factor of 2, and whether the
/// reference composes them too.
const LARGE: [(u32, u32, bool); 3] = [(1023, 511, true), (65_535, 63, false), (4095, 4095, false)];

/// Areas of up to 57 bits: nearly 2^24 pixels, all of them covered.
pub fn check_large(report: &mut Report) {
    for (width, height, by_both) in LARGE {
        let bytes = OneTile::zeros(width as usize, height as usize);
        report.at("a large plane", &bytes);
        let read = &Read::new(&bytes, report);
        let question = question(width, height);
        let pixels = question.pixels();
        let lent = Sheeted::new(
            pixels as usize,
            pixels.div_ceil(8) as usize,
            49,
            report.salt(),
        );
        for (x, y) in [
            ("65.535", "65.535"),
            ("65.535", "0.001"),
            ("12.345", "00006.789"),
        ] {
            let text = format!("edition=1\npitch_x={x}\npitch_y={y}\n");
            let what = format!("{text:?}, {width} x {height} pixels");
            let mut got = lent.clone();
            let plain = plain(&question);
            let [older, said] = [Release::V1_02, Release::V1_2].map(|release| {
                report.under(release).quotes += 1;
                let (target, map) = (got.buffers.target.lend(), got.buffers.map.lend());
                let sheet = got.sheet.lend();
                report.call(release, |number| {
                    calls::quote(&bytes, number, &plain, text.as_bytes(), target, map, sheet)
                })
            });
            report.compare(&what, &older, &said);
            let nanometres = |pitch: &str| pitch.replace('.', "").parse::<u128>().unwrap_or(0);
            let area = u128::from(pixels) * nanometres(x) * nanometres(y);
            let wanted = format!("covered={pixels}\narea_nm2={area}\n");
            let told = (
                said.number,
                said.place,
                said.value.covered,
                said.value.written,
            );
            report.compare(&what, &told, &(0, 0, pixels, wanted.len() as u64));
            let is_written = got.sheet.lent().starts_with(wanted.as_bytes());
            report.compare(&what, &is_written, &true);
            if by_both {
                let mut by = lent.clone();
                let file = read.under(Release::V1_2);
                let quoted = by_reference(file, &question, text.as_bytes(), &mut by);
                report.compare(&what, &said, &answered(quoted));
                report.compare(&what, &got.difference(&by), &None);
            }
        }
    }
}
