//! Settings of a quote: read as they were drawn, refused as foretold; and the sheet of
//! a plane as a painter paints it.

use crate::painter::{paint, Painting};
use crate::report::Report;
use generate::ask::{draw, first_of_another_type};
use generate::{scramble_settings, FaultySettings, Random, Settings, Sound};
use reference::{judge, quote, Refusal, Release};
use std::io::{self, Write};

/// A sheet is at least so long.
const SHEET: usize = 49;

/// A window has at most so many pixels.
const PIXELS: i64 = 1 << 32;

/// A file brings so many settings of each kind with it.
const SETTINGS: usize = 12;

/// So many quotes are asked of a file.
const QUOTES: usize = 2;

/// Sound settings, faulty ones, and scrambled ones, of which nothing is foretold but
/// that a comma goes first.
pub fn check(sound: &Sound, random: &mut Random, report: &mut Report) {
    for _ in 0..SETTINGS {
        let settings = Settings::draw(random);
        let covered = count(random);
        is_read(&settings, covered, report);
        is_read(&settings.alike(random), covered, report);
        is_refused(&FaultySettings::draw(random), report);
        check_scrambled(&scramble_settings(random), report);
    }
    for _ in 0..QUOTES {
        check_quote(sound, random, report);
    }
}

/// A count of covered pixels, often the least or the greatest.
fn count(random: &mut Random) -> u64 {
    let any = random.between(0, PIXELS);
    random.pick(&[0, 1, any, any, PIXELS]) as u64
}

/// Edition, pitches and masks are those that were drawn, and so is the sheet.
fn is_read(settings: &Settings, covered: u64, report: &mut Report) {
    report.settings += 1;
    let bytes = settings.bytes();
    let [pitch_x, pitch_y] = settings.pitches.map(|pitch| pitch.nanometres);
    let wanted = reference::Settings {
        edition: settings.edition,
        pitch_x,
        pitch_y,
        masks: settings.masks(),
    };
    let got = reference::Settings::read(&bytes);
    let sheet = settings.sheet(covered);
    report.compare("sheet of a count", wanted.sheet(covered), sheet);
    if got == Ok(wanted) {
        for freedom in settings.freedoms() {
            report.settings_freedoms.add(freedom);
        }
    } else {
        let shown = bytes.escape_ascii();
        report.differs(format!("settings: {got:?} instead of {wanted:?}: {shown}"));
    }
}

fn is_refused(faulty: &FaultySettings, report: &mut Report) {
    report.settings += 1;
    let got = reference::Settings::read(&faulty.bytes).err();
    if got == Some(faulty.refusal) {
        report.clauses.add(faulty.name);
    } else {
        let (name, shown) = (faulty.name, faulty.bytes.escape_ascii());
        report.differs(format!("{name}: {got:?}: {shown}"));
    }
}

fn check_scrambled(bytes: &[u8], report: &mut Report) {
    report.settings += 1;
    let comma = bytes.iter().position(|byte| *byte == b',');
    let got = reference::Settings::read(bytes).err();
    let may_be = match comma {
        Some(comma) => got == Some(Refusal::new(34, comma as u64)),
        None => matches!(
            got,
            None | Some(Refusal {
                number: 35,
                place: 0
            })
        ),
    };
    report.compare("scrambled settings", may_be, true);
}

/// Target and map are the painter's with the masks that the settings mean, and the
/// sheet has the painter's count.
fn check_quote(sound: &Sound, random: &mut Random, report: &mut Report) {
    let settings = Settings::draw(random);
    let mut ask = draw(sound, random);
    for release in Release::ALL {
        let Ok(file) = judge(&sound.bytes, release) else {
            return;
        };
        let lent = SHEET + random.pick(&[0, 0, 1, 30]);
        let Painting {
            mut target,
            mut map,
            ..
        } = Painting::lent(&ask);
        let mut sheet = vec![0x55; lent];
        let bytes = settings.bytes();
        let question = &ask.question;
        let got = quote(
            Ok(&file),
            question,
            &bytes,
            &mut target,
            &mut map,
            &mut sheet,
        );
        if let Some(entry) = first_of_another_type(sound, &ask) {
            let wanted = Refusal::new(23, entry.place as u64);
            report.compare("a quote of another type", got.err(), Some(wanted));
            continue;
        }
        ask.question.masks = settings.masks();
        let painting = paint(sound, &ask, release);
        let text = settings.sheet(painting.covered).into_bytes();
        let mut wanted_sheet = text.clone();
        wanted_sheet.resize(lent, 0x55);
        report.quotes += 1;
        let got = got.map(|q| (q.covered, q.written));
        let wanted = Ok((painting.covered, text.len() as u64));
        report.compare("quote", got, wanted);
        report.compare("sheet", sheet, wanted_sheet);
        let is_same = target == painting.target && map == painting.map;
        report.compare("plane of a quote", is_same, true);
    }
}

/// Writes so many settings of every kind, each in a line: the text and what the reference
/// says of it and of a count of covered pixels, the texts as hexadecimal digits.
pub fn write(first: u64, settings: u64) -> io::Result<()> {
    let random = &mut Random::new(first);
    let mut out = io::BufWriter::new(io::stdout().lock());
    for _ in 0..settings {
        let bytes = match random.below(3) {
            0 => Settings::draw(random).bytes(),
            1 => FaultySettings::draw(random).bytes,
            _ => scramble_settings(random),
        };
        let covered = count(random);
        let said = match reference::Settings::read(&bytes) {
            Ok(settings) => format!("masks={:?}\n{}", settings.masks, settings.sheet(covered)),
            Err(refusal) => format!("refused={}\nplace={}\n", refusal.number, refusal.place),
        };
        writeln!(
            out,
            "0x{} {covered} 0x{}",
            hex(&bytes),
            hex(said.as_bytes())
        )?;
    }
    out.flush()
}

/// The bytes as hexadecimal digits.
pub fn hex(bytes: &[u8]) -> String {
    let digits = bytes.iter().flat_map(|byte| [byte >> 4, byte & 15]);
    let digit = |digit| char::from_digit(u32::from(digit), 16);
    digits.filter_map(digit).collect()
}
