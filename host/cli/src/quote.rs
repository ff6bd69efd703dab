//! The command `quote`: the quote sheet of a window, by settings that a person wrote.
//!
//! The window is composed whole, by one call, so that the sheet is byte for byte what
//! the library wrote: what is proved is proved of that. To cut the window, as `count`
//! does, and to add would take less memory, but the sheet would be this command's own
//! text of this command's own sum. The areas of parts do add up: who lacks the memory
//! quotes parts, each with a sheet, and adds.

use crate::answer::{finish, is_standard, Answer, Sink};
use crate::arguments::{Arguments, Takes};
use crate::failure::Failure;
use crate::input::Input;
use crate::outputs::{look, Output};
use crate::plane::Plane;
use crate::question::Question;
use crate::settings::Said;
use crate::window::Window;
use crate::{memory, pbm, release, settings, streams, system, types};
use czi::calls::{self, SHEET_MIN};
use czi::{Reason, Refusal, Release, Scan};
use std::ffi::OsString;
use std::path::{Path, PathBuf};

const TAKES: Takes = Takes {
    flags: &["--force"],
    values: &[
        "--settings",
        "--sheet",
        "--map",
        "--window",
        "--type",
        "--scene",
        release::OPTION,
        // To say where it is said instead.
        "--masks",
    ],
    many: &["--start"],
};

/// Sound settings have at most 56 bytes. The library takes any length; a file that is
/// longer than this is not read to its end, since it is the wrong one.
const LONGEST: u64 = 65_536;

/// What the settings file is, for who named none.
const NAMES: &str = "it names the file with edition=, pitch_x=, pitch_y= and masks=";

/// Where sheet and map go.
struct Places {
    sheet: PathBuf,
    map: Option<PathBuf>,
    files: Vec<Output>,
}

fn usage<T>(what: &str) -> Result<T, Failure> {
    Err(Failure::Usage(what.to_string()))
}

/// Quotes and answers sheet, map and lines.
pub fn run(words: Vec<OsString>) -> Result<Answer, Failure> {
    let arguments = Arguments::parse(words, &TAKES)?;
    if arguments.flag("--masks") {
        return usage(
            "--masks is none of quote's options: the settings say it, by their line masks=on or \
             masks=off, or by their edition",
        );
    }
    let mut question = Question::parse(&arguments)?;
    let release = release::parse(&arguments)?;
    let map = arguments.path("--map");
    let sheet = arguments.path("--sheet").unwrap_or("-".into());
    let given: Vec<&Path> = [&sheet].into_iter().chain(&map).map(|p| &**p).collect();
    match given.iter().filter(|path| is_standard(path)).count() {
        0 => {}
        // The lines go there.
        1 => drop(streams::error()?),
        _ => return usage("the sheet goes to - unless --sheet names a file, and --map is - too"),
    }
    let path = arguments.only_path("FILE")?;
    let from = match arguments.path("--settings") {
        None => return usage(&format!("--settings is missing: {NAMES}")),
        Some(path) if path.as_os_str().is_empty() => {
            return usage(&format!("--settings is empty: {NAMES}"));
        }
        Some(path) => path,
    };
    if is_standard(&path) && is_standard(&from) {
        return usage("FILE and --settings are both -");
    }
    let input = Input::open(&path)?;
    let opened = Input::open(&from)?;
    let read = [input.identity(), opened.identity()].concat();
    let files: Vec<&Path> = given
        .into_iter()
        .filter(|path| !is_standard(path))
        .collect();
    let files = look(&files, arguments.flag("--force"), &read)?;
    let places = Places { sheet, map, files };
    let settings = opened.contents(LONGEST, "settings are at most 56 bytes long")?;
    refuse_settings(&settings, &question, release)
        .map_err(|refusal| explained(&from, &settings, refusal))?;
    question.masks = settings::masks(&settings);
    let (sinks, lines) = input.reading(|file| {
        let plane = Plane::new(Scan::new(file).release(release), &question, false)?;
        quote(&plane, &settings, &places)
    })?;
    finish(sinks, lines)
}

/// The library's answer about the settings, which goes before that about the file: so
/// it is asked about no file, which is refused by another number.
fn refuse_settings(settings: &[u8], question: &Question, release: Release) -> Result<(), Refusal> {
    let asked = question.plain(Window::default(), 0, &[]);
    let (release, lent) = (release.number(), &mut []);
    let answer = calls::quote(&[], release, &asked, settings, lent, &mut [], &mut []);
    match answer.result() {
        Err(refusal) if is_of_settings(&refusal) => Err(refusal),
        _ => Ok(()),
    }
}

fn is_of_settings(refusal: &Refusal) -> bool {
    matches!(refusal.reason, Reason::Comma | Reason::Settings)
}

/// A refusal of the settings with the line and column that are to be mended, if they
/// are found.
fn explained(path: &Path, settings: &[u8], refusal: Refusal) -> Failure {
    let fault = match refusal.reason {
        Reason::Comma => settings::comma(settings, refusal.place as usize),
        _ => settings::read(settings).err(),
    };
    let path = match is_standard(path) {
        true => "standard input".to_string(),
        false => path.display().to_string(),
    };
    let more = match fault {
        Some(fault) => format!("{path}, {fault}"),
        None => path,
    };
    Failure::Refused(refusal, Some(more))
}

/// The outputs and the lines.
fn quote(plane: &Plane, settings: &[u8], places: &Places) -> Result<(Vec<Sink>, String), Failure> {
    let (window, pixel_type) = plane.whole().map_err(|failure| in_parts(plane, failure))?;
    system::advise_parts();
    let header = pbm::header(window.width, window.height);
    let line = u64::from(window.width.div_ceil(8));
    let picture = header.len() as u64 + line * u64::from(window.height);
    let mut files = places.files.iter();
    let mut sheet = Sink::begin(Some(&places.sheet), &mut files, SHEET_MIN as u64)?;
    let mut map = Sink::begin(places.map.as_deref(), &mut files, picture)?;
    let mut target = buffer(window.pixels() * types::bytes(pixel_type) as u64)?;
    let mut bits = buffer(window.pixels().div_ceil(8))?;
    let mut text = [0; SHEET_MIN];
    let background = plane.background(pixel_type);
    let asked = plane.plain(window, pixel_type, &background);
    let (file, release) = plane.lent();
    let answer = calls::quote(
        file,
        release,
        &asked,
        settings,
        &mut target,
        &mut bits,
        &mut text,
    );
    drop(target);
    let refused = |refusal: Refusal| plane.explained(window, pixel_type, refusal.into());
    let quoted = answer.result().map_err(refused)?;
    let text = &text[..quoted.written as usize];
    sheet.write(text)?;
    map.write(&header)?;
    let (wide, high) = (window.width as usize, window.height as usize);
    pbm::rows(&bits, wide, high, |row| map.write(row))?;
    let text = String::from_utf8_lossy(text);
    let mut lines = match is_standard(&places.sheet) {
        true => String::new(),
        false => text.to_string(),
    };
    if let Some(area) = area(&text) {
        lines += &format!("area_mm2={}\n", square_millimetres(area));
    }
    lines += &format!("pixels={}\n", window.pixels());
    if let Ok(said) = settings::read(settings) {
        let wide = millimetres(u64::from(window.width) * said.pitch_x);
        let high = millimetres(u64::from(window.height) * said.pitch_y);
        lines += &format!("width_mm={wide} height_mm={high}\n{said}\n");
        for note in notes(plane, settings, &said) {
            lines += &format!("note: {note}\n");
        }
    }
    lines += &plane.chosen(Some(pixel_type));
    Ok((vec![sheet, map], lines))
}

/// What a person should look at before the sheet is used.
fn notes(plane: &Plane, settings: &[u8], said: &Said) -> Vec<String> {
    let mut notes = Vec::new();
    let masks = plane.question.masks;
    if !settings::say_masks(settings) {
        let means = if masks { "on" } else { "off" };
        let edition = said.edition;
        notes.push(format!(
            "the settings have no line masks=; edition {edition} means {means}"
        ));
    }
    if masks && plane.scan.release == Release::V1_02 {
        notes.push("release 1.02 has no masks".to_string());
    }
    if said.pitch_x != said.pitch_y {
        notes.push("pitch_x and pitch_y differ".to_string());
    }
    let (left_out, all) = plane.left_out();
    if left_out != 0 {
        notes.push(format!(
            "{left_out} of {all} tiles are left out (scene, channel, layer or another start)"
        ));
    }
    notes
}

/// A refusal of a window that is too large, with what to do about it.
fn in_parts(plane: &Plane, failure: Failure) -> Failure {
    let is_large = plane.window.is_some_and(|window| window.is_large());
    match failure {
        Failure::Refused(refusal, Some(more)) if refusal.reason == Reason::Window && is_large => {
            let parts = "quote parts with --window, and add their areas";
            Failure::Refused(refusal, Some(format!("{more}; {parts}")))
        }
        other => other,
    }
}

/// So many zero bytes for the whole window.
fn buffer(length: u64) -> Result<Vec<u8>, Failure> {
    memory::zeros(length).map_err(|failure| {
        let more = "a quote composes its window whole: quote parts of it with --window, and add \
                    their areas";
        Failure::Other(format!("{failure}; {more}"))
    })
}

/// The area that a sheet says.
fn area(sheet: &str) -> Option<u64> {
    let mut lines = sheet.lines();
    let area = lines.find_map(|line| line.strip_prefix("area_nm2="))?;
    area.parse().ok()
}

/// Nanometres in millimetres, exactly: the point moves by six places.
fn millimetres(length: u64) -> String {
    const MILLIMETRE: u64 = 1_000_000;
    format!("{}.{:06}", length / MILLIMETRE, length % MILLIMETRE)
}

/// Square nanometres in square millimetres, exactly: the point moves by twelve places.
fn square_millimetres(area: u64) -> String {
    const MILLIMETRE: u64 = 1_000_000_000_000;
    format!("{}.{:012}", area / MILLIMETRE, area % MILLIMETRE)
}

#[cfg(test)]
mod tests {
    use super::*;

    #[test]
    fn the_point_moves_by_twelve_places_or_six() {
        for (area, wanted) in [
            (0, "0.000000000000"),
            (120_201_250, "0.000120201250"),
            (1_250_000_000_000_000, "1250.000000000000"),
            (u64::MAX, "18446744.073709551615"),
        ] {
            assert_eq!(square_millimetres(area), wanted);
        }
        for (length, wanted) in [
            (0, "0.000000"),
            (53_750, "0.053750"),
            (65_535 << 16, "4294.901760"),
        ] {
            assert_eq!(millimetres(length), wanted);
        }
        assert_eq!(
            area("covered=1\narea_nm2=18446744073709551615\n"),
            Some(u64::MAX)
        );
        assert_eq!(area("covered=1\n"), None);
    }

    fn library(text: &[u8]) -> Result<(), Refusal> {
        let arguments = Arguments::default();
        let question = Question::parse(&arguments).unwrap();
        refuse_settings(text, &question, Release::default())
    }

    /// What the library refuses is explained, and nothing else is: every text that is
    /// one byte away from sound settings, with one more, one less or another.
    #[test]
    fn explained_is_what_the_library_refuses() {
        let sound: [&[u8]; 4] = [
            b"edition=1\npitch_x=1.25\npitch_y=00065.535\n",
            b"edition=2\npitch_x=0.001\npitch_y=65\nmasks=on\n",
            b"edition=2\npitch_x=9\npitch_y=1.5\nmasks=off\n",
            b"edition=1\npitch_x=10.5\npitch_y=2.25\nmasks=on\n",
        ];
        let (mut taken, mut refused) = (0, 0);
        for text in sound {
            assert_eq!(
                (library(text), settings::read(text).is_ok()),
                (Ok(()), true)
            );
            for at in 0..=text.len() {
                let (before, behind) = text.split_at(at);
                let rest = behind.get(1..).unwrap_or_default();
                let mut others = vec![[before, rest].concat(), before.to_vec()];
                for byte in 0..=255 {
                    others.push([before, &[byte], behind].concat());
                    others.push([before, &[byte], rest].concat());
                }
                for other in others {
                    let is_explained = match library(&other) {
                        Ok(()) => {
                            taken += 1;
                            assert!(settings::read(&other).is_ok(), "{other:?}");
                            continue;
                        }
                        Err(refusal) if refusal.reason == Reason::Comma => {
                            settings::comma(&other, refusal.place as usize).is_some()
                        }
                        Err(_) => settings::read(&other).is_err(),
                    };
                    assert!(is_explained, "{}", String::from_utf8_lossy(&other));
                    refused += 1;
                }
            }
        }
        assert!(taken > 500 && refused > 50_000, "{taken} {refused}");
    }

    /// What a person is told to write instead of a line, which stands behind `write`.
    fn offered(name: &str, said: &str) -> Vec<String> {
        let behind = said.split("write ").skip(1);
        let words = behind.map(|text| text.trim_start_matches('"'));
        let words = words.map(|text| text.split([' ', ',', ';', ':', '"', ')']).next().unwrap());
        let words = words.filter(|word| word.contains('=') || word.contains(char::is_numeric));
        let line = |word: &str| match word.contains('=') {
            true => word.to_string(),
            false => format!("{name}={word}"),
        };
        words.map(line).collect()
    }

    /// Whoever writes what is advised is not refused: lines of all values of at most
    /// four such characters, and some more.
    #[test]
    fn what_is_offered_is_taken() {
        let mut values = vec![String::new()];
        for from in 0..4681 {
            let more = "05.,n #:".chars().map(|c| format!("{}{c}", values[from]));
            let more: Vec<String> = more.filter(|value| value.len() <= 4).collect();
            values.extend(more);
        }
        let some = "65,5 nm/65,5nm/0,65 um/325 um/325 nm/65536 nm/65.5 nm/1.25 mm/1,250/65,536/325/\
                    99999/1 250/1,250 nm/ON/Off/ yes/maybe/3/2,/on,/1, /2 nm,/0.325,/1,25\r/3.25e-1";
        values.extend(some.split('/').map(str::to_string));
        let sound = ["edition=1", "pitch_x=1.25", "pitch_y=0.5", "masks=on"];
        let text = |lines: [&str; 4]| lines.map(|line| format!("{line}\n")).concat();
        let (mut refused, mut offers) = (0, 0);
        for (k, line) in sound.iter().enumerate() {
            let (name, _) = line.split_once('=').unwrap();
            for (value, begin) in values
                .iter()
                .zip([name, &name.to_uppercase(), "#"].iter().cycle())
            {
                let mut lines = sound;
                let wrong = format!("{begin}={value}");
                lines[k] = &wrong;
                let wrong = text(lines);
                let Err(refusal) = library(wrong.as_bytes()) else {
                    continue;
                };
                refused += 1;
                let said = explained(Path::new("a"), wrong.as_bytes(), refusal).to_string();
                for offered in offered(name, &said) {
                    let mut lines = sound;
                    lines[k] = &offered;
                    assert_eq!(library(text(lines).as_bytes()), Ok(()), "{wrong}: {said}");
                    offers += 1;
                }
            }
        }
        assert!(refused > 10_000 && offers > 500, "{refused} {offers}");
    }

    #[test]
    fn where_nothing_is_found_the_refusal_is_said_alone() {
        let sound = b"edition=1\npitch_x=1.25\npitch_y=1\n";
        for (refusal, words) in [
            (Refusal::new(35, 0), "refused 35 at 0: "),
            (Refusal::new(34, 3), "refused 34 at 3: "),
            (Refusal::new(34, u64::MAX), "refused 34 at "),
        ] {
            let said = explained(Path::new("a.txt"), sound, refusal).to_string();
            assert!(
                said.starts_with(words) && said.ends_with(" (a.txt)"),
                "{said}"
            );
        }
    }
}
