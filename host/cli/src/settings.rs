//! What a person wrote into a settings file, in words: where the first fault stands
//! and how it is mended. Whether settings are taken the library alone decides; what
//! stands here is said beside its answer and changes nothing of it.

use crate::words::quoted;
use std::fmt;

/// The lines in their order; the last may lack.
const NAMES: [&str; 4] = ["edition", "pitch_x", "pitch_y", "masks"];

/// The greatest pitch in nanometres; the least is 1.
const MOST: u64 = 65_535;

/// How a pitch is written, and what it comes to.
const FORM: &str = "a pitch is one to five digits, or these, a point and one to three digits more";
const RANGE: &str = "pitch is in micrometres, 0.001 to 65.535";

/// What the lack of the last line means.
const NO_MASKS: &str = "write masks=on or masks=off; without the line masks are off in edition 1 \
                        and on in edition 2";

/// The units that people write behind a pitch, in small letters: micrometres, with the
/// micro sign and with the Greek letter, nanometres, and others.
const MICROMETRES: [&str; 10] = [
    "um",
    "\u{b5}m",
    "\u{3bc}m",
    "mkm",
    "micron",
    "microns",
    "micrometre",
    "micrometres",
    "micrometer",
    "micrometers",
];
const NANOMETRES: [&str; 5] = ["nm", "nanometre", "nanometres", "nanometer", "nanometers"];
const OTHERS: [&str; 17] = [
    "mm",
    "millimetre",
    "millimetres",
    "millimeter",
    "millimeters",
    "cm",
    "m",
    "pm",
    "\u{e5}",
    "in",
    "inch",
    "inches",
    "mil",
    "mils",
    "px",
    "pixel",
    "pixels",
];

/// What sound settings say but the masks.
#[derive(Clone, Copy, Debug, PartialEq, Eq)]
pub struct Said {
    /// 1 or 2.
    pub edition: u64,
    /// The pitch along X, in nanometres.
    pub pitch_x: u64,
    /// That along Y.
    pub pitch_y: u64,
}

impl fmt::Display for Said {
    fn fmt(&self, f: &mut fmt::Formatter<'_>) -> fmt::Result {
        let Said {
            edition,
            pitch_x,
            pitch_y,
        } = self;
        write!(
            f,
            "edition={edition} pitch_x_nm={pitch_x} pitch_y_nm={pitch_y}"
        )
    }
}

/// A fault of the settings: line and column, counted from 1, and what is wrong.
#[derive(Debug, PartialEq, Eq)]
pub struct Fault {
    line: usize,
    column: usize,
    what: String,
}

impl fmt::Display for Fault {
    fn fmt(&self, f: &mut fmt::Formatter<'_>) -> fmt::Result {
        let Fault { line, column, what } = self;
        write!(f, "line {line}, column {column}: {what}")
    }
}

/// Have settings that are taken a line that says masks?
pub fn say_masks(settings: &[u8]) -> bool {
    settings.ends_with(b"\nmasks=on\n") || settings.ends_with(b"\nmasks=off\n")
}

/// Do settings that are taken turn masks on?
pub fn masks(settings: &[u8]) -> bool {
    match say_masks(settings) {
        true => settings.ends_with(b"=on\n"),
        false => settings.starts_with(b"edition=2\n"),
    }
}

/// The fault of a comma at that offset; nothing where there is none.
pub fn comma(settings: &[u8], at: usize) -> Option<Fault> {
    if settings.get(at) != Some(&b',') {
        return None;
    }
    if let Some(what) = no_text(settings) {
        return Some(first(what));
    }
    let line = line_at(settings, at);
    let mut what = match settings.contains(&0) {
        true => "a comma, and the file has zero bytes, so it is no plain text".to_string(),
        false => with_comma(&text(line)),
    };
    let commas = settings.iter().filter(|byte| **byte == b',').count();
    if commas > 1 {
        what += &format!("; there are {commas} commas");
    }
    Some(fault_at(settings, at, what))
}

/// What the settings say, or the first line that is not as it has to be. A comma is
/// not looked for.
pub fn read(settings: &[u8]) -> Result<Said, Fault> {
    if let Some(what) = no_text(settings).or(hidden_or_empty(settings)) {
        return Err(first(what));
    }
    if let Some(at) = settings.iter().position(|byte| *byte == 0) {
        let what = "a zero byte, which an editor may not show, so the file is no plain text";
        return Err(fault_at(settings, at, what.to_string()));
    }
    let mut lines: Vec<&[u8]> = settings.split(|byte| *byte == b'\n').collect();
    let is_ended = lines.last().is_some_and(|rest| rest.is_empty());
    if is_ended {
        lines.pop();
    }
    let mut numbers = [0; 4];
    for (k, name) in NAMES.into_iter().enumerate() {
        let fault = |column: usize, what: String| Fault {
            line: k + 1,
            column: column + 1,
            what,
        };
        let Some(line) = lines.get(k) else {
            if k == 3 {
                break;
            }
            return Err(fault(0, format!("the line {name}= is missing")));
        };
        if let Some(at) = line.iter().position(|byte| *byte == b'\r') {
            let column = text(&line[..at]).chars().count();
            return Err(fault(column, carriage_return(&line[at..]).to_string()));
        }
        let Some(value) = line
            .strip_prefix(name.as_bytes())
            .and_then(|rest| rest.strip_prefix(b"="))
        else {
            return Err(fault(0, another_line(k, &lines)));
        };
        numbers[k] = number_of(name, &text(value)).map_err(|what| fault(name.len() + 1, what))?;
    }
    if let Some(more) = lines.get(NAMES.len()) {
        let what = match blank(more) {
            true => "an empty line: remove it".to_string(),
            false => format!(
                "nothing may stand behind the line masks=, and here stands {}",
                shown(more)
            ),
        };
        return Err(Fault {
            line: NAMES.len() + 1,
            column: 1,
            what,
        });
    }
    if let (false, Some(last)) = (is_ended, lines.last()) {
        return Err(Fault {
            line: lines.len(),
            column: text(last).chars().count() + 1,
            what: "the last line has no line end: press Enter behind it, and save".to_string(),
        });
    }
    let [edition, pitch_x, pitch_y, _] = numbers;
    Ok(Said {
        edition,
        pitch_x,
        pitch_y,
    })
}

/// A fault of the whole file.
fn first(what: &str) -> Fault {
    Fault {
        line: 1,
        column: 1,
        what: what.to_string(),
    }
}

/// Does a line end at that byte? Editors take a carriage return for a line's end where
/// no newline follows it.
fn is_end(settings: &[u8], at: usize) -> bool {
    match settings.get(at) {
        Some(b'\n') => true,
        Some(b'\r') => settings.get(at + 1) != Some(&b'\n'),
        _ => false,
    }
}

/// Where the line of that offset begins.
fn begin(settings: &[u8], at: usize) -> usize {
    let end = (0..at).rev().find(|k| is_end(settings, *k));
    end.map_or(0, |k| k + 1)
}

/// The line of that offset, without its end.
fn line_at(settings: &[u8], at: usize) -> &[u8] {
    let line = &settings[begin(settings, at)..];
    let is_end = |byte: &u8| matches!(byte, b'\n' | b'\r');
    &line[..line.iter().position(is_end).unwrap_or(line.len())]
}

/// A fault at that offset, line and column as an editor counts them.
fn fault_at(settings: &[u8], at: usize, what: String) -> Fault {
    Fault {
        line: (0..at).filter(|k| is_end(settings, *k)).count() + 1,
        column: text(&settings[begin(settings, at)..at]).chars().count() + 1,
        what,
    }
}

/// What the file is where it is no plain text.
fn no_text(settings: &[u8]) -> Option<&'static str> {
    if settings.starts_with(b"ZISRAW") {
        Some("this is a CZI file, and --settings names a text file")
    } else if settings.starts_with(b"\xFF\xFE") || settings.starts_with(b"\xFE\xFF") {
        Some(
            "the file is text of two bytes a character (UTF-16): save it as plain text, ASCII or \
             UTF-8",
        )
    } else {
        None
    }
}

/// What is wrong with the file's begin where an editor does not show it.
fn hidden_or_empty(settings: &[u8]) -> Option<&'static str> {
    if settings.is_empty() {
        Some(
            "the file is empty; wanted are the lines edition=, pitch_x=, pitch_y= and, if you \
             like, masks=",
        )
    } else if settings.starts_with(b"\xEF\xBB\xBF") {
        Some(
            "a byte order mark, which an editor does not show, stands before the first line: \
             save the file as UTF-8 without it",
        )
    } else {
        None
    }
}

/// What is said of a line's first carriage return; the rest of the line begins with it.
fn carriage_return(rest: &[u8]) -> &'static str {
    match rest {
        b"\r" => {
            "a carriage return stands before the line's end, as editors on Windows write it: save \
             the file with line ends of Unix (LF)"
        }
        _ => {
            "a carriage return stands in the line, as some editors write it for a line's end: save \
             the file with line ends of Unix (LF)"
        }
    }
}

fn text(bytes: &[u8]) -> String {
    String::from_utf8_lossy(bytes).into_owned()
}

/// Does a line have nothing but blanks that an editor shows as such?
fn blank(line: &[u8]) -> bool {
    line.iter().all(|byte| matches!(byte, b' ' | b'\t' | b'\r'))
}

/// So much of a line as is shown.
fn shown(line: &[u8]) -> String {
    const LONG: usize = 40;
    let text = text(line);
    match text.chars().count() > LONG {
        true => quoted(&text.chars().take(LONG).collect::<String>()) + " ..",
        false => quoted(&text),
    }
}

/// What stands before the first `=`, or `:`, without blanks and in small letters, and
/// what stands behind it.
fn halves(line: &str) -> (String, &str) {
    let (name, value) = line.split_once(['=', ':']).unwrap_or((line, ""));
    (name.trim().to_lowercase(), value)
}

/// The first characters of a text, as long as they are such.
fn leading(text: &str, is: impl Fn(char) -> bool) -> &str {
    &text[..text.find(|c| !is(c)).unwrap_or(text.len())]
}

/// The value, where it is taken behind that name: only such a one is told to be
/// written.
fn offer<'a>(name: &str, value: &'a str) -> Option<&'a str> {
    let is_taken = match name {
        "edition" => matches!(value, "1" | "2"),
        "masks" => matches!(value, "on" | "off"),
        "pitch_x" | "pitch_y" => pitch(value).is_some_and(|nm| (1..=MOST).contains(&nm)),
        _ => false,
    };
    is_taken.then_some(value)
}

/// What is wrong with a line that has a comma.
fn with_comma(line: &str) -> String {
    let (name, value) = halves(line);
    let is_pitch = ["pitch_x", "pitch_y"].contains(&name.as_str());
    let bare = value.trim();
    let number = leading(bare, |c| c.is_ascii_digit() || matches!(c, '.' | ','));
    let more = bare[number.len()..].trim();
    let mended = value.replace(',', ".");
    if value.contains('=') {
        "no comma stands between settings, each has a line of its own".to_string()
    } else if let (true, Some(mended)) = (is_pitch, offer(&name, &mended)) {
        match may_be_thousands(value) {
            true => format!(
                "a comma: if {mended} micrometres are meant, write {mended}; no comma stands \
                 between thousands either"
            ),
            false => format!("decimal comma? write {mended}, not {value}"),
        }
    } else if let Some(shorn) = bare.strip_suffix(',').filter(|rest| !rest.contains(',')) {
        // Of a pitch decimals may have been forgotten behind the comma.
        let is_sure = !is_pitch || shorn.contains('.');
        match offer(&name, shorn).filter(|_| is_sure) {
            Some(shorn) => format!("no comma stands at a line's end: write {name}={shorn}"),
            None => "no comma stands at a line's end".to_string(),
        }
    } else if is_pitch && is_spaced(value) {
        format!("a comma, and a blank: {RANGE}, with a point and without blanks")
    } else if is_pitch && number.contains(',') && !more.is_empty() {
        let more = match unit_of(more) {
            Some(unit) => format!("a unit {}", quoted(unit)),
            None => format!("{} behind the number", shown(more.as_bytes())),
        };
        format!("a comma, and {more}: a pitch is in micrometres, with a point and without a unit")
    } else if is_pitch && number.contains(',') {
        format!("a comma: {FORM}; {RANGE}; no comma stands between thousands either")
    } else if name == "edition" {
        "the edition is 1 or 2, and no comma stands there".to_string()
    } else if name == "masks" {
        "masks are on or off, and no comma stands there".to_string()
    } else {
        "no comma may stand in settings, wherever it is".to_string()
    }
}

/// May the comma of a number have been meant to stand between thousands?
fn may_be_thousands(value: &str) -> bool {
    let parts = value.split_once(',');
    parts.is_some_and(|(whole, rest)| rest.len() == 3 && !whole.starts_with('0'))
}

/// Is it made of digits, points and commas, and of blanks, or of what else stands
/// between thousands?
fn is_spaced(value: &str) -> bool {
    let is_between = |c: char| c.is_whitespace() || matches!(c, '\'' | '\u{2019}' | '_');
    let is_digit = |c: char| c.is_ascii_digit();
    let is_of_number = |c: char| is_digit(c) || is_between(c) || matches!(c, '.' | ',');
    value.contains(is_between) && value.contains(is_digit) && value.chars().all(is_of_number)
}

/// The unit that a text begins with.
fn unit_of(text: &str) -> Option<&str> {
    let unit = leading(text, char::is_alphabetic);
    let small = unit.to_lowercase();
    let mut all = MICROMETRES.iter().chain(&NANOMETRES).chain(&OTHERS);
    all.any(|known| *known == small).then_some(unit)
}

/// What is wrong with a line that does not begin with the name wanted there.
fn another_line(k: usize, lines: &[&[u8]]) -> String {
    let (wanted, line) = (NAMES[k], lines[k]);
    let whole = text(line);
    let (name, value) = halves(&whole);
    let value = value.trim();
    let is_there = |name: &str| lines.iter().any(|line| halves(&text(line)).0 == name);
    let has_mark = ["#", ";", "//"].iter().any(|mark| name.starts_with(mark));
    // Whoever marked the line as a comment may have meant either.
    let is_of_masks = k == 3 || has_mark && name.contains("masks");
    let says_masks = is_of_masks && !is_there("masks");
    if blank(line) && says_masks {
        format!("an empty line: {NO_MASKS}")
    } else if blank(line) {
        "an empty line: remove it".to_string()
    } else if name == wanted {
        let rule = "the name in small letters, then =, and no blanks";
        let meant = match wanted {
            "masks" => meant(value).or(Some(value)),
            _ => Some(value),
        };
        match meant.and_then(|value| offer(wanted, value)) {
            Some(value) => format!("write {}: {rule}", quoted(&format!("{wanted}={value}"))),
            None => match number_of(wanted, value) {
                Err(what) => format!("{rule}; besides, {what}"),
                Ok(_) => rule.to_string(),
            },
        }
    } else if NAMES[..k].contains(&name.as_str()) {
        match k < 3 && !is_there(wanted) {
            true => format!("{name}= is there a second time, and the line {wanted}= is missing"),
            false => format!("{name}= is there a second time"),
        }
    } else if NAMES[k..].contains(&name.as_str()) {
        match is_there(wanted) {
            true => format!(
                "{name}= stands where {wanted}= has to: the order is edition, pitch_x, pitch_y, \
                 masks"
            ),
            false => format!("the line {wanted}= is missing; it stands before {name}="),
        }
    } else if has_mark && says_masks {
        format!("settings have no comments: {NO_MASKS}")
    } else if has_mark {
        "settings have no comments: remove the line".to_string()
    } else {
        format!("here has to stand {wanted}=, not {}", shown(line))
    }
}

/// The number of a value, of a pitch in nanometres, or what is wrong with it.
fn number_of(name: &str, value: &str) -> Result<u64, String> {
    match name {
        "edition" => edition(value),
        "masks" => on_or_off(value),
        _ => pitch_of(name, value),
    }
}

/// More than one setting in a line?
fn several(value: &str) -> Option<String> {
    let what = "each setting stands in a line of its own, and nothing else in it";
    value.contains('=').then(|| what.to_string())
}

fn edition(value: &str) -> Result<u64, String> {
    match value {
        "1" => Ok(1),
        "2" => Ok(2),
        _ => Err(match offer("edition", value.trim()) {
            Some(number) => format!("write edition={number}, without blanks"),
            None => several(value).unwrap_or_else(|| {
                let value = shown(value.as_bytes());
                format!("the edition is 1 or 2, not {value}")
            }),
        }),
    }
}

/// What whoever wrote this meant the masks to be.
fn meant(value: &str) -> Option<&'static str> {
    match value.trim().to_lowercase().as_str() {
        "on" | "yes" | "y" | "true" | "1" => Some("on"),
        "off" | "no" | "n" | "false" | "0" | "none" => Some("off"),
        _ => None,
    }
}

fn on_or_off(value: &str) -> Result<u64, String> {
    match value {
        "on" => Ok(1),
        "off" => Ok(0),
        _ => Err(several(value).unwrap_or_else(|| {
            let meant = meant(value).and_then(|meant| offer("masks", meant));
            let write = meant.map_or(String::new(), |meant| format!("; write masks={meant}"));
            let value = shown(value.as_bytes());
            format!("masks are on or off, in small letters, not {value}{write}")
        })),
    }
}

/// The nanometres of a pitch in micrometres that is written as it has to be, whatever
/// they come to.
fn pitch(value: &str) -> Option<u64> {
    let (whole, rest) = value.split_once('.').unwrap_or((value, "0"));
    let are_digits = |part: &str, most: usize| {
        (1..=most).contains(&part.len()) && part.bytes().all(|byte| byte.is_ascii_digit())
    };
    if !are_digits(whole, 5) || !are_digits(rest, 3) {
        return None;
    }
    format!("{whole}{rest:0<3}").parse().ok()
}

/// Nanometres in micrometres, as a pitch is written.
fn micrometres(nanometres: u64) -> String {
    let number = format!("{}.{:03}", nanometres / 1000, nanometres % 1000);
    let number = number.trim_end_matches('0');
    number.trim_end_matches('.').to_string()
}

fn pitch_of(name: &str, value: &str) -> Result<u64, String> {
    match pitch(value) {
        Some(nm @ 1..=MOST) => Ok(nm),
        Some(nm) => {
            let taken = format!("it comes to {nm} nanometres, and 1 to {MOST} are taken");
            // A whole number that may be a pitch in nanometres.
            let (whole, rest) = (nm / 1000, nm % 1000);
            let meant = micrometres(whole);
            let meant = match offer(name, &meant).filter(|_| rest == 0) {
                Some(meant) => format!(": if {whole} nanometres are meant, write {meant}"),
                None => String::new(),
            };
            Err(format!("{taken}; {RANGE}{meant}"))
        }
        None => Err(misspelt(name, value)),
    }
}

/// What is wrong with a pitch that is not written as it has to be.
fn misspelt(name: &str, value: &str) -> String {
    let bare = value.trim();
    let number = leading(bare, |c| c.is_ascii_digit() || c == '.');
    let unit = bare[number.len()..].trim();
    let (whole, rest) = number.split_once('.').unwrap_or((number, "0"));
    let has_exponent = unit.strip_prefix(['e', 'E']).is_some_and(|power| {
        let power = power.trim_start_matches(['+', '-']);
        !power.is_empty() && power.bytes().all(|byte| byte.is_ascii_digit())
    });
    if let Some(what) = several(value) {
        what
    } else if bare.is_empty() {
        format!("the number is missing: {FORM}, in micrometres")
    } else if bare.starts_with(['+', '-']) {
        format!("no sign may stand before the number: {FORM}")
    } else if has_exponent {
        "a number with a power of ten is not taken: write it out, in micrometres".to_string()
    } else if is_spaced(bare) {
        format!("nothing but a point stands between digits, no blank between thousands; {RANGE}")
    } else if number.is_empty() {
        format!("{FORM}, not {}", shown(value.as_bytes()))
    } else if !unit.is_empty() {
        behind(name, number, unit)
    } else if let Some(number) = offer(name, number) {
        format!("write {name}={number}, without blanks")
    } else if let Some(what) = pitch(number).and_then(|_| pitch_of(name, number).err()) {
        format!("no blanks; besides, {what}")
    } else if rest.contains('.') {
        "there is a second point: none stands between thousands, and one before the decimals"
            .to_string()
    } else if whole.is_empty() {
        match offer(name, &format!("0{number}")) {
            Some(number) => format!("a digit has to stand before the point: write {number}"),
            None => {
                format!("a digit has to stand before the point, one to three behind it; {RANGE}")
            }
        }
    } else if rest.is_empty() {
        match offer(name, whole) {
            Some(whole) => format!("a digit has to stand behind the point: write {whole}"),
            None => format!("a digit has to stand behind the point; {RANGE}"),
        }
    } else if whole.len() > 5 {
        "at most five digits may stand before the point; pitch is in micrometres".to_string()
    } else if rest.len() > 3 {
        "at most three digits may stand behind the point; the third is a nanometre".to_string()
    } else {
        format!("{FORM}, not {}", shown(value.as_bytes()))
    }
}

/// What is wrong where something stands behind a number.
fn behind(name: &str, number: &str, unit: &str) -> String {
    let small = unit.to_lowercase();
    let units = "pitch is in micrometres, and no unit is written";
    let is_of = |all: &[&str]| all.contains(&small.as_str());
    if is_of(&MICROMETRES) {
        match offer(name, number) {
            Some(number) => format!("{units}: write {number}"),
            None => format!("{RANGE}, and no unit is written"),
        }
    } else if is_of(&NANOMETRES) || is_of(&OTHERS) {
        // Only whole nanometres are micrometres that can be written.
        let whole = pitch(number).filter(|nm| is_of(&NANOMETRES) && nm % 1000 == 0);
        let meant = whole.map(|nm| micrometres(nm / 1000));
        match meant.as_deref().and_then(|meant| offer(name, meant)) {
            Some(meant) => format!("{units}: write {meant}"),
            None => format!("{units}; {} is no micrometre", quoted(unit)),
        }
    } else {
        format!(
            "nothing may stand behind the number, and here stands {}",
            shown(unit.as_bytes())
        )
    }
}
