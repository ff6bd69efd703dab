//! The question that `compose`, `count` and `quote` put: what may be left out is
//! chosen later, by the file.

use crate::arguments::{choose, number, Arguments};
use crate::failure::Failure;
use crate::types;
use crate::window::Window;
use czi::calls::Plain;
use std::collections::BTreeMap;

/// Where S stands among the letters.
const SCENE: usize = 18;

/// Everything that the command line says of the plane.
pub struct Question {
    /// The window; the file's box where it is not given.
    pub window: Option<Window>,
    /// The pixel type, any number; that of the tiles where it is not given.
    pub pixel_type: Option<u32>,
    /// The starts of A to Z.
    pub starts: [i32; 26],
    /// Any scene.
    pub any_scene: bool,
    /// Masks are on; of `quote` the settings say it.
    pub masks: bool,
    /// The background pixel; zeros where it is not given.
    pub background: Option<Vec<u8>>,
}

fn usage(what: String) -> Failure {
    Failure::Usage(what)
}

impl Question {
    /// Reads `--window`, `--type`, `--start`, `--scene`, `--masks` and `--background`.
    pub fn parse(arguments: &Arguments) -> Result<Question, Failure> {
        let mut starts: [Option<i32>; 26] = [None; 26];
        for word in arguments.texts("--start")? {
            let (letter, start) = parse_start(word)?;
            once(&mut starts[letter], "--start of a letter", start)?;
        }
        let scene = arguments.text("--scene")?;
        let any_scene = scene == Some("any");
        match scene {
            Some("any") if starts[SCENE].is_some() => {
                let what = "--scene any goes with no --start S";
                return Err(usage(what.to_string()));
            }
            Some("any") | None => {}
            Some(word) => {
                let scene = parse_scene(word)?;
                once(&mut starts[SCENE], "--scene or --start S", scene)?;
            }
        }
        let masks = match arguments.text("--masks")? {
            Some(word) => choose(word, "--masks", &[("on", true), ("off", false)])?,
            None => false,
        };
        Ok(Question {
            window: arguments.text("--window")?.map(parse_window).transpose()?,
            pixel_type: arguments.text("--type")?.map(types::parse).transpose()?,
            starts: starts.map(|start| start.unwrap_or(0)),
            any_scene,
            masks,
            background: arguments.text("--background")?.map(parse_hex).transpose()?,
        })
    }

    /// As the library takes it, for one window.
    pub fn plain<'a>(&'a self, window: Window, pixel_type: u32, background: &'a [u8]) -> Plain<'a> {
        Plain {
            starts: &self.starts,
            any_scene: self.any_scene.into(),
            pixel_type,
            background,
            left: window.left,
            top: window.top,
            width: window.width,
            height: window.height,
            masks: if self.masks { 1 } else { 2 },
        }
    }

    /// What was chosen of masks, scene and starts, but starts of 0 along letters
    /// without layers; and the layers that there are, by letter the first and the last.
    pub fn said(&self, layers: &BTreeMap<char, (i32, i32)>) -> String {
        let masks = if self.masks { "on" } else { "off" };
        let scene = match self.any_scene {
            true => "any".to_string(),
            false => self.starts[SCENE].to_string(),
        };
        let mut said = format!("masks={masks} scene={scene}");
        for (letter, start) in ('A'..='Z').zip(self.starts) {
            if letter != 'S' && (start != 0 || layers.contains_key(&letter)) {
                said += &format!(" {letter}={start}");
            }
        }
        let layers = layers.iter();
        let layers = layers.map(|(letter, (first, last))| format!("{letter}:{first}..{last}"));
        let layers: Vec<String> = layers.collect();
        if !layers.is_empty() {
            said += &format!(" layers={}", layers.join(","));
        }
        said
    }
}

/// Keeps a value that is given once.
fn once<T>(slot: &mut Option<T>, name: &str, value: T) -> Result<(), Failure> {
    match slot.replace(value) {
        None => Ok(()),
        Some(_) => Err(usage(format!("{name} is given twice"))),
    }
}

fn parse_window(word: &str) -> Result<Window, Failure> {
    let parts: Vec<&str> = word.split(',').collect();
    let [left, top, width, height] = parts[..] else {
        return Err(usage(format!("--window wants L,T,W,H, not {word:?}")));
    };
    Ok(Window {
        left: number(left, "--window")?,
        top: number(top, "--window")?,
        width: number(width, "--window")?,
        height: number(height, "--window")?,
    })
}

fn parse_scene(word: &str) -> Result<i32, Failure> {
    let digits = word.trim_start_matches(['+', '-']);
    match !digits.is_empty() && digits.bytes().all(|byte| byte.is_ascii_digit()) {
        true => number(word, "--scene"),
        false => Err(usage(format!(
            "--scene is any (all scenes) or a number, not {word:?}"
        ))),
    }
}

/// A letter, counted from A, and its start.
fn parse_start(word: &str) -> Result<(usize, i32), Failure> {
    let wrong = || {
        usage(format!(
            "--start wants a letter and a number as C=1, not {word:?}"
        ))
    };
    let (letter, start) = word.split_once('=').ok_or_else(wrong)?;
    match letter.as_bytes() {
        [b'X' | b'Y' | b'M'] => Err(usage(format!("--start: {letter} has no start to ask for"))),
        [index @ b'A'..=b'Z'] => match start.split_once("..") {
            None => Ok((usize::from(index - b'A'), number(start, "--start")?)),
            // As czi tiles shows the layers of a tile.
            Some((first, _)) => Err(a_range(letter, first, word)),
        },
        _ => Err(wrong()),
    }
}

/// What is said of a range, by its letter; what it offers would be taken.
fn a_range(letter: &str, first: &str, word: &str) -> Failure {
    let one = match first.parse::<i32>() {
        Ok(_) => format!("as {letter}={first}"),
        Err(_) => "by its number".to_string(),
    };
    usage(match letter {
        "S" => format!("--start S takes one scene, {one}, not {word:?}; --scene any takes all"),
        _ => format!("--start takes one layer, {one}, not {word:?}"),
    })
}

fn parse_hex(word: &str) -> Result<Vec<u8>, Failure> {
    let digit = |byte: u8| char::from(byte).to_digit(16);
    let byte = |pair: &[u8]| match pair {
        [high, low] => Some((digit(*high)? << 4 | digit(*low)?) as u8),
        _ => None,
    };
    let bytes: Option<Vec<u8>> = word.as_bytes().chunks(2).map(byte).collect();
    bytes.ok_or_else(|| usage(format!("--background: {word:?} is not pairs of hex digits")))
}

#[cfg(test)]
mod tests {
    use super::*;

    #[test]
    fn a_start_of_0_is_said_where_there_are_layers() {
        let mut question = Question {
            window: None,
            pixel_type: None,
            starts: [0; 26],
            any_scene: false,
            masks: true,
            background: None,
        };
        let none = BTreeMap::new();
        let layers = BTreeMap::from([('Z', (5, 8)), ('C', (-1, 0))]);
        assert_eq!(question.said(&none), "masks=on scene=0");
        let said = "masks=on scene=0 C=0 Z=0 layers=C:-1..0,Z:5..8";
        assert_eq!(question.said(&layers), said);
        (question.starts[19], question.starts[25], question.any_scene) = (-4, 6, true);
        assert_eq!(question.said(&none), "masks=on scene=any T=-4 Z=6");
        let said = "masks=on scene=any C=0 T=-4 Z=6 layers=C:-1..0,Z:5..8";
        assert_eq!(question.said(&layers), said);
    }
}
