//! Settings in the making: lines with their ends.

use super::Settings;
use crate::random::Random;

/// The names of the lines, in their order.
pub const NAMES: [&[u8]; 4] = [b"edition", b"pitch_x", b"pitch_y", b"masks"];

/// The number of the masks line.
pub const MASKS: usize = 3;

/// Lines, each with its end.
pub struct Draft {
    /// As they will stand, one behind the other.
    pub lines: Vec<Vec<u8>>,
}

impl Draft {
    /// The lines of sound settings.
    pub fn new(settings: &Settings) -> Draft {
        let mut draft = Draft { lines: Vec::new() };
        let edition = settings.edition.to_string();
        draft.set(0, edition.as_bytes());
        for (k, pitch) in settings.pitches.iter().enumerate() {
            draft.set(1 + k, pitch.text().as_bytes());
        }
        match settings.masks_line {
            Some(true) => draft.set(MASKS, b"on"),
            Some(false) => draft.set(MASKS, b"off"),
            None => {}
        }
        draft
    }

    /// Makes a line anew with that value; one that lacks is added.
    pub fn set(&mut self, line: usize, value: &[u8]) {
        let text = [NAMES[line], b"=", value, b"\n"].concat();
        match self.lines.get_mut(line) {
            Some(held) => *held = text,
            None => self.lines.push(text),
        }
    }

    /// A masks line, if there is none.
    pub fn have_masks(&mut self, random: &mut Random) {
        if self.lines.len() == MASKS {
            let value: &[u8] = random.pick(&[b"on", b"off"]);
            self.set(MASKS, value);
        }
    }

    /// Puts a part into some line, before its first byte or behind any but the last.
    pub fn put_anywhere(&mut self, part: &[u8], random: &mut Random) {
        let line = random.below(self.lines.len());
        let line = &mut self.lines[line];
        let at = random.below(line.len());
        line.splice(at..at, part.iter().copied());
    }

    /// The text.
    pub fn bytes(&self) -> Vec<u8> {
        self.lines.concat()
    }
}
