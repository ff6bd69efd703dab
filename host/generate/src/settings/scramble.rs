//! Settings with changes of any kind, of which nothing is foretold.

use super::{FaultySettings, Settings};
use crate::random::Random;

/// What is put in or exchanged, beside any byte.
const PARTS: &[&[u8]] = &[
    b"\n",
    b"\n",
    b"\r\n",
    b".",
    b".",
    b"0",
    b"00000",
    b"1",
    b"2",
    b"5",
    b"9",
    b"65.535",
    b"=",
    b"on",
    b"off",
    b"masks=on\n",
    b"masks=off\n",
    b"pitch_x=",
    b"pitch_y=1\n",
    b"edition=1\n",
    b" ",
    b",",
    b"-",
    b"e",
    b"\0",
    b"\t",
    b"_",
];

/// Sound settings, or faulty ones, with up to three changes.
pub fn scramble_settings(random: &mut Random) -> Vec<u8> {
    let mut bytes = match random.percent(85) {
        true => Settings::draw(random).bytes(),
        false => FaultySettings::draw(random).bytes,
    };
    for _ in 0..random.between(1, 3) {
        let at = random.below(bytes.len() + 1);
        let end = (at + random.pick(&[1, 1, 1, 2, 8])).min(bytes.len());
        let any = [random.word() as u8];
        let part = match random.below(5) {
            0 => &any,
            _ => random.pick(PARTS),
        };
        let part = part.to_vec();
        match random.below(4) {
            0 => drop(bytes.splice(at..at, part)),
            1 => drop(bytes.splice(at..end, part)),
            2 => drop(bytes.drain(at..end)),
            _ => {
                let again = bytes[at..end].to_vec();
                bytes.splice(at..at, again);
            }
        }
    }
    bytes
}
