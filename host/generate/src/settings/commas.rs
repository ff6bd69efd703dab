//! Row 34: a comma anywhere in the settings, whatever else is wrong with them.

use super::draft::{Draft, MASKS};
use super::faults::FAULTS;
use super::Settings;
use crate::random::Random;

/// Settings with a comma, and where their first comma stands.
type Drawn = (Vec<u8>, usize);

/// A clause of row 34.
pub struct Comma {
    /// The number and the words.
    pub name: &'static str,
    make: fn(&mut Random) -> Drawn,
}

impl Comma {
    const fn new(name: &'static str, make: fn(&mut Random) -> Drawn) -> Comma {
        Comma { name, make }
    }

    /// Settings that it refuses.
    pub fn draw(&self, random: &mut Random) -> Drawn {
        (self.make)(random)
    }
}

/// All clauses of row 34.
pub const COMMAS: &[Comma] = &[
    Comma::new("34: a comma at offset 0", |random| {
        put(sound(random).bytes(), 0)
    }),
    Comma::new("34: a comma as the last byte", |random| {
        let bytes = sound(random).bytes();
        let at = bytes.len();
        put(bytes, at)
    }),
    Comma::new("34: a comma before the last newline", |random| {
        let bytes = sound(random).bytes();
        let at = bytes.len() - 1;
        put(bytes, at)
    }),
    Comma::new("34: a comma in the edition line", |random| {
        in_line(sound(random), 0, random)
    }),
    Comma::new("34: a comma in the pitch_x line", |random| {
        in_line(sound(random), 1, random)
    }),
    Comma::new("34: a comma in the pitch_y line", |random| {
        in_line(sound(random), 2, random)
    }),
    Comma::new("34: a comma in the masks line", |random| {
        let mut draft = sound(random);
        draft.have_masks(random);
        in_line(draft, MASKS, random)
    }),
    Comma::new("34: a comma for the point", |random| {
        let mut draft = sound(random);
        let line = random.pick(&[1, 2]);
        let value: &[u8] = random.pick(&[b"1,5", b"0,325", b"65,535", b"00001,0", b"0,001"]);
        draft.set(line, value);
        first_in_line(draft, line)
    }),
    Comma::new("34: a comma between thousands", |random| {
        let mut draft = sound(random);
        let line = random.pick(&[1, 2]);
        let value: &[u8] = random.pick(&[b"1,000", b"1,000.5", b"65,000,000", b"10,0"]);
        draft.set(line, value);
        first_in_line(draft, line)
    }),
    Comma::new("34: a comma for a newline", |random| {
        let mut draft = sound(random);
        let line = random.below(draft.lines.len());
        if let Some(last) = draft.lines[line].last_mut() {
            *last = b',';
        }
        first_in_line(draft, line)
    }),
    Comma::new("34: a comma for another byte", |random| {
        let mut bytes = sound(random).bytes();
        let at = random.below(bytes.len());
        bytes[at] = b',';
        (bytes, at)
    }),
    Comma::new("34: two commas", |random| {
        let bytes = sound(random).bytes();
        let first = random.below(bytes.len());
        let second = first + random.below(bytes.len() - first);
        let (bytes, _) = put(bytes, second);
        put(bytes, first)
    }),
    Comma::new("34: nothing but commas", |random| {
        (vec![b','; random.pick(&[1, 1, 2, 40])], 0)
    }),
    Comma::new("34: a comma before another fault", |random| {
        put(faulty(random), 0)
    }),
    Comma::new("34: a comma behind another fault", |random| {
        let bytes = faulty(random);
        let at = bytes.len();
        put(bytes, at)
    }),
    Comma::new("34: a comma amid another fault", |random| {
        let bytes = faulty(random);
        let at = random.below(bytes.len() + 1);
        put(bytes, at)
    }),
    Comma::new("34: a comma among any bytes", |random| {
        let length = random.below(60);
        let mut bytes = random.bytes(length);
        bytes
            .iter_mut()
            .filter(|b| **b == b',')
            .for_each(|b| *b = 0);
        let at = random.below(length + 1);
        put(bytes, at)
    }),
    Comma::new("34: a comma behind a zero byte", |random| {
        let mut bytes = sound(random).bytes();
        bytes.insert(random.below(bytes.len()), 0);
        let at = bytes.len() - random.below(2);
        put(bytes, at)
    }),
];

fn sound(random: &mut Random) -> Draft {
    Draft::new(&Settings::draw(random))
}

/// Settings with another fault.
fn faulty(random: &mut Random) -> Vec<u8> {
    let mut draft = sound(random);
    FAULTS[random.below(FAULTS.len())].put(&mut draft, random);
    draft.bytes()
}

fn put(mut bytes: Vec<u8>, at: usize) -> Drawn {
    bytes.insert(at, b',');
    (bytes, at)
}

/// Before or behind any byte of the line but its newline.
fn in_line(draft: Draft, line: usize, random: &mut Random) -> Drawn {
    let before: usize = draft.lines[..line].iter().map(Vec::len).sum();
    let at = before + random.below(draft.lines[line].len());
    put(draft.bytes(), at)
}

/// The line has commas, and the others have none.
fn first_in_line(draft: Draft, line: usize) -> Drawn {
    let before: usize = draft.lines[..line].iter().map(Vec::len).sum();
    let within = draft.lines[line].iter().position(|byte| *byte == b',');
    let within = within.expect("a comma was put there");
    (draft.bytes(), before + within)
}
