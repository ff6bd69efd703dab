//! Row 35: every fault of settings but a comma.
//!
//! A fault spoils sound settings, and others in which a line has a wrong value: nothing
//! that is left of these mends it. None puts a comma anywhere.

use super::draft::{Draft, MASKS, NAMES};
use crate::random::Random;

/// A clause of row 35.
pub struct Fault {
    /// The number and the words.
    pub name: &'static str,
    kind: Kind,
}

/// What a fault does.
enum Kind {
    /// The line of that number has one of these for its value.
    Value(usize, &'static [&'static [u8]]),
    /// The line of that number has a drawn value.
    Drawn(usize, fn(&mut Random) -> Vec<u8>),
    /// One of these stands somewhere in a line.
    Anywhere(&'static [&'static [u8]]),
    /// Some line is changed.
    Line(fn(&mut Vec<u8>, &mut Random)),
    /// Lines are put in, taken out or brought into another order.
    Lines(fn(&mut Draft, &mut Random)),
}

impl Fault {
    const fn new(name: &'static str, kind: Kind) -> Fault {
        Fault { name, kind }
    }

    const fn lines(name: &'static str, make: fn(&mut Draft, &mut Random)) -> Fault {
        Fault::new(name, Kind::Lines(make))
    }

    /// Does it give a line a wrong value, which nothing but another value mends?
    pub fn is_value(&self) -> bool {
        matches!(self.kind, Kind::Value(..) | Kind::Drawn(..))
    }

    /// Puts the fault into settings.
    pub fn put(&self, draft: &mut Draft, random: &mut Random) {
        match &self.kind {
            Kind::Value(line, all) => draft.set(*line, random.pick(all)),
            Kind::Drawn(line, draw) => draft.set(*line, &draw(random)),
            Kind::Anywhere(all) => draft.put_anywhere(random.pick(all), random),
            Kind::Line(make) => {
                let line = random.below(draft.lines.len());
                make(&mut draft.lines[line], random);
            }
            Kind::Lines(make) => make(draft, random),
        }
    }
}

/// A fault of a pitch, for X and for Y.
macro_rules! pitch_values {
    ($line:literal, $prefix:literal) => {
        [
            Fault::new(concat!($prefix, "empty"), Kind::Value($line, &[b""])),
            Fault::new(
                concat!($prefix, "six digits"),
                Kind::Value($line, &[b"000001", b"000000.5", b"065535", b"000065.535"]),
            ),
            Fault::new(
                concat!($prefix, "many digits"),
                Kind::Drawn($line, many_digits),
            ),
            Fault::new(
                concat!($prefix, "a number that wraps to a small one"),
                Kind::Value(
                    $line,
                    &[
                        b"18446744073709551617",
                        b"18446744073709551.617",
                        b"4294967297",
                        b"4294967.297",
                        b"65.537",
                        b"131.073",
                    ],
                ),
            ),
            Fault::new(
                concat!($prefix, "four decimals"),
                Kind::Value(
                    $line,
                    &[b"1.0000", b"0.0010", b"1.2345", b"65.5350", b"0.0001"],
                ),
            ),
            Fault::new(
                concat!($prefix, "many decimals"),
                Kind::Drawn($line, many_decimals),
            ),
            Fault::new(
                concat!($prefix, "a point without decimals"),
                Kind::Value($line, &[b"1.", b"65.", b"00001.", b"0."]),
            ),
            Fault::new(
                concat!($prefix, "decimals without digits"),
                Kind::Value($line, &[b".5", b".001", b".535"]),
            ),
            Fault::new(
                concat!($prefix, "a point alone"),
                Kind::Value($line, &[b"."]),
            ),
            Fault::new(
                concat!($prefix, "two points"),
                Kind::Value($line, &[b"1..5", b"1.5.", b"1.5.5", b"..5", b".1.5"]),
            ),
            Fault::new(
                concat!($prefix, "0 nanometres"),
                Kind::Value(
                    $line,
                    &[b"0", b"00000", b"0.0", b"0.000", b"00000.000", b"000.00"],
                ),
            ),
            Fault::new(
                concat!($prefix, "65,536 nanometres"),
                Kind::Value($line, &[b"65.536", b"065.536", b"00065.536"]),
            ),
            Fault::new(
                concat!($prefix, "over 65,536 nanometres"),
                Kind::Drawn($line, over),
            ),
            Fault::new(
                concat!($prefix, "nanometres for micrometres"),
                Kind::Value($line, &[b"65535", b"65536", b"00325", b"99999"]),
            ),
            Fault::new(
                concat!($prefix, "a sign"),
                Kind::Value(
                    $line,
                    &[b"+1", b"-1", b"+0.5", b"-0", b"1-", b"1.+5", b"-1.5"],
                ),
            ),
            Fault::new(
                concat!($prefix, "an exponent"),
                Kind::Value($line, &[b"1e0", b"1E1", b"1.5e0", b"1e", b"1e-1", b"5e+0"]),
            ),
            Fault::new(
                concat!($prefix, "a blank"),
                Kind::Value(
                    $line,
                    &[b" 1", b"1 ", b"1 .5", b"1. 5", b"1 0", b" ", b"\t1", b"1\t"],
                ),
            ),
            Fault::new(
                concat!($prefix, "a letter or another mark"),
                Kind::Value(
                    $line,
                    &[
                        b"a", b"1a", b"0x1", b"1.a", b"1.5f", b"1_0", b"1'0", b"1;5", b"1:5",
                        b"1/2",
                    ],
                ),
            ),
            Fault::new(
                concat!($prefix, "the bytes beside the digits"),
                Kind::Value(
                    $line,
                    &[b"/", b":", b"1/", b"1:", b"1./", b"1.:", b"1.0/", b"1.0:"],
                ),
            ),
            Fault::new(
                concat!($prefix, "a unit"),
                Kind::Value($line, &[b"1um", b"1 um", b"1\xC2\xB5m", b"1nm", b"500nm"]),
            ),
            Fault::new(
                concat!($prefix, "no number"),
                Kind::Value(
                    $line,
                    &[b"nan", b"inf", b"Infinity", b"on", b"=1", b"pitch"],
                ),
            ),
            Fault::new(
                concat!($prefix, "a zero byte"),
                Kind::Value($line, &[b"\0", b"1\0", b"\x001", b"1.\x005", b"1.5\0"]),
            ),
            Fault::new(
                concat!($prefix, "a digit with its high bit, or another script's"),
                Kind::Value(
                    $line,
                    &[b"\xB1", b"1\xB1", b"1.\xB5", b"\xD9\xA1", b"\xEF\xBC\x91"],
                ),
            ),
        ]
    };
}

/// Three tables of faults, one behind the other.
const fn join<const A: usize, const B: usize, const C: usize, const N: usize>(
    a: &'static [Fault; A],
    b: &'static [Fault; B],
    c: &'static [Fault; C],
) -> [&'static Fault; N] {
    let mut all = [&a[0]; N];
    let mut k = 0;
    while k < N {
        all[k] = if k < A {
            &a[k]
        } else if k < A + B {
            &b[k - A]
        } else {
            &c[k - A - B]
        };
        k += 1;
    }
    all
}

const PITCH_X: &[Fault; 23] = &pitch_values!(1, "35: pitch_x: ");
const PITCH_Y: &[Fault; 23] = &pitch_values!(2, "35: pitch_y: ");
const FAULT_COUNT: usize = PITCH_X.len() + PITCH_Y.len() + OTHERS.len();

/// All clauses of row 35.
pub const FAULTS: &[&Fault; FAULT_COUNT] = &join(PITCH_X, PITCH_Y, OTHERS);

const OTHERS: &[Fault; 55] = &[
    // Lines.
    Fault::lines("35: empty settings", |draft, _| draft.lines.clear()),
    Fault::lines("35: no edition line", |draft, _| {
        drop(draft.lines.remove(0))
    }),
    Fault::lines("35: no pitch_x line", |draft, _| {
        drop(draft.lines.remove(1))
    }),
    Fault::lines("35: no pitch_y line", |draft, _| {
        drop(draft.lines.remove(2))
    }),
    Fault::lines("35: one line alone", |draft, random| {
        let line = random.below(draft.lines.len());
        draft.lines = vec![draft.lines[line].clone()];
    }),
    Fault::lines("35: the edition line twice", |draft, _| twice(draft, 0)),
    Fault::lines("35: the pitch_x line twice", |draft, _| twice(draft, 1)),
    Fault::lines("35: the pitch_y line twice", |draft, _| twice(draft, 2)),
    Fault::lines("35: the masks line twice", |draft, random| {
        draft.have_masks(random);
        twice(draft, MASKS);
    }),
    Fault::lines("35: a line again behind the last", |draft, random| {
        draft.have_masks(random);
        let line = random.below(draft.lines.len());
        draft.lines.push(draft.lines[line].clone());
    }),
    Fault::lines("35: all lines twice", |draft, _| {
        draft.lines.extend_from_within(..);
    }),
    Fault::lines("35: two neighbouring lines exchanged", |draft, random| {
        let line = random.below(draft.lines.len() - 1);
        draft.lines.swap(line, line + 1);
    }),
    Fault::lines("35: the pitches exchanged", |draft, _| {
        draft.lines.swap(1, 2)
    }),
    Fault::lines("35: the masks line not the last", |draft, random| {
        draft.have_masks(random);
        let masks = draft.lines.remove(MASKS);
        draft.lines.insert(random.below(MASKS), masks);
    }),
    Fault::lines("35: lines backwards", |draft, _| draft.lines.reverse()),
    Fault::lines("35: a line of another name", |draft, random| {
        let line: &[u8] = random.pick(&[b"pitch_z=1\n", b"unit=um\n", b"release=1\n", b"x=\n"]);
        let at = random.below(draft.lines.len() + 1);
        draft.lines.insert(at, line.to_vec());
    }),
    Fault::lines("35: a comment line", |draft, random| {
        let line: &[u8] = random.pick(&[b"# quote\n", b"; quote\n", b"//\n", b"#\n"]);
        let at = random.below(draft.lines.len() + 1);
        draft.lines.insert(at, line.to_vec());
    }),
    Fault::lines("35: an empty line first", |draft, _| {
        draft.lines.insert(0, b"\n".to_vec());
    }),
    Fault::lines("35: an empty line between", |draft, random| {
        let at = 1 + random.below(draft.lines.len() - 1);
        draft.lines.insert(at, b"\n".to_vec());
    }),
    Fault::lines("35: an empty line behind the last", |draft, _| {
        draft.lines.push(b"\n".to_vec());
    }),
    Fault::lines("35: an empty line for the masks line", |draft, _| {
        draft.lines.truncate(MASKS);
        draft.lines.push(b"\n".to_vec());
    }),
    Fault::lines("35: a byte behind the last line", |draft, random| {
        let byte = random.pick(b" \0\t\r.=0m#\x1A\xA0\xFF");
        draft.lines.push(vec![byte]);
    }),
    Fault::lines("35: a part of the masks line", |draft, random| {
        let part = 1 + random.below(b"masks=on".len());
        draft.lines.truncate(MASKS);
        draft.lines.push(b"masks=on"[..part].to_vec());
    }),
    Fault::lines("35: the last newline missing", |draft, _| {
        if let Some(last) = draft.lines.last_mut() {
            last.pop();
        }
    }),
    Fault::lines("35: a newline missing between lines", |draft, random| {
        let line = random.below(draft.lines.len() - 1);
        draft.lines[line].pop();
    }),
    Fault::lines("35: newlines alone", |draft, random| {
        let newlines = random.pick(&[1, 2, 3, 4, 5]);
        draft.lines = vec![b"\n".to_vec(); newlines];
    }),
    Fault::lines("35: any bytes", |draft, random| {
        let length = 1 + random.below(60);
        let bytes = random.bytes(length).into_iter();
        draft.lines = vec![bytes.filter(|byte| *byte != b',').collect()];
    }),
    Fault::lines("35: two bytes a letter", |draft, _| {
        let wide = |byte: &u8| [*byte, 0];
        draft.lines = vec![draft.bytes().iter().flat_map(wide).collect()];
    }),
    Fault::lines("35: a byte order mark", |draft, _| {
        draft.lines.insert(0, b"\xEF\xBB\xBF".to_vec());
    }),
    // Ends and names of lines.
    Fault::new(
        "35: a carriage return before a newline",
        Kind::Line(|line, _| {
            let at = line.len().saturating_sub(1);
            line.insert(at, b'\r');
        }),
    ),
    Fault::new(
        "35: a carriage return for a newline",
        Kind::Line(|line, _| {
            line.pop();
            line.push(b'\r');
        }),
    ),
    Fault::new(
        "35: a carriage return behind a newline",
        Kind::Line(|line, _| line.push(b'\r')),
    ),
    Fault::lines("35: carriage returns before all newlines", |draft, _| {
        for line in &mut draft.lines {
            let at = line.len().saturating_sub(1);
            line.insert(at, b'\r');
        }
    }),
    Fault::new(
        "35: another end of a line",
        Kind::Line(|line, random| {
            line.pop();
            let end: &[u8] = random.pick(&[b"\x0B", b"\x0C", b"\xC2\x85", b";", b" ", b"\0"]);
            line.extend(end);
        }),
    ),
    Fault::lines("35: a name in capitals", |draft, random| {
        rename(draft, random, |name, _| name.make_ascii_uppercase());
    }),
    Fault::lines("35: a name with one capital", |draft, random| {
        rename(draft, random, |name, random| {
            let at = random.below(5);
            name[at].make_ascii_uppercase();
        });
    }),
    Fault::lines("35: a name without a byte", |draft, random| {
        rename(draft, random, |name, random| {
            name.remove(random.below(name.len()));
        });
    }),
    Fault::lines("35: a name with a byte more", |draft, random| {
        rename(draft, random, |name, random| {
            let byte = random.pick(b"xs_=1");
            name.push(byte);
        });
    }),
    Fault::lines("35: no name", |draft, random| {
        rename(draft, random, |name, _| name.clear());
    }),
    Fault::lines("35: another name", |draft, random| {
        let line = random.below(draft.lines.len());
        let other = NAMES[(line + 1 + random.below(3)) % 4];
        rename_line(draft, line, |name| *name = other.to_vec());
    }),
    Fault::new(
        "35: no equals sign",
        Kind::Line(|line, random| {
            if let Some(at) = line.iter().position(|byte| *byte == b'=') {
                match random.below(3) {
                    // All of them: a value that begins with one would be mended.
                    0 => line.retain(|byte| *byte != b'='),
                    1 => line[at] = b':',
                    _ => line[at] = b' ',
                }
            }
        }),
    ),
    // Bytes that stand nowhere in settings.
    Fault::new("35: a blank", Kind::Anywhere(&[b" ", b"  "])),
    Fault::new("35: a tab", Kind::Anywhere(&[b"\t", b"\x0B", b"\x0C"])),
    Fault::new("35: a zero byte", Kind::Anywhere(&[b"\0", b"\0\0"])),
    Fault::new(
        "35: a blank of another kind",
        Kind::Anywhere(&[b"\xC2\xA0", b"\xA0", b"\xC2", b"\xE2\x80\x89"]),
    ),
    Fault::new(
        "35: a byte of no letter",
        Kind::Anywhere(&[b"\xFF", b"\x80", b"\x7F", b"\x1A", b"\"", b"'", b";", b"%"]),
    ),
    // Values.
    Fault::new("35: edition empty", Kind::Value(0, &[b""])),
    Fault::new("35: edition 0", Kind::Value(0, &[b"0", b"00"])),
    Fault::new("35: edition 3", Kind::Value(0, &[b"3", b"4", b"9"])),
    Fault::new(
        "35: edition of two digits",
        Kind::Value(0, &[b"12", b"11", b"21", b"22", b"01", b"02", b"10"]),
    ),
    Fault::new(
        "35: edition of another kind",
        Kind::Value(
            0,
            &[
                b"1.0", b"+1", b"-1", b"I", b"one", b"a", b"/", b"\xB1", b"1=1",
            ],
        ),
    ),
    Fault::new(
        "35: masks with a capital",
        Kind::Value(MASKS, &[b"On", b"ON", b"oN", b"Off", b"OFF", b"ofF"]),
    ),
    Fault::new("35: masks empty", Kind::Value(MASKS, &[b""])),
    Fault::new(
        "35: masks of another kind",
        Kind::Value(
            MASKS,
            &[b"yes", b"no", b"1", b"0", b"2", b"true", b"none", b"auto"],
        ),
    ),
    Fault::new(
        "35: masks cut, or longer",
        Kind::Value(
            MASKS,
            &[
                b"o", b"of", b"n", b"f", b"onn", b"offf", b"onoff", b"on=", b"of\0",
            ],
        ),
    ),
];

/// Doubles a line.
fn twice(draft: &mut Draft, line: usize) {
    draft.lines.insert(line, draft.lines[line].clone());
}

/// Changes the name of some line.
fn rename(draft: &mut Draft, random: &mut Random, change: fn(&mut Vec<u8>, &mut Random)) {
    let line = random.below(draft.lines.len());
    rename_line(draft, line, |name| change(name, random));
}

/// Changes a line's name; what stands behind its first equals sign stays.
fn rename_line(draft: &mut Draft, line: usize, change: impl FnOnce(&mut Vec<u8>)) {
    let line = &mut draft.lines[line];
    let is_sign = |byte: &u8| *byte == b'=';
    let end = line.iter().position(is_sign).unwrap_or(line.len());
    let rest = line.split_off(end);
    // A fault that was put in before may have left less of a name.
    line.resize(line.len().max(5), b'x');
    change(line);
    line.extend(rest);
}

fn many_digits(random: &mut Random) -> Vec<u8> {
    let count = random.pick(&[7, 8, 10, 19, 20, 21, 40, 300]);
    let mut digits = vec![b'0'; count];
    digits[count - 1] = random.pick(b"0159");
    digits
}

fn many_decimals(random: &mut Random) -> Vec<u8> {
    let count = random.pick(&[5, 6, 9, 20, 300]);
    let digit = random.pick(b"0159");
    [b"1.".to_vec(), vec![digit; count]].concat()
}

/// 65,537 to 99,999,999 nanometres, which is what five digits and three can say.
fn over(random: &mut Random) -> Vec<u8> {
    let any = random.between(65_537, 99_999_999);
    let near = random.between(65_537, 66_999);
    let nanometres = random.pick(&[any, near, near, 99_999_999, 66_000]);
    let (whole, decimals) = (nanometres / 1000, nanometres % 1000);
    let text = match decimals {
        0 => whole.to_string(),
        _ => format!("{whole}.{decimals:03}"),
    };
    text.into_bytes()
}
