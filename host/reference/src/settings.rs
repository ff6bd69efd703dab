//! The settings of a quote: refusals 34 and 35.

use crate::question::Masks;
use crate::refusal::{refuse_if, Refusal};

/// What settings say.
#[derive(Clone, Copy, Debug, PartialEq, Eq)]
pub struct Settings {
    /// 1 or 2.
    pub edition: u32,
    /// The pitch along X in nanometres, 1 to 65,535.
    pub pitch_x: u64,
    /// The pitch along Y in nanometres, 1 to 65,535.
    pub pitch_y: u64,
    /// On or off, as the masks line says or the edition where it lacks.
    pub masks: Masks,
}

impl Settings {
    /// Reads the settings, or answers 34 or 35.
    pub fn read(settings: &[u8]) -> Result<Settings, Refusal> {
        // 34: a comma anywhere, at the first comma's offset in the settings; 34 goes first.
        if let Some(comma) = settings.iter().position(|byte| *byte == b',') {
            return Err(Refusal::new(34, comma as u64));
        }
        // 35: any other fault, at 0. First: lines, each ended by a newline. What stands
        // behind the last newline is no line.
        let mut lines: Vec<&[u8]> = settings.split(|byte| *byte == b'\n').collect();
        let behind = lines.pop();
        refuse_if(behind != Some(b""), 35, 0)?;
        // In this order: edition, pitch_x, pitch_y, masks. Only the masks line may lack,
        // and nothing else is allowed.
        refuse_if(lines.len() != 3 && lines.len() != 4, 35, 0)?;
        let edition = edition(value(lines[0], "edition=")?)?;
        let pitch_x = pitch(value(lines[1], "pitch_x=")?)?;
        let pitch_y = pitch(value(lines[2], "pitch_y=")?)?;
        let masks = match lines.get(3) {
            Some(line) => masks(value(line, "masks=")?)?,
            // A lacking masks line means off in edition 1 and on in edition 2.
            None if edition == 1 => Masks::Off,
            None => Masks::On,
        };
        Ok(Settings {
            edition,
            pitch_x,
            pitch_y,
            masks,
        })
    }
}

/// What stands behind the line's name. 35: the line has another name.
fn value<'a>(line: &'a [u8], name: &str) -> Result<&'a [u8], Refusal> {
    refuse_if(!line.starts_with(name.as_bytes()), 35, 0)?;
    Ok(&line[name.len()..])
}

/// `1` or `2`.
fn edition(value: &[u8]) -> Result<u32, Refusal> {
    refuse_if(value != b"1" && value != b"2", 35, 0)?;
    Ok(u32::from(value[0] - b'0'))
}

/// `on` or `off`.
fn masks(value: &[u8]) -> Result<Masks, Refusal> {
    refuse_if(value != b"on" && value != b"off", 35, 0)?;
    Ok(if value == b"on" {
        Masks::On
    } else {
        Masks::Off
    })
}

/// A pitch in micrometres; answers nanometres.
fn pitch(value: &[u8]) -> Result<u64, Refusal> {
    // One to five digits; those that lead may be zeros.
    let digits = value.iter().take_while(|b| b.is_ascii_digit()).count();
    refuse_if(!(1..=5).contains(&digits), 35, 0)?;
    let (whole, rest) = value.split_at(digits);
    // Then optionally a point and one to three digits.
    let decimals = match rest {
        [] => &[],
        [b'.', decimals @ ..] => {
            refuse_if(!(1..=3).contains(&decimals.len()), 35, 0)?;
            refuse_if(!decimals.iter().all(u8::is_ascii_digit), 35, 0)?;
            decimals
        }
        _ => return Err(Refusal::new(35, 0)),
    };
    // It must come to 1 to 65,535 nanometres: thousandths of a micrometre.
    let mut nanometres = 0;
    for digit in whole {
        nanometres = 10 * nanometres + 1000 * u64::from(digit - b'0');
    }
    for (digit, worth) in decimals.iter().zip([100, 10, 1]) {
        nanometres += worth * u64::from(digit - b'0');
    }
    refuse_if(!(1..=65_535).contains(&nanometres), 35, 0)?;
    Ok(nanometres)
}

#[cfg(test)]
mod tests {
    use super::*;

    fn read(settings: &[u8]) -> Result<(u32, u64, u64, Masks), (u32, u64)> {
        match Settings::read(settings) {
            Ok(s) => Ok((s.edition, s.pitch_x, s.pitch_y, s.masks)),
            Err(refusal) => Err((refusal.number, refusal.place)),
        }
    }

    /// The pitch of settings that are sound otherwise, for X and for Y.
    fn pitch_of(value: &str) -> Option<u64> {
        let x = read(format!("edition=1\npitch_x={value}\npitch_y=1\n").as_bytes());
        let y = read(format!("edition=1\npitch_x=1\npitch_y={value}\n").as_bytes());
        match (x, y) {
            (Ok(x), Ok(y)) => {
                assert_eq!((x.1, x.2, y.1), (y.2, 1000, 1000), "{value}");
                Some(x.1)
            }
            (Err((35, 0)), Err((35, 0))) => None,
            other => panic!("{value}: {other:?}"),
        }
    }

    #[test]
    fn the_masks_line_lacks_or_says() {
        let of = |edition: u32, masks: &str| {
            let text = format!("edition={edition}\npitch_x=0.325\npitch_y=12\n{masks}");
            read(text.as_bytes())
        };
        for (edition, lacking) in [(1, Masks::Off), (2, Masks::On)] {
            assert_eq!(of(edition, ""), Ok((edition, 325, 12_000, lacking)));
            let said = of(edition, "masks=on\n");
            assert_eq!(said, Ok((edition, 325, 12_000, Masks::On)));
            let said = of(edition, "masks=off\n");
            assert_eq!(said, Ok((edition, 325, 12_000, Masks::Off)));
        }
        for edition in [0, 3, 11, 12] {
            assert_eq!(of(edition, ""), Err((35, 0)));
        }
        for masks in [
            "masks=On\n",
            "masks=\n",
            "masks=on",
            "masks=on\n\n",
            "masks=on\r\n",
            "masks=on\nmasks=on\n",
            "masks=onoff\n",
            "masks= on\n",
            "Masks=on\n",
            "\n",
            "masks",
            " ",
            "\0",
        ] {
            assert_eq!(of(1, masks), Err((35, 0)), "{masks:?}");
        }
    }

    #[test]
    fn pitches_come_to_1_to_65_535_nanometres() {
        for (value, nanometres) in [
            ("0.001", 1),
            ("00000.001", 1),
            ("0.01", 10),
            ("0.1", 100),
            ("00001.5", 1500),
            ("1.5", 1500),
            ("1.50", 1500),
            ("1.500", 1500),
            ("1.05", 1050),
            ("1.005", 1005),
            ("1", 1000),
            ("00001", 1000),
            ("65", 65_000),
            ("65.535", 65_535),
            ("00065.535", 65_535),
            ("64.999", 64_999),
        ] {
            assert_eq!(pitch_of(value), Some(nanometres), "{value}");
        }
        for value in [
            "",
            ".",
            ".5",
            "1.",
            "1.0000",
            "000001",
            "0",
            "0.0",
            "00000.000",
            "65.536",
            "66",
            "65536",
            "99999.999",
            "1..5",
            "1.5.",
            "1.5.5",
            "-1",
            "+1",
            "1e1",
            "1E1",
            " 1",
            "1 ",
            "1 .5",
            "1_0",
            "0x1",
            "1.5e",
            "1.a",
            "a",
            "1\r",
            "1\t",
            "1\0",
            "\u{A0}1",
            "\u{661}",
            "18446744073709551617",
        ] {
            assert_eq!(pitch_of(value), None, "{value}");
        }
    }

    #[test]
    fn a_comma_goes_first_wherever_it_stands() {
        let sound = b"edition=1\npitch_x=1\npitch_y=1\nmasks=on\n";
        assert!(read(sound).is_ok());
        for at in 0..=sound.len() {
            let mut with = sound.to_vec();
            with.insert(at, b',');
            assert_eq!(read(&with), Err((34, at as u64)));
            with.push(b',');
            assert_eq!(read(&with), Err((34, at as u64)), "the first of two");
        }
        assert_eq!(read(b","), Err((34, 0)));
        assert_eq!(read(b"\0 \r\n\n1,"), Err((34, 6)), "behind other faults");
    }

    #[test]
    fn lines_are_ended_and_in_order() {
        let lines = ["edition=2\n", "pitch_x=1\n", "pitch_y=2\n", "masks=off\n"];
        assert_eq!(
            read(lines.concat().as_bytes()),
            Ok((2, 1000, 2000, Masks::Off))
        );
        for order in [
            &[][..],
            &[0],
            &[0, 1],
            &[0, 2],
            &[1, 2],
            &[0, 1, 3],
            &[0, 2, 3],
            &[1, 2, 3],
            &[1, 0, 2, 3],
            &[0, 2, 1, 3],
            &[0, 1, 3, 2],
            &[3, 0, 1, 2],
            &[0, 0, 1, 2],
            &[0, 1, 1, 2],
            &[0, 1, 2, 2],
            &[0, 1, 2, 3, 3],
            &[0, 1, 2, 3, 0],
        ] {
            let text: String = order.iter().map(|k| lines[*k]).collect();
            assert_eq!(read(text.as_bytes()), Err((35, 0)), "{order:?}");
        }
        let whole = lines.concat();
        for end in (0..whole.len()).filter(|end| *end != "edition=2\npitch_x=1\npitch_y=2\n".len())
        {
            assert_eq!(read(&whole.as_bytes()[..end]), Err((35, 0)), "{end}");
        }
    }
}
