//! Pitches: so many nanometres, and how they are written in micrometres.

use crate::random::Random;

/// The greatest pitch in nanometres.
pub const GREATEST: u64 = 65_535;

/// A pitch as it is written.
#[derive(Clone, Copy, Debug, PartialEq, Eq)]
pub struct Pitch {
    /// 1 to 65,535.
    pub nanometres: u64,
    /// So many digits before the point, 1 to 5; zeros lead.
    pub digits: usize,
    /// So many behind it, 1 to 3, or 0 without a point.
    pub decimals: usize,
}

impl Pitch {
    /// Some pitch, often one at an edge, or one that needs few decimals.
    pub fn draw(random: &mut Random) -> Pitch {
        let any = random.between(1, GREATEST as i64) as u64;
        let below_1 = random.between(1, 999) as u64;
        let micrometres = 1000 * random.between(1, 65) as u64;
        let tenths = 100 * random.between(1, 655) as u64;
        let hundredths = 10 * random.between(1, 6553) as u64;
        let nanometres = match random.below(16) {
            0 => 1,
            1 => GREATEST,
            2 => random.pick(&[
                2, 9, 10, 99, 100, 999, 1000, 1001, 65_000, 65_500, 65_530, 65_534,
            ]),
            3..=4 => below_1,
            5..=8 => micrometres,
            9..=10 => tenths,
            11..=12 => hundredths,
            _ => any,
        };
        Pitch::write(nanometres, random)
    }

    /// That pitch, written in some way.
    pub fn write(nanometres: u64, random: &mut Random) -> Pitch {
        let micrometres = nanometres / 1000;
        let digits_needed = if micrometres < 10 { 1 } else { 2 };
        let decimals_needed = match nanometres {
            n if n % 1000 == 0 => 0,
            n if n % 100 == 0 => 1,
            n if n % 10 == 0 => 2,
            _ => 3,
        };
        let any_digits = random.between(digits_needed, 5) as usize;
        let any_decimals = random.between(decimals_needed, 3) as usize;
        Pitch {
            nanometres,
            digits: random.pick(&[digits_needed as usize, any_digits]),
            decimals: random.pick(&[decimals_needed as usize, any_decimals]),
        }
    }

    /// The text.
    pub fn text(&self) -> String {
        let (whole, thousandths) = (self.nanometres / 1000, self.nanometres % 1000);
        let width = self.digits;
        let mut text = format!("{whole:0width$}");
        if self.decimals > 0 {
            text.push('.');
            text.push_str(&format!("{thousandths:03}")[..self.decimals]);
        }
        text
    }

    /// Do zeros lead that are not needed?
    pub fn has_leading_zeros(&self) -> bool {
        self.digits > 2 || self.digits == 2 && self.nanometres < 10_000
    }

    /// Is the last decimal a zero?
    pub fn has_trailing_zeros(&self) -> bool {
        match self.decimals {
            1 => self.nanometres.is_multiple_of(1000),
            2 => self.nanometres.is_multiple_of(100),
            3 => self.nanometres.is_multiple_of(10),
            _ => false,
        }
    }
}

#[cfg(test)]
mod tests {
    use super::*;

    #[test]
    fn every_writing_is_of_its_length() {
        let random = &mut Random::new(3);
        for _ in 0..10_000 {
            let pitch = Pitch::draw(random);
            let text = pitch.text();
            let point = (pitch.decimals > 0) as usize;
            assert_eq!(text.len(), pitch.digits + point + pitch.decimals, "{text}");
            assert!((1..=GREATEST).contains(&pitch.nanometres));
            // A number of thousandths is exact in floating point.
            let thousandths = text.parse::<f64>().map(|n| (n * 1000.0).round() as u64);
            assert_eq!(thousandths, Ok(pitch.nanometres), "{text}");
            let leads = text.starts_with('0') && pitch.digits > 1;
            assert_eq!(pitch.has_leading_zeros(), leads, "{text}");
            let trails = text.ends_with('0') && pitch.decimals > 0;
            assert_eq!(pitch.has_trailing_zeros(), trails, "{text}");
        }
    }
}
