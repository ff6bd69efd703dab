//! The quote sheet: Req 09.

use crate::judge::File;
use crate::question::Question;
use crate::refusal::Refusal;
use crate::settings::Settings;

/// A sheet is at least so long.
pub const SHEET: usize = 49;

/// What a quote answers.
#[derive(Clone, Copy, Debug, PartialEq, Eq)]
pub struct Quoted {
    /// The ones in the coverage map.
    pub covered: u64,
    /// The length of the sheet's text.
    pub written: u64,
}

/// Composes the plane and writes the sheet, or changes nothing that is lent. `file` is
/// the file as it was judged, and the question's own choice of masks does not count.
pub fn quote(
    file: Result<&File, Refusal>,
    question: &Question,
    settings: &[u8],
    target: &mut [u8],
    map: &mut [u8],
    sheet: &mut [u8],
) -> Result<Quoted, Refusal> {
    // 34, 35: both before the file is judged.
    let settings = Settings::read(settings)?;
    // What a composer gets, the masks choice aside.
    let question = Question {
        masks: settings.masks,
        ..question.clone()
    };
    // Then what a composer refuses, in its order: the file's own refusals, 20, 21, 22, 23.
    let file = file?;
    let pixel_length = file.ask(&question, target.len(), map.len(), Some(sheet.len()))?;
    // Composing done, the sheet is two such lines.
    let counts = file.paint(&question, pixel_length, target, map);
    let text = settings.sheet(counts.covered);
    // Bytes of the sheet past the text stay.
    sheet[..text.len()].copy_from_slice(text.as_bytes());
    Ok(Quoted {
        covered: counts.covered,
        written: text.len() as u64,
    })
}

impl Settings {
    /// `covered=` with the count and `area_nm2=` with the count times both pitches, in
    /// plain decimal, always within 64 bits.
    pub fn sheet(&self, covered: u64) -> String {
        let area = u128::from(covered) * u128::from(self.pitch_x) * u128::from(self.pitch_y);
        let area = u64::try_from(area).expect("always within 64 bits");
        format!("covered={covered}\narea_nm2={area}\n")
    }
}

#[cfg(test)]
mod tests {
    use super::*;
    use crate::question::Masks;

    #[test]
    fn the_longest_text_has_49_bytes() {
        let mut settings = Settings {
            edition: 1,
            pitch_x: 65_535,
            pitch_y: 65_535,
            masks: Masks::Off,
        };
        let longest = settings.sheet(65_536 * 65_536);
        assert_eq!(
            longest,
            "covered=4294967296\narea_nm2=18446181128051097600\n"
        );
        assert_eq!(longest.len(), SHEET);
        assert_eq!(settings.sheet(0), "covered=0\narea_nm2=0\n");
        (settings.pitch_x, settings.pitch_y) = (325, 650);
        assert_eq!(settings.sheet(3), "covered=3\narea_nm2=633750\n");
    }
}
