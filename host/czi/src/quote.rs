//! Quote sheets.

use crate::calls;
use crate::question::Question;
use crate::refusal::Refusal;
use crate::scan::Scan;

/// A quote: the covered count, and the sheet that says it.
#[derive(Clone, Copy, Debug, PartialEq, Eq)]
pub struct Quote<'a> {
    /// How many pixels a tile gave: the map's ones, and the sheet's first number.
    pub covered: u64,
    /// The sheet, the very bytes that the library wrote into the lent buffer:
    /// `covered=` and `area_nm2=`, each in a line.
    pub sheet: &'a str,
}

impl Quote<'_> {
    /// The sheet's second number: the area in square nanometres. A square
    /// millimetre has 10^12 of them.
    pub fn area_nm2(&self) -> u64 {
        let mut lines = self.sheet.lines();
        let area = lines.find_map(|line| line.strip_prefix("area_nm2="));
        let area = area.and_then(|digits| digits.parse().ok());
        area.expect("a sheet says an area below 2^64")
    }
}

/// Composes into the lent target and map as the settings say, and writes the sheet
/// into the lent buffer for it, which has at least
/// [`SHEET_MIN`](crate::calls::SHEET_MIN) bytes. Of the question its masks do not
/// count: the settings say them. Lent bytes past what is written stay; a refused call
/// changes none.
///
/// The settings are the lines `edition=` (1 or 2), `pitch_x=`, `pitch_y=` (in
/// micrometres, 0.001 to 65.535) and `masks=` (on or off), in this order, each ended
/// by a newline. The last may lack: then masks are off in edition 1 and on in 2.
///
/// ```
/// # fn main() -> Result<(), Box<dyn std::error::Error>> {
/// let file = std::fs::read("../samples/mosaic.czi")?;
/// let edges = czi::summary(&file)?.edges.ok_or("no tile has a place in a plane")?;
/// let question = czi::Question::default().over(edges).scene(czi::Scene::Any);
/// let mut target = vec![0; question.target_length() as usize];
/// let mut map = vec![0; question.map_length() as usize];
/// let mut sheet = [0; czi::calls::SHEET_MIN];
/// let settings = b"edition=2\npitch_x=0.325\npitch_y=0.325\n";
/// let quote = czi::quote(&file, &question, settings, &mut target, &mut map, &mut sheet)?;
/// assert_eq!(quote.sheet, "covered=1138\narea_nm2=120201250\n");
/// assert_eq!(quote.area_nm2(), 1138 * 325 * 325);
/// # Ok(())
/// # }
/// ```
///
/// Refusals: 34 for a comma in the settings, at its offset in them; 35 for any other
/// fault of the settings; then those of [`compose_plain`](crate::compose_plain), where
/// 22 is for a sheet that is too short too.
pub fn quote<'a, 's>(
    scan: impl Into<Scan<'a>>,
    question: &Question,
    settings: &[u8],
    target: &mut [u8],
    map: &mut [u8],
    sheet: &'s mut [u8],
) -> Result<Quote<'s>, Refusal> {
    let (file, release) = scan.into().plain();
    let asked = question.plain();
    let quoted = calls::quote(file, release, &asked, settings, target, map, sheet).result()?;
    let text = &sheet[..quoted.written as usize];
    Ok(Quote {
        covered: quoted.covered,
        sheet: std::str::from_utf8(text).expect("a sheet is ASCII"),
    })
}
