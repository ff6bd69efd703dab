//! Settings of a quote by seed: Req 09. Sound ones are drawn by their grammar, and what
//! they say is known from that; faulty ones are made so by one clause of rows 34 and 35,
//! or two, with number and place foretold. Nothing is parsed here.

mod commas;
mod draft;
mod faults;
mod freedoms;
mod pitch;
mod scramble;

use crate::random::Random;
use reference::{Masks, Refusal};

pub use freedoms::settings_freedoms;
pub use pitch::Pitch;
pub use scramble::scramble_settings;

use commas::COMMAS;
use draft::Draft;
use faults::FAULTS;

/// The name of settings that have two faults, none of them a comma.
const TWO_FAULTS: &str = "35: two faults at once";

/// Sound settings.
#[derive(Clone, Debug)]
pub struct Settings {
    /// 1 or 2.
    pub edition: u32,
    /// Along X and along Y.
    pub pitches: [Pitch; 2],
    /// What the masks line says, where there is one: on?
    pub masks_line: Option<bool>,
}

impl Settings {
    /// Some settings.
    pub fn draw(random: &mut Random) -> Settings {
        Settings {
            edition: random.pick(&[1, 2]),
            pitches: [Pitch::draw(random), Pitch::draw(random)],
            masks_line: random.pick(&[None, None, Some(true), Some(false)]),
        }
    }

    /// The text.
    pub fn bytes(&self) -> Vec<u8> {
        Draft::new(self).bytes()
    }

    /// Are masks on?
    pub fn masks_on(&self) -> bool {
        self.masks_line.unwrap_or(self.edition == 2)
    }

    /// The choice of masks that a composer gets.
    pub fn masks(&self) -> Masks {
        match self.masks_on() {
            true => Masks::On,
            false => Masks::Off,
        }
    }

    /// The sheet's text where so many pixels are covered.
    pub fn sheet(&self, covered: u64) -> String {
        let [x, y] = self.pitches.map(|pitch| u128::from(pitch.nanometres));
        let area = u128::from(covered) * x * y;
        format!("covered={covered}\narea_nm2={area}\n")
    }

    /// Other settings of the same meaning: pitches are written otherwise, and a masks
    /// line that lacks is said, one that is said lacks where the edition means it, else
    /// the other edition does.
    pub fn alike(&self, random: &mut Random) -> Settings {
        let rewritten = |pitch: Pitch, random: &mut Random| Pitch::write(pitch.nanometres, random);
        let pitches = self.pitches.map(|pitch| rewritten(pitch, random));
        let (edition, masks_line) = match self.masks_line {
            None => (self.edition, Some(self.edition == 2)),
            Some(true) => (2, None),
            Some(false) => (1, None),
        };
        Settings {
            edition,
            pitches,
            masks_line,
        }
    }

    /// The freedoms that they take, each once.
    pub fn freedoms(&self) -> Vec<&'static str> {
        freedoms::taken(self)
    }
}

/// Faulty settings.
#[derive(Clone, Debug)]
pub struct FaultySettings {
    /// The text.
    pub bytes: Vec<u8>,
    /// 34 at the first comma, or 35 at 0.
    pub refusal: Refusal,
    /// The clause.
    pub name: &'static str,
}

/// The names of all clauses of rows 34 and 35.
pub fn settings_clauses() -> impl Iterator<Item = &'static str> {
    let commas = COMMAS.iter().map(|comma| comma.name);
    let faults = FAULTS.iter().map(|fault| fault.name);
    commas.chain(faults).chain([TWO_FAULTS])
}

impl FaultySettings {
    /// Settings that are refused by some clause.
    pub fn draw(random: &mut Random) -> FaultySettings {
        match random.below(10) {
            0..=2 => FaultySettings::comma(random),
            3 => FaultySettings::two_faults(random),
            _ => FaultySettings::fault(random),
        }
    }

    /// A comma, in sound settings or in others.
    pub fn comma(random: &mut Random) -> FaultySettings {
        let comma = &COMMAS[random.below(COMMAS.len())];
        let (bytes, place) = comma.draw(random);
        FaultySettings {
            bytes,
            refusal: Refusal::new(34, place as u64),
            name: comma.name,
        }
    }

    /// One fault, which is no comma.
    pub fn fault(random: &mut Random) -> FaultySettings {
        let fault = &FAULTS[random.below(FAULTS.len())];
        let mut draft = Draft::new(&Settings::draw(random));
        fault.put(&mut draft, random);
        FaultySettings::of(&draft, fault.name)
    }

    /// Two of them; the first is a wrong value, so that the second, which may take its
    /// line away, does not mend it.
    pub fn two_faults(random: &mut Random) -> FaultySettings {
        let values: Vec<_> = FAULTS.iter().filter(|fault| fault.is_value()).collect();
        let first = values[random.below(values.len())];
        let second = &FAULTS[random.below(FAULTS.len())];
        let mut draft = Draft::new(&Settings::draw(random));
        first.put(&mut draft, random);
        second.put(&mut draft, random);
        FaultySettings::of(&draft, TWO_FAULTS)
    }

    fn of(draft: &Draft, name: &'static str) -> FaultySettings {
        FaultySettings {
            bytes: draft.bytes(),
            refusal: Refusal::new(35, 0),
            name,
        }
    }
}

#[cfg(test)]
mod tests {
    use super::*;
    use crate::tally::Tally;

    #[test]
    fn no_two_names_are_the_same() {
        let mut names: Vec<_> = settings_clauses().chain(settings_freedoms()).collect();
        let count = names.len();
        names.sort_unstable();
        names.dedup();
        assert_eq!(names.len(), count);
    }

    #[test]
    fn twenty_thousand_settings_reach_every_name() {
        let mut tally = Tally::new("Settings", settings_clauses().chain(settings_freedoms()));
        let random = &mut Random::new(0);
        for _ in 0..10_000 {
            for name in Settings::draw(random).freedoms() {
                tally.add(name);
            }
            tally.add(FaultySettings::draw(random).name);
        }
        assert!(tally.missing().is_empty(), "{:?}", tally.missing());
    }

    #[test]
    fn the_first_comma_is_where_it_is_foretold_and_35_has_none() {
        let random = &mut Random::new(1);
        for _ in 0..10_000 {
            let faulty = FaultySettings::draw(random);
            let comma = faulty.bytes.iter().position(|byte| *byte == b',');
            let wanted = match faulty.refusal.number {
                34 => Some(faulty.refusal.place as usize),
                _ => None,
            };
            assert_eq!(comma, wanted, "{}", faulty.name);
        }
    }

    #[test]
    fn others_that_mean_the_same_have_the_same_pitches_and_masks() {
        let random = &mut Random::new(2);
        for _ in 0..1000 {
            let settings = Settings::draw(random);
            let alike = settings.alike(random);
            assert_eq!(settings.masks_on(), alike.masks_on());
            assert_eq!(settings.sheet(9), alike.sheet(9));
            assert_ne!(settings.masks_line.is_some(), alike.masks_line.is_some());
        }
    }

    #[test]
    fn the_text_of_some_settings() {
        let pitch = |nanometres, digits, decimals| Pitch {
            nanometres,
            digits,
            decimals,
        };
        let settings = Settings {
            edition: 2,
            pitches: [pitch(1500, 5, 1), pitch(1, 1, 3)],
            masks_line: Some(false),
        };
        let text = b"edition=2\npitch_x=00001.5\npitch_y=0.001\nmasks=off\n";
        assert_eq!(settings.bytes(), text);
        assert_eq!(settings.sheet(7), "covered=7\narea_nm2=10500\n");
    }
}
