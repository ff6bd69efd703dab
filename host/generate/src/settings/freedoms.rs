//! The freedoms that settings have, and which of them some take.

use super::pitch::{Pitch, GREATEST};
use super::Settings;

/// The names of all freedoms of settings.
pub fn settings_freedoms() -> impl Iterator<Item = &'static str> {
    let of_pitches = OF_PITCHES.iter().flat_map(|(names, _)| *names);
    OF_SETTINGS.iter().map(|(name, _)| *name).chain(of_pitches)
}

/// The freedoms that these take, each once.
pub fn taken(settings: &Settings) -> Vec<&'static str> {
    let mut taken = Vec::new();
    for (name, test) in OF_SETTINGS {
        if test(settings) {
            taken.push(*name);
        }
    }
    for (names, test) in OF_PITCHES {
        for (name, pitch) in names.iter().zip(&settings.pitches) {
            if test(pitch) {
                taken.push(name);
            }
        }
    }
    taken
}

type OfSettings = (&'static str, fn(&Settings) -> bool);

const OF_SETTINGS: &[OfSettings] = &[
    ("edition 1, masks lacking", |s| is(s, 1, None)),
    ("edition 1, masks=on", |s| is(s, 1, Some(true))),
    ("edition 1, masks=off", |s| is(s, 1, Some(false))),
    ("edition 2, masks lacking", |s| is(s, 2, None)),
    ("edition 2, masks=on", |s| is(s, 2, Some(true))),
    ("edition 2, masks=off", |s| is(s, 2, Some(false))),
    ("both pitches are the smallest", |s| {
        s.pitches.iter().all(|p| p.nanometres == 1)
    }),
    ("both pitches are the greatest", |s| {
        s.pitches.iter().all(|p| p.nanometres == GREATEST)
    }),
    ("both pitches are the same, written otherwise", |s| {
        let [x, y] = s.pitches;
        x.nanometres == y.nanometres && x != y
    }),
];

fn is(settings: &Settings, edition: u32, masks_line: Option<bool>) -> bool {
    settings.edition == edition && settings.masks_line == masks_line
}

type OfPitches = ([&'static str; 2], fn(&Pitch) -> bool);

/// The name of a freedom for X and for Y.
macro_rules! of_both {
    ($name:literal) => {
        [concat!("pitch_x: ", $name), concat!("pitch_y: ", $name)]
    };
}

const OF_PITCHES: &[OfPitches] = &[
    (of_both!("1 digit"), |p| p.digits == 1),
    (of_both!("2 digits"), |p| p.digits == 2),
    (of_both!("3 digits"), |p| p.digits == 3),
    (of_both!("4 digits"), |p| p.digits == 4),
    (of_both!("5 digits"), |p| p.digits == 5),
    (of_both!("no point"), |p| p.decimals == 0),
    (of_both!("1 decimal"), |p| p.decimals == 1),
    (of_both!("2 decimals"), |p| p.decimals == 2),
    (of_both!("3 decimals"), |p| p.decimals == 3),
    (of_both!("5 digits and no point"), |p| {
        p.digits == 5 && p.decimals == 0
    }),
    (of_both!("5 digits and 3 decimals"), |p| {
        p.digits == 5 && p.decimals == 3
    }),
    (of_both!("leading zeros"), Pitch::has_leading_zeros),
    (of_both!("no leading zeros"), |p| !p.has_leading_zeros()),
    (of_both!("trailing zeros"), Pitch::has_trailing_zeros),
    (of_both!("nothing but zeros behind the point"), |p| {
        p.decimals > 0 && p.nanometres % 1000 == 0
    }),
    (of_both!("a zero right behind the point"), |p| {
        p.decimals > 1 && p.nanometres % 1000 / 100 == 0 && p.nanometres % 100 != 0
    }),
    (of_both!("below 1 micrometre"), |p| p.nanometres < 1000),
    (of_both!("1 nanometre"), |p| p.nanometres == 1),
    (of_both!("1 nanometre in 5 digits"), |p| {
        p.nanometres == 1 && p.digits == 5
    }),
    (of_both!("65,535 nanometres"), |p| p.nanometres == GREATEST),
    (of_both!("65,535 nanometres in 5 digits"), |p| {
        p.nanometres == GREATEST && p.digits == 5
    }),
    (of_both!("65 micrometres without a point"), |p| {
        p.nanometres == 65_000 && p.decimals == 0
    }),
];
