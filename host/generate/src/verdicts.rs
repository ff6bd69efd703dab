//! What the releases 1.2 and 1.02 may say of one file: paper 02, Req 05.

use reference::Refusal;

/// The names of what both say.
pub const VERDICTS: [&str; 12] = [
    "both releases accept it",
    "both releases refuse it alike",
    "17 under 1.2, accepted under 1.02",
    "18 under 1.2, accepted under 1.02",
    "17 or 18 under 1.2, 7 under 1.02",
    "17 or 18 under 1.2, 10 under 1.02",
    "17 or 18 under 1.2, 11 under 1.02",
    "17 or 18 under 1.2, 12 under 1.02",
    "17 or 18 under 1.2, 13 under 1.02",
    "17 or 18 under 1.2, 14 under 1.02",
    "17 or 18 under 1.2, 15 under 1.02",
    "17 or 18 under 1.2, 16 under 1.02",
];

/// The refusals that 1.02 never gives.
const OF_CHUNKS: [u32; 2] = [17, 18];

/// The name of the refusals under 1.2 and 1.02, nothing for a file that is accepted.
/// No bytes have others than the named ones: both are alike unless 1.2 gives 17 or 18,
/// and then 1.02 gives neither, nor anything that goes before all entries.
pub fn verdicts(newer: Option<Refusal>, older: Option<Refusal>) -> Option<&'static str> {
    let number = |refusal: Option<Refusal>| refusal.map(|r| r.number);
    let index = match (number(newer), number(older)) {
        (_, Some(given)) if OF_CHUNKS.contains(&given) => return None,
        (Some(17), None) => 2,
        (Some(18), None) => 3,
        (Some(17 | 18), Some(7)) => 4,
        (Some(17 | 18), Some(given @ 10..=16)) => given as usize - 5,
        _ if newer != older => return None,
        (None, _) => 0,
        (Some(_), _) => 1,
    };
    Some(VERDICTS[index])
}

#[cfg(test)]
mod tests {
    use super::*;

    fn of(newer: u32, older: u32) -> Option<&'static str> {
        let refusal = |number| (number != 0).then(|| Refusal::new(number, 40));
        verdicts(refusal(newer), refusal(older))
    }

    #[test]
    fn only_17_and_18_make_a_difference() {
        for newer in 0..=18 {
            for older in 0..=18 {
                let later = [0, 7, 10, 11, 12, 13, 14, 15, 16].contains(&older);
                let may_be = match newer {
                    17 | 18 => later,
                    _ => newer == older,
                };
                let name = of(newer, older);
                assert_eq!(name.is_some(), may_be, "{newer}, {older}: {name:?}");
            }
        }
        let moved = verdicts(Some(Refusal::new(13, 40)), Some(Refusal::new(13, 41)));
        assert_eq!(moved, None, "another place");
    }

    #[test]
    fn each_name_has_its_numbers() {
        assert_eq!(of(0, 0), Some("both releases accept it"));
        assert_eq!(of(9, 9), Some("both releases refuse it alike"));
        assert_eq!(of(18, 0), Some("18 under 1.2, accepted under 1.02"));
        for older in [7, 10, 11, 12, 13, 14, 15, 16] {
            let wanted = format!("17 or 18 under 1.2, {older} under 1.02");
            for newer in [17, 18] {
                assert_eq!(of(newer, older), Some(wanted.as_str()));
            }
        }
    }
}
