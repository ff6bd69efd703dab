//! Judging a file of one tile with long metadata and an attachment, so that they are read: against a native scanner,
//! and twice the bytes against half of them.

use crate::scanner::{Scanned, SCANNERS};
use crate::timing::{least, time, Rounds, Side};
use generate::OneTile;
use std::hint::black_box;
use std::time::Duration;

/// The length of ordinary metadata.
const ORDINARY: usize = 1 << 20;

/// The lengths whose times are compared.
const HALF: usize = 2 << 20;
const WHOLE: usize = 2 * HALF;

/// Judges a file with 1 MiB of ordinary metadata, and scans these; of the scanners the middle time counts.
pub fn ordinary(rounds: Rounds) -> [Duration; 2] {
    let metadata = ordinary_metadata();
    let file = file(&metadata);
    let library = |_: &mut ()| time(|| judge(&file));
    let native = |n: usize| {
        let metadata = &metadata;
        move |_: &mut ()| time(|| assert_eq!(SCANNERS[n](black_box(metadata)), Scanned::Plain))
    };
    let [one, two, three, four, five] = [0, 1, 2, 3, 4].map(native);
    let sides: [Side<()>; 6] = [&library, &one, &two, &three, &four, &five];
    let [library, mut scanned @ ..]: [Duration; 6] = least(rounds, &mut (), sides);
    scanned.sort();
    [library, scanned[2]]
}

/// Small elements with attributes, as a microscope writes them; all of it reads and nests.
fn ordinary_metadata() -> Vec<u8> {
    let mut text = String::from("<METADATA>\n  <Tags>\n");
    let mut n = 0;
    while text.len() < ORDINARY {
        text += &format!(
            "    <StageXPosition Unit=\"um\" Id='{n}'>{}.{:03}</StageXPosition>\n    <Detector State=\"on\"/>\n",
            n * 37 % 9973,
            n % 1000
        );
        n += 1;
    }
    text += "  </Tags>\n</METADATA>\n";
    text.into_bytes()
}

/// A kind of metadata: its name, and about so many bytes of it.
pub type Kind = (&'static str, fn(usize) -> Vec<u8>);

/// The kinds whose time must grow with their length and not faster.
pub const KINDS: [Kind; 7] = [
    ("dashes of an open comment", |n| {
        [b"<!--".to_vec(), vec![b'-'; n]].concat()
    }),
    ("brackets of open character data", |n| {
        [b"<![CDATA[".to_vec(), vec![b']'; n]].concat()
    }),
    ("attributes of one start tag", |n| {
        let attributes = b" b=\"c\"".repeat(n / 6);
        [b"<a", &attributes[..], b"></a>"].concat()
    }),
    ("elements", |n| b"<a></a>".repeat(n / 7)),
    ("comments", |n| b"<!---->".repeat(n / 7)),
    ("two long names", |n| {
        let [one, two] = [b'n', b'm'].map(|letter| vec![letter; n / 4]);
        [
            b"<",
            &one[..],
            b"><",
            &two,
            b"></",
            &two,
            b"></",
            &one,
            b">",
        ]
        .concat()
    }),
    ("text", |n| vec![b'a'; n]),
];

/// Judges files with 4 MiB and with 2 MiB of such metadata.
pub fn twice(kind: Kind, rounds: Rounds) -> [Duration; 2] {
    let files = [WHOLE, HALF].map(|length| file(&kind.1(length)));
    let judge = |n: usize| {
        let file = &files[n];
        move |_: &mut ()| time(|| judge(file))
    };
    least(rounds, &mut (), [&judge(0), &judge(1)])
}

/// The file of one tile with this metadata, and an attachment that is no row of chunks.
fn file(metadata: &[u8]) -> Vec<u8> {
    OneTile::new().with(metadata, &OneTile::NO_CHUNK).to_vec()
}

fn judge(file: &[u8]) {
    czi::judge(black_box(file)).expect("metadata that declare nothing");
}

#[cfg(test)]
mod tests {
    use super::*;

    #[test]
    fn ordinary_metadata_are_read_to_the_last_byte() {
        let metadata = ordinary_metadata();
        assert!((ORDINARY..ORDINARY + 200).contains(&metadata.len()));
        assert_eq!(SCANNERS[0](&metadata), Scanned::Plain);
        assert_eq!(
            SCANNERS[0](&metadata[..metadata.len() - 2]),
            Scanned::Spoilt
        );
    }

    #[test]
    fn kinds_have_their_length_and_declare_nothing() {
        for (name, make) in KINDS {
            for length in [1000, 2000] {
                let metadata = make(length);
                assert!(metadata.len().abs_diff(length) < 20, "{name}");
                assert_ne!(SCANNERS[0](&metadata), Scanned::Container, "{name}");
            }
        }
    }
}
