//! Refusals: a number of the table in docs/RULES.md, with words, and a place.

use std::fmt;

macro_rules! reasons {
    ($($name:ident $number:literal $words:literal)*) => {
        /// Why something was refused: a row of the table in docs/RULES.md.
        #[derive(Clone, Copy, Debug, PartialEq, Eq)]
        pub enum Reason {
            $(#[doc = $words] $name,)*
            /// A number that the table does not have.
            Other(u32),
        }

        impl Reason {
            /// The reason of that number.
            pub fn of_number(number: u32) -> Reason {
                match number {
                    $($number => Reason::$name,)*
                    other => Reason::Other(other),
                }
            }

            /// The number in the table.
            pub fn number(self) -> u32 {
                match self {
                    $(Reason::$name => $number,)*
                    Reason::Other(number) => number,
                }
            }

            /// A line of words for it.
            pub fn words(self) -> &'static str {
                match self {
                    $(Reason::$name => $words,)*
                    Reason::Other(_) => "there is no such refusal",
                }
            }
        }
    };
}

reasons! {
    Length 1 "length 0, not a multiple of 32, or above 2^40"
    Name 2 "unknown name"
    SegmentSizes 3 "AllocatedSize negative or not a multiple of 32; UsedSize negative or larger; end past the file"
    SegmentCount 4 "more than 8192 segments"
    FileSegment 5 "the first segment is not the file segment or is under 80 bytes long, or a later one is a file segment"
    Major 6 "Major not 1"
    FilePart 7 "a FilePart not 0"
    UpdatePending 8 "UpdatePending not 0"
    Position 9 "a directory or the metadata is said to be where no such segment begins"
    Directory 10 "a directory is too short for its entries, or has a negative number of them or over 4096; or the metadata segment's sizes are negative or too large for it"
    Entry 11 "entry not well formed"
    PixelType 12 "pixel type not listed"
    Compression 13 "compression not 0"
    NamedSegment 14 "an entry says that its tile or attachment is where none begins"
    Copy 15 "a tile or attachment says something else of itself than its entry does, or is too short to say it"
    Sizes 16 "a tile's or an attachment's sizes are negative or too large for it, or a tile has too few or too many bytes of pixels"
    Chunk 17 "chunk not as the rules say"
    Mask 18 "mask not as the rules say"
    Window 20 "window side not 1 to 65536, or right or bottom edge above 2147483647"
    AskedType 21 "asked type not listed, or background not one pixel long"
    Lent 22 "target, map, sheet or array too short"
    AnotherType 23 "a selected tile that meets the window has another type"
    NoEntry 24 "no entry of that number, counted from 0"
    RepackBuffer 25 "buffer shorter than the repacked file"
    TooLong 30 "listing only: input over 65536 bytes"
    Comma 34 "a comma in the settings; the place is its offset in them"
    Settings 35 "settings not as the rules say, or a pitch not 0.001 to 65.535 micrometres"
    RepackSize 36 "the repacked file would have more than 8192 segments or 2^40 bytes"
}

/// Why something was refused, and where.
#[derive(Clone, Copy, Debug, PartialEq, Eq)]
pub struct Refusal {
    /// The row of the table.
    pub reason: Reason,
    /// A byte offset in the file; for a segment or an entry that of its first byte.
    /// Of a comma (34) it is one in the settings.
    pub place: u64,
}

impl Refusal {
    /// The refusal of that number at that place.
    pub fn new(number: u32, place: u64) -> Refusal {
        Refusal {
            reason: Reason::of_number(number),
            place,
        }
    }
}

impl fmt::Display for Refusal {
    fn fmt(&self, f: &mut fmt::Formatter<'_>) -> fmt::Result {
        let (number, words) = (self.reason.number(), self.reason.words());
        write!(f, "refused {number} at {}: {words}", self.place)
    }
}

impl std::error::Error for Refusal {}

#[cfg(test)]
mod tests {
    use super::Reason;

    #[test]
    fn numbers_come_back() {
        for number in (0..40).chain([u32::MAX]) {
            assert_eq!(Reason::of_number(number).number(), number);
        }
        let other = |n: &u32| matches!(Reason::of_number(*n), Reason::Other(_));
        assert_eq!(
            (1..=36).filter(other).collect::<Vec<_>>(),
            [19, 26, 27, 28, 29, 31, 32, 33]
        );
    }
}
