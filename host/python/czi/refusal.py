"""Refusals: a number, its words, and a place."""

# The words of each number, as include/czi_words.h and the wrapper for Rust have them.
WORDS = {
    1: "length 0, not a multiple of 32, or above 2^40",
    2: "unknown name",
    3: "AllocatedSize negative or not a multiple of 32; UsedSize negative or larger; end past the file",
    4: "more than 8192 segments",
    5: "the first segment is not the file segment or is under 80 bytes long, or a later one is a file segment",
    6: "Major not 1",
    7: "a FilePart not 0",
    8: "UpdatePending not 0",
    9: "a directory or the metadata is said to be where no such segment begins",
    10: "a directory is too short for its entries, or has a negative number of them or over 4096; or the metadata "
        "segment's sizes are negative or too large for it",
    11: "entry not well formed",
    12: "pixel type not listed",
    13: "compression not 0",
    14: "an entry says that its tile or attachment is where none begins",
    15: "a tile or attachment says something else of itself than its entry does, or is too short to say it",
    16: "a tile's or an attachment's sizes are negative or too large for it, or a tile has too few or too many "
        "bytes of pixels",
    17: "chunk not as the rules say",
    18: "mask not as the rules say",
    20: "window side not 1 to 65536, or right or bottom edge above 2147483647",
    21: "asked type not listed, or background not one pixel long",
    22: "target, map, sheet or array too short",
    23: "a selected tile that meets the window has another type",
    24: "no entry of that number, counted from 0",
    25: "buffer shorter than the repacked file",
    30: "listing only: input over 65536 bytes",
    34: "a comma in the settings; the place is its offset in them",
    35: "settings not as the rules say, or a pitch not 0.001 to 65.535 micrometres",
    36: "the repacked file would have more than 8192 segments or 2^40 bytes",
}


class Refused(Exception):
    """A file or a question was refused.

    number   of the refusal; include/czi.h says when each is given
    place    where, as a byte offset in the file; of 34 in the settings
    words    of the rule
    more     what is said of it beyond the rule, or nothing
    """

    def __init__(self, number, place, more=""):
        super().__init__(number, place, more)
        self.number = number
        self.place = place
        self.more = more
        self.words = WORDS.get(number, "there is no such refusal")

    def __str__(self):
        more = f" ({self.more})" if self.more else ""
        return f"refused {self.number} at {self.place}: {self.words}{more}"
