//! Help texts.

use crate::failure::Failure;
use std::ffi::OsString;

const ALL: &str = "\
czi reads CZI microscope files with a library that is proved to follow its rules.

usage: czi judge FILE      is the file accepted?
       czi info FILE       its figures, types, scenes, letters and attachments
       czi tiles FILE      a line a tile
       czi count FILE      how many pixels of a window are covered
       czi compose FILE    a plane of the file and its coverage map
       czi quote FILE ..   a quote sheet: the covered pixels, and their area
       czi repack FILE ..  the file written anew without its dead segments
       czi extract FILE .. the very bytes of a part of the file
       czi list FILE       the listing of a file of at most 65536 bytes
       czi sample OUT.czi  writes a small mosaic to try these with
       czi help COMMAND    more about a command
       czi help refusals   what each refusal means, and what to do about it
       czi --version

FILE may be - for standard input. A plain file is mapped, so it may be larger than
memory; a pipe is read into memory. It is judged by release 1.2 of the format, or,
where it was archived under 1.02, by that with --release 1.02, which each command
with a FILE takes. A value follows its option as the next word or behind =, and
what follows a single -- is no option.

A file that is there is replaced only with --force, never where its mode has no
write bit, where it is another user's in a sticky folder, or where it is the file
that is read. Files are written under temporary names and then put in place, all
or none: where the run fails, or is ended by SIGINT, SIGTERM, SIGHUP or SIGQUIT,
what was there stands as it was.
(SIGKILL may leave files named .czi-PID-N.part or .old in the output's folder.)
A file that is changed while it is read gives no answer.

exit codes: 0 done; 2 refused: the refusal's number, its place as an offset in
the file and its words stand on standard error; 1 a bad argument, a file that
can't be read or written or was changed meanwhile, a full or closed standard
output or error, or too little memory. The signals above end the run as they end
any other.
";

const LIST: &str = "\
usage: czi list FILE [--release 1.02|1.2]

Prints the text that the program list prints: five lines, bytes=, segments=,
tiles=, attachments= and box=, or, where the file is refused, refused= and
place=; 30 for a file of over 65536 bytes. A refusal is an answer here, so the
exit code is 0 for it too, as that of the program list is; czi judge exits 2.
~
The program list judges by release 1.2 always.
";

const INFO: &str = "\
usage: czi info FILE [--json] [--release 1.02|1.2]

Prints, of a file of any size:
  bytes= segments= tiles= attachments=
  box=left,top,right,bottom   over the tiles that are no pyramid tiles; right and
                              bottom exclusive; none where there is no such tile
  release=                    by which the file was judged, 1.2 or 1.02
  pyramid_tiles=              tiles stored in another size, which no plane shows
  masked_tiles=               tiles with a mask, which --masks on looks at; where
                              there is none under 1.2, no count depends on the
                              release
  type= tiles=                for each pixel type, in the order of the directory
  scene= tiles= pyramid_tiles= box=
                              for each start of S, if any tile has S; a tile
                              without S counts to scene 0. tiles= counts the
                              pyramid tiles in, selected= of czi count does not
  letter= tiles= least= greatest= layered_tiles=
                              for each letter but X and Y: how many tiles have
                              it, pyramid tiles too; the range of their starts,
                              those of layers too; and how many of these tiles
                              have layers along it: several planes in one
                              sub-block, of which --start takes one
  attachment= bytes= guid= type= name=
                              for each attachment: its number, the size of its
                              data, its content GUID, file type and name. The
                              last two are strings as JSON has them: quotes,
                              backslashes, control characters, marks of
                              direction and others that are not seen are
                              escaped. Bytes that are no UTF-8 are shown as
                              U+FFFD
With --json the same as one object. Exits 2 where the file is refused.
~
";

const TILES: &str = "\
usage: czi tiles FILE [--json] [--release 1.02|1.2]

Prints a line a tile, in the order of the directory:
  tile=       its number, counted from 0
  type=       its pixel type
  x= y=       where it starts; width= and height=, its size in the plane
  m=          its M-index, none where it has none; greater lies on top
  C= S= ..    the start of each other letter that it has; of a letter along which
              it has layers, the first and the last as Z=5..7, of which --start
              takes one
  pyramid=    yes where it is stored in another size: no plane shows it
  mask=       width and height of its mask as 25x16, or none
With --json an array of objects, each with the release too, and with layers:
letter, start and size, or null. Exits 2 where the file is refused.
~
";

const JUDGE: &str = "\
usage: czi judge FILE [--release 1.02|1.2]

Prints accepted, or exits 2 and says the refusal.
~
Unless 1.2 gives 17 or 18, both give the same number and place.
";

const SAMPLE: &str = "\
usage: czi sample OUT.czi [--force]

Writes a mosaic of four overlapping tiles, one with a mask, of 6144 bytes; with -
to standard output.
  --force   replaces a file that is there
";

const EXTRACT: &str = "\
usage: czi extract FILE PART --out PATH [--force] [--release 1.02|1.2]

Writes the very bytes of a part of the file. PART is one of
  --tile N --pixels            the pixels of a tile, as they are stored; of all of
                               its layers, one behind the other
  --tile N --metadata          the metadata of its sub-block
  --tile N --tile-attachment   the attachment of its sub-block
  --xml                        the common XML; empty where there is none
  --xml-attachment             its attachment; empty where there is none
  --attachment N               the data of an attachment
N counts from 0, as in czi tiles and czi info; a number that the file does not
have is refused as 24.
  --out PATH         where to; - is standard output
  --force            replaces a file that is there
~
Prints bytes=, how many they are, with --out - on standard error.
";

/// What `count`, `compose` and `quote` share.
const QUESTION: &str =
    "  --window L,T,W,H   the window of W by H pixels from column L and row T on; left
                     and top may be negative. The file's box unless given, which
                     czi info prints as left,top,right,bottom
  --type T           the pixel type: a number, or gray8 (0), gray16 (1),
                     grayfloat (2), bgr24 (3), bgr48 (4), bgrfloat (8),
                     bgra32 (9), graycomplex (10), bgrcomplex (11), in any case.
                     Unless given that of the selected tiles that meet the
                     window, or of the first tile where none does; two types
                     among them are refused as 23, and both are named. One that
                     is not listed is refused as 21 of any file
  --start C=1        tiles that start at 1 along C, for any letter but X, Y and
                     M; 0 unless given; may be given once for each letter. Of a
                     tile with layers, such as the focal planes of a stack, the
                     layer that starts there: --start Z=6. A tile that has no
                     such layer is not selected
  --scene any|N      all scenes, or the one that starts at N; the same as
                     --start S=N; 0 unless given
";

/// What `count` and `compose` share besides.
const MASKS: &str = "  --masks on|off     leave out the pixels that a tile's mask calls invalid;
                     off unless asked for
";

/// What the last line of these three says of layers.
const LAYERS: &str = "\
Where tiles other than pyramid tiles have layers, the start along their letter is
said even where it is 0, and so is layers=, by letter the first and the last layer
of all of these tiles, whatever the scene: Z:5..8, or C:1..2,Z:5..7. Tiles of one
plane are not in it, and gaps are not shown: a start within may select nothing.
";

/// What every command with a file takes.
const RELEASE: &str =
    "  --release 1.02|1.2 by which release of the format the file is judged; 1.2 unless
                     given. 1.02 has no chunk containers: the attachment of
                     every tile is plain bytes, 17 and 18 are never given, no
                     tile has a mask, and masks on is the same as masks off.
                     Choose it for a file that was archived under 1.02 and for
                     no other, whose masks would be forgotten. No byte of the
                     file says it: it is known from whoever archived it
";

const COUNT: &str = "\
usage: czi count FILE [--window L,T,W,H] [--type T] [--start C=1 ..]
           [--scene any|N] [--masks on|off] [--release 1.02|1.2] [--jobs N]

Prints how many pixels of a window are covered by a tile; no file is written.
Without options that is scene 0, start 0 of all other letters, and masks off; for
an area ask with --scene any --masks on.

@
%
~
  --jobs N           how many windows are composed at a time, 1 to 1024; as many
                     as there are cores unless given

The window may have any sides here. It is cut into windows of at most 65536 a
side, so that all jobs together take at most 512 MiB, and their counts are added.
Those that no selected tile meets have no covered pixel and are not composed.
Prints covered=, pixels= (of the whole window), windows= (into how many it was
cut, which depends on the jobs; the counts do not), and a line with what was
chosen: tiles= (of the file), selected= (of these), meet= (of these, how many
share a pixel with the window), release= (1.2 or 1.02), masks=, scene=, the
starts that are not 0, type= (none where none is given and the file has no tile),
window=.
&
A file without a box covers nothing. A run of more than a second shows how far it
is where standard error is a terminal.
";

const COMPOSE: &str = "\
usage: czi compose FILE [--out plane.raw] [--map map.pbm] [--window L,T,W,H]
           [--type T] [--start C=1 ..] [--scene any|N] [--masks on|off]
           [--release 1.02|1.2] [--background HEX]
           [--composer plain|quick|both] [--force]

Composes a window of the plane; its sides are 1 to 65536.

@
%
~
  --background HEX   the bytes of the background pixel in the order of the file:
                     the low byte of a number first, blue before green before
                     red. 0100 is 1 for gray16. Zeros unless given
  --composer C       plain, quick, or both, which says whether they agree;
                     quick unless given
  --out FILE         the plane: the window's pixels row by row, unpadded
  --map FILE         the coverage map as a PBM: black where a tile gave the pixel
  --force            replaces files that are there

One of --out and --map may be - for standard output; the lines that follow go to
standard error then. Without either, nothing is written but these lines:
pixels=, covered=, stored= (how many pixels were stored from tiles), and a line
with what was chosen: tiles= (of the file), selected= (of these), meet= (of these,
how many share a pixel with the window), release= (1.2 or 1.02), masks=,
scene=, the starts that are not 0, type=, window=.
&
The plane is composed by windows of whole rows, so that at most 512 MiB are taken;
what goes to standard output is held in memory until all of it is there.
";

const QUOTE: &str = "\
usage: czi quote FILE --settings quote.txt [--sheet OUT] [--map map.pbm]
           [--window L,T,W,H] [--type T] [--start C=1 ..] [--scene any|N]
           [--release 1.02|1.2] [--force]

Prints the quote sheet of a window, two lines: covered=, how many of its pixels a
tile covers, and area_nm2=, that count times both pitches, in square nanometres;
a square millimetre has 1000000000000 of them. Without options that is scene 0
and start 0 of all other letters; for an area ask with --scene any.

  --settings FILE    a text file of these lines, in this order:
                       edition=2        1 or 2
                       pitch_x=0.325    how wide a pixel is, in micrometres
                       pitch_y=0.325    how high it is
                       masks=on         on or off
                     A pitch is one to five digits, or these, a point and one to
                     three digits more, and comes to 0.001 to 65.535. The line
                     masks= may lack: that is off in edition 1 and on in 2. No
                     comma, blank, unit or empty line. A fault is said with its
                     line and column; a comma is refused as 34, all else as 35.
                     - is standard input; over 65536 bytes are not read
  --sheet OUT        the sheet goes into this file, and is printed too
  --map FILE         the coverage map as a PBM: black where a tile gave the pixel.
                     With - it goes to standard output, and --sheet names a file
  --force            replaces files that are there
@
~

There is no --masks here: the settings say it. Without --sheet, or with - for it,
standard output gets the two lines of the sheet and nothing else, and the lines
that follow go to standard error (with --map - the sheet's lines before them):
area_mm2= (the sheet's area in square millimetres), pixels= (of the window),
width_mm= and height_mm= (the window's sides by the pitches: hold them against
the part that was scanned), edition=, pitch_x_nm= and pitch_y_nm= (as the
settings were read), note: for what to look at twice (masks= is in no line; the
release has no masks; two pitches; tiles are left out), and a line with what was
chosen, as czi count has it.
&
The areas of layers are not to be added: they are of the same ground. The window's
sides are 1 to 65536 pixels, and it is composed whole, in as much memory as its
pixels take; where that is too much, the areas of its parts add up to its own. A
sheet that was there stays where the run is refused: look at the exit code.
docs/QUOTE.md says more.
";

const REPACK: &str = "\
usage: czi repack FILE --out NEW [--force] [--json] [--release 1.02|1.2]

Writes the file anew without its dead segments, which are those that are DELETED
and those that the file's directories name no more. The new file has the same
tiles, masks, metadata and attachments, and every plane and count of it is the
same; only places in the file differ. Repacked again it stays as it is. FILE
itself is not touched.

What the format does not name is not kept: unused room, bytes of a kept segment
behind the parts that the format names, even within UsedSize, and reserved fields,
which become zero. A vendor's private data there are lost. Nor can what was
deleted be got back from NEW: keep FILE if it may be wanted.

  --out NEW          the new file; - is standard output. (`> FILE` empties FILE
                     before czi starts: give another name there)
  --force            replaces a file that is there, but never FILE, where it is
                     given by name or as < FILE; what comes through a pipe has no
                     name
  --json             says the same as one object, but for notes
~

The release decides only whether FILE is accepted; NEW has the same bytes under
either release that accepts it.

Prints bytes_before= and bytes_after=, segments_before= and segments_after=,
segments_dropped= (how many of FILE's are in NEW no more), segments_repeated= (how
many of NEW's segments are second or further copies, of what FILE lists more than
once; after = before - dropped + repeated), note: for what may surprise, and
release=; with --out - on standard error. The notes:
  - a segment that is listed more than once is written as often
  - the new file is longer: by what is repeated, or since the file segment of FILE
    was shorter than 512 bytes, or both; it is said which
  - the file was clean: the new one has the same bytes
  - nothing was dropped, and the bytes differ: segments stand in another order, or
    bytes without a meaning were cleared or left out

It takes as much memory as NEW has bytes. Before NEW gets its name it is read back
from the disk, held against what was to be written, and judged, and FILE is looked
at once more: where NEW fails that, or FILE was changed, nothing is left, and the
exit code is 1. A FILE of more than 8192 segments, the dead ones too, is refused
as 4 before it is repacked; a NEW of more than 8192 segments or 2^40 bytes as 36.
";

/// The commands.
pub const COMMANDS: [&str; 10] = [
    "judge", "info", "tiles", "count", "compose", "quote", "repack", "extract", "list", "sample",
];

/// What to do about 17 and 18. The older release is no way round them.
const REWRITE_MASKS: &str = "whoever wrote the masks writes them again; only a file that was \
    archived under release 1.02 is judged by it, and the masks of any other would be forgotten";

/// What to do about each refusal.
const ADVICE: [(u32, &str); 28] = [
    (1, "cut in copying, or no CZI file: copy it again"),
    (
        2,
        "damaged from the place on, or no CZI file: copy it again",
    ),
    (3, "mostly a file that was cut: copy it again"),
    (
        4,
        "save it anew, so that deleted segments go, or in several files; a repack judges the file first and can't help",
    ),
    (5, "no CZI file, or two were joined"),
    (6, "save it anew in version 1 of the format"),
    (7, "a scan in several parts: save it anew as one file"),
    (
        8,
        "wait until the writer is done; if it crashed, save it anew",
    ),
    (9, "damaged, or never finished: copy it again, save it anew"),
    (
        10,
        "save it without a pyramid, or scene by scene; else damaged",
    ),
    (
        11,
        "several planes in a sub-block lie along one letter, which is neither M nor S and stands behind Y, and are at most 1024: save it anew so, or with one plane in each; else damaged",
    ),
    (12, "convert it"),
    (13, "save it anew without compression"),
    (14, "damaged: copy it again"),
    (
        15,
        "some tool changed the one and not the other: save it anew, and look which is right",
    ),
    (16, "damaged: copy it again"),
    (17, REWRITE_MASKS),
    (18, REWRITE_MASKS),
    (
        20,
        "compose and quote: cut the window, and counts and areas add up; count is for windows of any size",
    ),
    (21, "name another type, or as many bytes as its pixel has"),
    (22, "a fault of the calling program"),
    (
        23,
        "name the type of that tile, or select one kind of tiles, mostly by --start C=N, or by --window where they lie apart",
    ),
    (24, "czi info and czi tiles say how many there are"),
    (
        25,
        "of repack: lend czi_repack_size bytes; the command never gives it",
    ),
    (30, "czi info has the same figures"),
    (
        34,
        "of quote: write 1.25, not 1,25, and no comma anywhere else; line and column are said",
    ),
    (
        35,
        "of quote: mend the settings where line and column are said; czi help quote shows such a file",
    ),
    (
        36,
        "of repack: what the file lists more than once would be written as often (or it is within 416 bytes of 2^40); it is sound: work on with it as it is, or save it anew",
    ),
];

/// The text about refusals.
fn refusals() -> String {
    let mut text = "\
A refusal is a number, a place, which is an offset in the file (of 34 in the
settings), and words. Some files are refused whole by design: 4, 7, 10, 11 and 13,
and 12 for types that the format only plans. \"Copy it again\" means from the medium
that it came from, \"save it anew\" with the program that wrote it.
docs/INTEGRATE.md and docs/RULES.md say more.

"
    .to_string();
    for (number, advice) in ADVICE {
        let words = czi::Reason::of_number(number).words();
        text += &wrapped(&format!("{number:>2}  "), words);
        text += &wrapped("    - ", advice);
    }
    text
}

/// The words behind a first word, in lines of at most 80 columns.
fn wrapped(first: &str, words: &str) -> String {
    let mut lines = first.to_string();
    let mut column = first.len();
    for (k, word) in words.split(' ').enumerate() {
        if k > 0 && column + 1 + word.len() > 80 {
            lines += "\n";
            lines += &" ".repeat(first.len());
            column = first.len();
        } else if k > 0 {
            lines += " ";
            column += 1;
        }
        lines += word;
        column += word.len();
    }
    lines + "\n"
}

/// The text about a command, or about all for none.
pub fn text(command: Option<&str>) -> Option<String> {
    let text = match command {
        None => ALL,
        Some("list") => LIST,
        Some("info") => INFO,
        Some("tiles") => TILES,
        Some("judge") => JUDGE,
        Some("count") => COUNT,
        Some("compose") => COMPOSE,
        Some("quote") => QUOTE,
        Some("repack") => REPACK,
        Some("extract") => EXTRACT,
        Some("sample") => SAMPLE,
        Some("refusals") => return Some(refusals()),
        Some(_) => return None,
    };
    let parts = [
        ("@\n", QUESTION),
        ("%\n", MASKS),
        ("&\n", LAYERS),
        ("~\n", RELEASE),
    ];
    let whole = parts.iter().fold(text.to_string(), |text, (mark, part)| {
        text.replace(mark, part)
    });
    Some(whole)
}

/// The text for the words behind `help`.
pub fn asked_for(words: &[OsString]) -> Result<String, Failure> {
    let unknown = |word: &OsString| Failure::Usage(format!("there is no command {word:?}"));
    match words {
        [] => Ok(text(None).unwrap_or_default()),
        [word] => match word.to_str() {
            Some("--help" | "-h") => Ok(text(None).unwrap_or_default()),
            name => text(name)
                .filter(|_| name.is_some())
                .ok_or_else(|| unknown(word)),
        },
        [_, more, ..] => Err(Failure::Usage(format!("{more:?} is one argument too many"))),
    }
}
