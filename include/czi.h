/* Reads CZI microscope files (ZISRAW): judges one, hands out its parts and records, lists it, composes its planes, writes
 * a quote sheet of one, and repacks the file without what is dead in it.
 *
 * A file is lent as its bytes, a pointer and a length. Any bytes and any number get an answer: nothing has to be
 * checked before a call, and no call changes a byte of the file. Lent to be written are a target, a map, a sheet, marks,
 * the arrays of records and the buffer of a repack: a refused call changes none of them.
 *
 * release is that of the format by which the file is judged: CZI_RELEASE_1_2, or CZI_RELEASE_1_02, which has no chunk
 * containers. Use the names CZI_RELEASE_1_2 and CZI_RELEASE_1_02: any other number is 1.2, 102 too. The caller says it,
 * and no byte of the file does. Under 1.02 the attachment of every tile is plain bytes, whatever its metadata say: 17 and
 * 18 are never given, no tile has a mask, and masks on is the same as masks off. So only a file that was archived under
 * 1.02 is judged by it: the masks of any other would be forgotten. Unless 1.2 gives 17 or 18, both releases give any
 * bytes the same number and place. Where it does, 1.02 goes on: it accepts the file, or gives what comes later in the
 * order below.
 *
 * Every function with a file but czi_list returns the number of the refusal, 0 where there is none. A single number
 * behind an out-pointer is part of the answer: it is written always, and is 0 where there is nothing to say.
 *   place   where the refusal is, as a byte offset in the file, of 34 in the settings; 0 where there is none.
 * Each question judges the whole file first: a file that czi_judge refuses is refused so by all of them under the same
 * release (but that czi_list looks at the length before, and czi_quote at its settings).
 *
 * What a caller owes, which nothing here tests:
 *   - No pointer is NULL, not even that of a file of length 0: CZI_NONE is a pointer for what has no length.
 *   - file has file_len bytes, and so for all that is lent: a length counts objects of the pointer's type. An out-pointer
 *     is to as many objects of its type as named.
 *   - What is written, what is lent to be and what stands behind an out-pointer, is apart from all else that is given.
 *   - What is lent stays still: while a call runs nobody else writes to the file's bytes or to anything that the call
 *     is given. So a mapped file must not be changed, and not be cut either: a read past its end is a SIGBUS.
 *
 * Platform and cost: x86-64 and Linux, nothing but memcpy, memmove and memset of libc. No memory is allocated. A call
 * takes some 80 KiB of stack, one that composes some 150. It judges the file each time: that reads the headers of its
 * segments, its entries and what belongs to its tiles but the pixels, so it grows with the number of tiles and the
 * length of their metadata. czi_tiles and czi_dimensions give all records of a file for one judgement each, and a tile
 * record says where the tile's parts lie; whoever asks one by one pays a judgement for each answer. No function keeps a
 * pointer, and there is no state: calls may run side by side.
 *
 * When each refusal is given. A file is segments one behind the other: a header of 32 bytes (a name of 16,
 * AllocatedSize, UsedSize) and AllocatedSize bytes, of which the first UsedSize are in use (0 means all): its room. The
 * place is that of the segment, entry or chunk that is named; 0 where none is.
 *    1 length           The file has no bytes, a length that is no multiple of 32, or more than 2^40 bytes.
 *    2 segment name     A segment has none of the format's seven names.
 *    3 segment sizes    A segment's AllocatedSize is negative or no multiple of 32, its UsedSize negative or larger, or
 *                       it ends past the file: so does the last one of a file that was cut.
 *    4 segment count    There are more than 8,192 segments; the place is that of the first too many.
 *    5 first segment    The first segment is not the file segment, a later one is, or its room is under 80 bytes.
 *    6 Major            The format's major version is not 1.
 *    7 FilePart         The file is in several parts: FilePart of the file segment (place 0) or of an entry is not 0.
 *    8 UpdatePending    The writer was not done: UpdatePending is not 0.
 *    9 positions        Where the file segment says that the sub-block directory, the metadata or the attachment
 *                       directory is, no segment of that kind begins; 0 is none of the last two. The place is the
 *                       field's: 84, 92, 104.
 *   10 directory        A directory's fixed part (128 bytes, 256 for attachments) or its entries do not fit its room,
 *                       or it has a negative number of entries or more than 4,096. Or the sizes of the metadata segment
 *                       are negative, or 256 and both do not fit its room. The place is the segment's.
 *   11 entry            A tile's entry lacks its mark DV, has not 1 to 16 dimensions, a letter that is not A to Z or is
 *                       there twice, no X or no Y, or Y before X, X or Y of a size below 1, another letter whose size
 *                       or stored size is not 1, a start and size that add up to over 2,147,483,647, or a negative
 *                       stored size. But one letter behind Y that is neither M nor S may have a size of 2 to 1,024, and
 *                       a stored size of 0 or of that: its starts are the tile's layers. A second such letter is 11, and
 *                       one before Y. An attachment's entry lacks its mark A1, or a zero byte in its name.
 *   12 pixel type       An entry has a type that czi_pixel_bytes does not know.
 *   13 compression      An entry says that its pixels are compressed.
 *   14 named segment    Where an entry says that its sub-block, or its attachment, is, none begins.
 *   15 copy             A sub-block or an attachment has no room for its fixed part, or its copy of the entry differs.
 *   16 sizes            A sub-block's or an attachment's sizes are negative or do not fit its room, or a tile's pixels
 *                       are not stored width * stored height * bytes a pixel, and that for each layer, where it has any.
 *   17 chunk            Under 1.2 alone. In an attachment of a tile whose metadata declare that it holds chunks
 *                       (docs/RULES.md, 5), a chunk's header is cut, its size is negative, or it ends past the
 *                       attachment. Of 17 and 18 the place is the chunk's header.
 *   18 mask             Under 1.2 alone. A tile's mask is under 16 bytes, has a negative width, height or stride, a
 *                       representation that is not 0, lines shorter than its width or more of them than its chunk
 *                       holds; or it is the tile's second.
 *   20 window           Of a composer: a side is not 1 to 65,536, or the right or bottom edge is above 2,147,483,647.
 *   21 asked pixel      Of a composer: there is no such pixel type, or the background is not one pixel long.
 *   22 lent too short   Of a composer: the target or the map is too short. Of czi_quote: that, or the sheet has under 49
 *                       bytes. Of czi_tiles, czi_dimensions and czi_chosen: an array is too short for all tiles, or for
 *                       all of their dimensions.
 *   23 a tile's type    Of a composer: a selected tile that meets the window has another pixel type than was asked for;
 *                       the place is the first such entry's.
 *   24 no such number   There is no tile, dimension or attachment of the number asked for; they are counted from 0.
 *   25 repack's buffer  Of czi_repack: the buffer is shorter than the new file.
 *   30 too long to list Of czi_list: the file has over 65,536 bytes.
 *   34 comma            Of czi_quote: there is a comma in the settings, wherever it stands. The place is the first
 *                       one's offset in the settings, not in the file.
 *   35 settings         Of czi_quote: the settings are not the lines that they have to be, or a pitch does not come to
 *                       1 to 65,535 nanometres.
 *   36 repack too large Of czi_repack and czi_repack_size: the new file would have more than 8,192 segments or 2^40
 *                       bytes.
 * Of czi_quote 20, 21 and 23 are as of a composer. The first that applies is given, in this order: 30; 34; 35; 1; for
 * each segment 4, 2, 3, 5; 6; 7; 8; 9; the sub-block directory entry by entry, each with its sub-block and its chunks;
 * the metadata segment; the attachment directory entry by entry; then 20 to 24; 36; 25. czi_refusal_words has a line for
 * each.
 *
 * Each function is proved to give exactly what its contract says (crates/czi/src; what the contracts cite is
 * in crates/czi/specs). host/tests/interface holds the declarations here against those there; what the words here say
 * of an answer is tested, not proved.
 *
 * C99 or later, or C++. Linked, where ./install has put it into PREFIX, as
 *   cc yours.c $(pkg-config --cflags --libs czi) -Wl,-rpath,PREFIX/lib
 * or without -rpath where the loader finds libczi.so.3 (LD_LIBRARY_PATH, ldconfig); or, beside the sources, built by
 * `host/library` and linked as  cc -Iinclude yours.c target/staticlib/libczi.a
 */
#ifndef CZI_H
#define CZI_H

#include <stddef.h>
#include <stdint.h>

/* The number of this interface, which is that of the shared library's soname too. It rises when a declaration that was
 * here changes, an array's length too; not when one is added. A program may compare it with what czi_version gives. */
#define CZI_VERSION 3

#ifdef __cplusplus
extern "C" {
#endif

/* ---- Without a file. */

/* The number of the interface that the library was built with. */
uint32_t czi_version(void);

/* The bytes of a pixel of that type; 0 for one that is not listed.
 *   0 Gray8: 1        2 GrayFloat: 4    4 Bgr48: 6         9 Bgra32: 4          11 BgrComplex: 24
 *   1 Gray16: 2       3 Bgr24: 3        8 BgrFloat: 12     10 GrayComplex: 8 */
uint32_t czi_pixel_bytes(uint32_t pixel_type);

/* ---- With a file, judged by a release. */

/* The releases. Use these names: any other number is 1.2, 102 too. */
enum { CZI_RELEASE_1_2 = 0, CZI_RELEASE_1_02 = 1 };

/* The verdict on a file. */
uint32_t czi_judge(const uint8_t *file, size_t file_len, uint32_t release, uint64_t *place);

/* ---- Parts of the file: the length bytes from start on, file + start in the lent file.
 *
 * Both are 0 where refused. A part that is there may be empty too. Every part lies in the file.
 * entry counts the entries of the sub-block directory from 0; 24 where there is no such entry. */

/* The pixels of a tile: of all of its layers, where it has any, one layer behind the other. */
uint32_t czi_tile_pixels(const uint8_t *file, size_t file_len, uint32_t release, uint64_t entry,
                         uint64_t *place, uint64_t *start, uint64_t *length);

/* The metadata of its sub-block. */
uint32_t czi_tile_metadata(const uint8_t *file, size_t file_len, uint32_t release, uint64_t entry,
                           uint64_t *place, uint64_t *start, uint64_t *length);

/* The attachment of its sub-block. */
uint32_t czi_tile_attachment(const uint8_t *file, size_t file_len, uint32_t release, uint64_t entry,
                             uint64_t *place, uint64_t *start, uint64_t *length);

/* The data of an attachment. entry counts the entries of the attachment directory. */
uint32_t czi_attachment_data(const uint8_t *file, size_t file_len, uint32_t release, uint64_t entry,
                             uint64_t *place, uint64_t *start, uint64_t *length);

/* The common XML and its attachment. Without a metadata segment they are empty and not refused. */
uint32_t czi_common_xml(const uint8_t *file, size_t file_len, uint32_t release,
                        uint64_t *place, uint64_t *start, uint64_t *length);
uint32_t czi_common_attachment(const uint8_t *file, size_t file_len, uint32_t release,
                               uint64_t *place, uint64_t *start, uint64_t *length);

/* The record of an attachment: what its entry says, and where its data lie. guid is to CZI_ATTACHMENT_GUID bytes,
 * file_type to CZI_ATTACHMENT_FILE_TYPE, name to CZI_ATTACHMENT_NAME; a refused call leaves the three as they were.
 *   guid        the content GUID, its bytes as they stand in the file: printed, its first three groups are little-endian
 *   file_type   any bytes; mostly letters, and zeros behind them
 *   name        one of its bytes is zero: the name ends there, and any bytes may follow
 * start and length are those of czi_attachment_data. */
enum { CZI_ATTACHMENT_GUID = 16, CZI_ATTACHMENT_FILE_TYPE = 8, CZI_ATTACHMENT_NAME = 80 };

uint32_t czi_attachment(const uint8_t *file, size_t file_len, uint32_t release, uint64_t entry,
                        uint64_t *place, uint8_t *guid, uint8_t *file_type, uint8_t *name,
                        uint64_t *start, uint64_t *length);

/* ---- The tile record, as 24 numbers and 4 signed ones, in two arrays that are lent. A refused call leaves both as they
 * were.
 *
 * A tile may have layers: several planes of its pixels in one sub-block, such as the focal planes of a stack. They lie along
 * one letter, which is none of X, Y, M and S: layer l, counted from 0, is the one that starts at CZI_TILE_LAYER_START + l.
 * All layers have as many bytes, CZI_TILE_PIXELS_LENGTH / CZI_TILE_LAYER_SIZE, and layer l has those from l times as many
 * on, counted from CZI_TILE_PIXELS_START. CZI_TILE_LAYER_SIZE is 0 where the tile has no layers: look before dividing by it.
 * The mask is that of each layer. A pyramid tile may have layers too. */

/* What stands where in numbers. Starts are offsets in the file. */
enum {
    CZI_TILE_ENTRY = 0,              /* the entry's number, from 0 */
    CZI_TILE_PLACE = 1,              /* where the entry stands */
    CZI_TILE_PIXEL_TYPE = 2,
    CZI_TILE_POSITION = 3,           /* where its sub-block stands */
    CZI_TILE_PYRAMID = 4,            /* the pyramid byte, not judged */
    CZI_TILE_DIMENSIONS = 5,         /* how many: 2 to 16 */
    CZI_TILE_X_SIZE = 6,
    CZI_TILE_X_STORED = 7,           /* the stored size: StoredSize, where 0 is read as Size */
    CZI_TILE_Y_SIZE = 8,
    CZI_TILE_Y_STORED = 9,
    CZI_TILE_HAS_M = 10,             /* 1 or 0 */
    CZI_TILE_METADATA_START = 11,
    CZI_TILE_METADATA_LENGTH = 12,
    CZI_TILE_PIXELS_START = 13,
    CZI_TILE_PIXELS_LENGTH = 14,
    CZI_TILE_ATTACHMENT_START = 15,
    CZI_TILE_ATTACHMENT_LENGTH = 16,
    CZI_TILE_HAS_MASK = 17,          /* 1 or 0, under 1.02 always 0; the four that follow are 0 where there is none */
    CZI_TILE_MASK_PLACE = 18,        /* where its chunk's header stands; the lines are from 36 bytes later on */
    CZI_TILE_MASK_WIDTH = 19,
    CZI_TILE_MASK_HEIGHT = 20,
    CZI_TILE_MASK_STRIDE = 21,       /* bytes a line */
    CZI_TILE_LAYER_LETTER = 22,      /* that of its layers, 65 to 90; 0 where it has none, as their size and start are */
    CZI_TILE_LAYER_SIZE = 23,        /* how many layers: 2 to 1,024; 0 where it has none */
    CZI_TILE_NUMBERS = 24            /* how many there are */
};

/* The most tiles that a file has which is not refused. */
enum { CZI_MOST_TILES = 4096 };

/* What stands where in starts. */
enum {
    CZI_TILE_X_START = 0,
    CZI_TILE_Y_START = 1,
    CZI_TILE_M_START = 2,            /* 0 where there is no M */
    CZI_TILE_LAYER_START = 3,        /* that of its first layer; 0 where it has none */
    CZI_TILE_STARTS = 4              /* how many there are */
};

/* numbers is to CZI_TILE_NUMBERS of them, starts to CZI_TILE_STARTS. */
uint32_t czi_tile(const uint8_t *file, size_t file_len, uint32_t release, uint64_t entry,
                  uint64_t *place, uint64_t *numbers, int32_t *starts);

/* The records of all tiles, in the order of the directory: what czi_tile gives for entry k stands in numbers from
 * CZI_TILE_NUMBERS * k on and in starts from CZI_TILE_STARTS * k on.
 *
 * 22 where an array is too short for that; longer ones are fine, and what is past the records stays. Arrays for
 * CZI_MOST_TILES tiles are long enough for any file; czi_summary says how many a file has.
 * tiles is how many records were written, 0 where refused. */
uint32_t czi_tiles(const uint8_t *file, size_t file_len, uint32_t release,
                   uint64_t *numbers, size_t numbers_len, int32_t *starts, size_t starts_len,
                   uint64_t *place, uint64_t *tiles);

/* ---- A dimension of a tile, counted from 0 as the entry has them; 24 where there is none of that number.
 *
 * letter is that of A to Z, as 65 to 90; coordinate_bits the 32 bits of StartCoordinate, a 32-bit float, unchanged,
 * which may be a not-a-number; stored the stored size: StoredSize, where 0 is read as Size. */
uint32_t czi_dimension(const uint8_t *file, size_t file_len, uint32_t release, uint64_t entry, uint64_t dimension,
                       uint64_t *place, uint64_t *letter, int32_t *start, uint64_t *size,
                       uint32_t *coordinate_bits, uint64_t *stored);

/* What stands where in the numbers of a dimension, where all are asked for. */
enum {
    CZI_DIMENSION_ENTRY = 0,         /* the number of the tile's entry */
    CZI_DIMENSION_LETTER = 1,
    CZI_DIMENSION_SIZE = 2,
    CZI_DIMENSION_COORDINATE_BITS = 3,
    CZI_DIMENSION_STORED = 4,
    CZI_DIMENSION_NUMBERS = 5        /* how many there are */
};

/* The records of all dimensions of all tiles: tile by tile in the order of the directory, and those of a tile as its
 * entry has them. The one of row r has its numbers from CZI_DIMENSION_NUMBERS * r on, and its start at starts[r]. The
 * rows of a tile begin behind those of the tiles before it; its record says how many it has (CZI_TILE_DIMENSIONS).
 *
 * 22 and arrays as for czi_tiles: there are as many rows as the sum of CZI_TILE_DIMENSIONS over all tiles, at most
 * 16 * CZI_MOST_TILES. dimensions is how many were written, 0 where refused. */
uint32_t czi_dimensions(const uint8_t *file, size_t file_len, uint32_t release,
                        uint64_t *numbers, size_t numbers_len, int32_t *starts, size_t starts_len,
                        uint64_t *place, uint64_t *dimensions);

/* ---- The summary of a file of any size.
 *
 * has_box is 1 where a tile is no pyramid tile, else 0 and so are the corners. The box is over those tiles,
 * right and bottom exclusive. */
uint32_t czi_summary(const uint8_t *file, size_t file_len, uint32_t release, uint64_t *place,
                     uint64_t *bytes, uint64_t *segments, uint64_t *tiles, uint64_t *attachments,
                     uint64_t *has_box, int32_t *left, int32_t *top, int32_t *right, int32_t *bottom);

/* ---- The listing: lines of plain ASCII text, each ended by a newline.
 *
 * text is to CZI_TEXT bytes, which are the answer, all of them written always: the text, whose length is returned, and
 * zeros behind it. No text fills the array, so a zero byte always follows: it is a string of C too. A refusal is in the
 * text, 30 for a file of over 65,536 bytes too. */
enum { CZI_TEXT = 192 };

uint64_t czi_list(const uint8_t *file, size_t file_len, uint32_t release, uint8_t *text);

/* ---- Composing: the pixels of a window of the plane, each from the topmost selected tile that gives it, else the
 * background.
 *
 * starts       where the tiles to select start, for the letters A to Z: what is missing is 0, what is past 26 is
 *              ignored, and so are X, Y and M. A letter that a tile lacks counts as 0. A tile with layers is selected by the
 *              start of any of them, and gives the pixels of that one. Pyramid tiles are not selected.
 * any_scene    0: S selects as the other letters do; else tiles of any S, and without S, are selected.
 * pixel_type   that of the target's pixels: every selected tile that meets the window has it, else 23. czi_pixel_bytes
 *              gives the bytes of a pixel.
 * background   one pixel.
 * left, top    the window's corner in the plane; width and height, 1 to 65,536.
 * masks        1 on: a tile gives only its valid pixels. 2 off. Any other number: not chosen, which is off. Under 1.02
 *              all of these mean the same, since no tile has a mask.
 * target       width * height pixels row by row, unpadded.
 * map          one bit a pixel in the same order, high bit first: 1 where a tile gave the pixel. The unused bits of its
 *              last byte are 0.
 *
 * What of target and map is past those stays. The refusals, after those of the file and in this order, at place 0 but
 * for the last:
 *   20 a side is not 1 to 65,536, or the right or bottom edge is above 2,147,483,647
 *   21 there is no such pixel type, or background is not one pixel long
 *   22 target or map is too short
 *   23 a selected tile that meets the window has another pixel type: the first in the directory, place is its entry
 * A refused call changes no byte of target and map.
 *
 * covered      how many pixels a tile gave: the map's ones. 0 where refused.
 * stored       how many pixels were stored from tiles. 0 where refused.
 *
 * Both give the same number, place and covered, and leave the same target and map. */

enum { CZI_MASKS_ON = 1, CZI_MASKS_OFF = 2 };

/* Bottom tile first: stored is the sum of what the selected tiles give in the window, hidden or not. */
uint32_t czi_compose_plain(const uint8_t *file, size_t file_len, uint32_t release,
                           const int32_t *starts, size_t starts_len, uint32_t any_scene,
                           uint32_t pixel_type, const uint8_t *background, size_t background_len,
                           int32_t left, int32_t top, uint32_t width, uint32_t height, uint32_t masks,
                           uint8_t *target, size_t target_len, uint8_t *map, size_t map_len,
                           uint64_t *place, uint64_t *covered, uint64_t *stored);

/* Top tile first, each pixel stored at most once: stored is covered. */
uint32_t czi_compose_quick(const uint8_t *file, size_t file_len, uint32_t release,
                           const int32_t *starts, size_t starts_len, uint32_t any_scene,
                           uint32_t pixel_type, const uint8_t *background, size_t background_len,
                           int32_t left, int32_t top, uint32_t width, uint32_t height, uint32_t masks,
                           uint8_t *target, size_t target_len, uint8_t *map, size_t map_len,
                           uint64_t *place, uint64_t *covered, uint64_t *stored);

/* ---- The quote sheet: a window is composed as settings say, and the sheet has the covered count and the area that it
 * comes to.
 *
 * starts, any_scene, pixel_type, background, left, top, width, height, target and map are those of a composer, and target
 * and map are left as either composer leaves them. The choice of masks is the settings'.
 *
 * settings     lines in this order, each ended by a newline, a byte of 10:
 *                edition=   1 or 2
 *                pitch_x=   how wide a pixel is, in micrometres: one to five digits, or these, a point, and one to three
 *                           digits more. Zeros in front are digits too. It comes to 1 to 65,535 nanometres.
 *                pitch_y=   how high it is, said in the same way
 *                masks=     on or off. This line alone may lack, which means off in edition 1 and on in edition 2.
 *              And nothing else: no blank, sign, exponent, unit, carriage return or empty line, nothing behind the last
 *              line. They are bytes with a length, and no zero byte ends them.
 * sheet        two such lines: covered= with the count, area_nm2= with the count times both pitches in nanometres, which
 *              is an area in square nanometres. Both are in plain decimal, without zeros in front, and below 2^64. The
 *              text has at most CZI_SHEET_MIN bytes; what of sheet is past it stays, and no zero byte is put behind it.
 *
 * The refusals, in this order:
 *   34 a comma anywhere in the settings, behind another fault too: place is the first one's offset in the settings
 *   35 any other fault of the settings, at place 0; empty ones are 35 too
 *   then those of the file, and 20, 21, 22 and 23 as of a composer; 22 also where sheet has under CZI_SHEET_MIN bytes,
 *   however short the text would be
 * A refused call changes no byte of target, map and sheet.
 *
 * covered      how many pixels a tile gave, as of a composer: the number in the sheet. 0 where refused.
 * written      how many bytes the sheet's text has. 0 where refused.
 *
 * The areas of two windows into which one is cut add up to that one's. What the pitch is, the settings alone say: the
 * file's own metadata are not asked. */

/* The least length of a sheet. */
enum { CZI_SHEET_MIN = 49 };

uint32_t czi_quote(const uint8_t *file, size_t file_len, uint32_t release,
                   const int32_t *starts, size_t starts_len, uint32_t any_scene,
                   uint32_t pixel_type, const uint8_t *background, size_t background_len,
                   int32_t left, int32_t top, uint32_t width, uint32_t height,
                   const uint8_t *settings, size_t settings_len,
                   uint8_t *target, size_t target_len, uint8_t *map, size_t map_len,
                   uint8_t *sheet, size_t sheet_len,
                   uint64_t *place, uint64_t *covered, uint64_t *written);

/* ---- Repacking: the same file written anew without its dead segments. Alive are the file segment, what it names (the
 * sub-block directory, the metadata segment, the attachment directory), and what the entries of these two directories name;
 * all other segments are dead, the DELETED ones among them.
 *
 * The new file has the file segment, the sub-block directory, the sub-block of each entry in the order of the directory,
 * the metadata segment, the attachment directory and the attachment of each of its entries, in this order, and nothing
 * else. A sub-block or an attachment that is listed twice is written twice. A metadata segment or an attachment directory
 * that the file has not is not added. UsedSize is the length of the content, AllocatedSize the smallest multiple of 32
 * that holds it; of the file segment both are 512. Positions are those in the new file. The format's version and the
 * file's GUIDs are kept. Bytes without a meaning are zero: 23 to 27 of a tile's entry and 2 to 11 of an attachment's, in
 * the copies too, what is left of a fixed part, and what pads a segment.
 *
 * So the new file is accepted under the same release, and has the same tiles, dimensions, masks, metadata and
 * attachments; a composer gives the same plane and counts of it, or refuses with the same number. Only places differ.
 * Repacked again it gives the same bytes.
 *
 * It may be longer than the old file: by what is listed twice, and where the old file segment had under 512 bytes. */

/* How long the new file is, which is the least length of a buffer for it. 36 at place 0 where it would have more than
 * 8,192 segments or 2^40 bytes. size is 0 where refused. */
uint32_t czi_repack_size(const uint8_t *file, size_t file_len, uint32_t release, uint64_t *place, uint64_t *size);

/* Writes the new file into a lent buffer. 36 as above, then 25 at place 0 where the buffer is shorter than the new file.
 * What of out is past the new file stays, and all of it where refused.
 * written is the length of the new file, 0 where refused. */
uint32_t czi_repack(const uint8_t *file, size_t file_len, uint32_t release, uint8_t *out, size_t out_len,
                    uint64_t *place, uint64_t *written);

/* ---- Which tiles a question selects, and which of them share a pixel with its window: by the same definitions as the
 * composers. Masks do not enter.
 *
 * starts, any_scene, left, top, width and height are those of a composer, but that any window may be asked about: 20 is
 * not given here, whatever the sides and edges. One with a side of 0 shares a pixel with no tile.
 *
 * marks        a mark for each tile, in the order of the directory. 22 where there are fewer marks than tiles; what is
 *              past the tiles stays, and a refused call leaves all of them as they were.
 * selected     how many tiles are selected: the marks that are not 0. 0 where refused.
 * meeting      how many of them share a pixel with the window: the marks that are 2. 0 where refused. Where it is 0, a
 *              composer would count 0 covered pixels in that window. */
enum {
    CZI_MARK_NOT_SELECTED = 0,
    CZI_MARK_SELECTED = 1,           /* and it shares no pixel with the window */
    CZI_MARK_MEETS = 2               /* selected, and it shares a pixel with the window */
};

uint32_t czi_chosen(const uint8_t *file, size_t file_len, uint32_t release,
                    const int32_t *starts, size_t starts_len, uint32_t any_scene,
                    int32_t left, int32_t top, uint32_t width, uint32_t height,
                    uint8_t *marks, size_t marks_len,
                    uint64_t *place, uint64_t *selected, uint64_t *meeting);

#ifdef __cplusplus
}
#endif

#include "czi_words.h"

#endif
