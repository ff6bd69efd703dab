"""The reader: verdict, parts, records, listing. All raise Refused where the file is refused, but listing.

release is that of the format by which the file is judged, "1.2" or "1.02", and nothing else is taken.
"""

import ctypes
from ctypes import byref, c_int32, c_uint64

from ._lending import fitting, lent
from ._library import (ATTACHMENT_FILE_TYPE, ATTACHMENT_GUID, ATTACHMENT_NAME, DIMENSION_NUMBERS, MOST_DIMENSIONS,
                       MOST_TILES, TEXT, TILE_NUMBERS, TILE_STARTS, library)
from .records import Attachment, Box, Record, Summary, dimension_of, tile_of
from .refusal import Refused
from .release import release_number


def ask(call, file, release, asked=(), answers=()):
    """Calls with the file, the release, what is asked of it, the place and the answers; raises the refusal."""
    judged_by, place = release_number(release), c_uint64()
    with lent(file) as bytes_:
        number = call(*bytes_, judged_by, *asked, byref(place), *answers)
    if number != 0:
        raise Refused(number, place.value)


def judge(file, *, release="1.2"):
    """Judges a file; raises Refused 1 to 18, and under release "1.02" neither 17 nor 18."""
    ask(library.czi_judge, file, release)


def _part(call, file, release, *entry):
    """A part as a read-only memoryview of the very bytes of the file."""
    start, length = c_uint64(), c_uint64()
    ask(call, file, release, entry, (byref(start), byref(length)))
    return memoryview(file).cast("B")[start.value:start.value + length.value].toreadonly()


def tile_pixels(file, entry, *, release="1.2"):
    """The pixels of a tile, of all of its layers, the very bytes of the file; 24 where there is no such entry."""
    return _part(library.czi_tile_pixels, file, release, fitting(entry, 64, "entry"))


def tile_metadata(file, entry, *, release="1.2"):
    """The metadata of a tile's sub-block, the very bytes of the file; 24 where there is no such entry."""
    return _part(library.czi_tile_metadata, file, release, fitting(entry, 64, "entry"))


def tile_attachment(file, entry, *, release="1.2"):
    """The attachment of a tile's sub-block, the very bytes of the file; 24 where there is no such entry."""
    return _part(library.czi_tile_attachment, file, release, fitting(entry, 64, "entry"))


def attachment_data(file, entry, *, release="1.2"):
    """The data of an attachment, the very bytes of the file; 24 where the attachment directory has no such entry."""
    return _part(library.czi_attachment_data, file, release, fitting(entry, 64, "entry"))


def attachment(file, entry, *, release="1.2"):
    """The record of an attachment; 24 where the attachment directory has no such entry."""
    entry = fitting(entry, 64, "entry")
    fields = [ctypes.create_string_buffer(size) for size in (ATTACHMENT_GUID, ATTACHMENT_FILE_TYPE, ATTACHMENT_NAME)]
    start, length = c_uint64(), c_uint64()
    ask(library.czi_attachment, file, release, [entry], (*fields, byref(start), byref(length)))
    return Attachment(entry, *(field.raw for field in fields), slice(start.value, start.value + length.value))


def attachments(file, *, release="1.2"):
    """The records of all attachments, in the order of their directory; the file is judged for each."""
    return [attachment(file, entry, release=release) for entry in range(summary(file, release=release).attachments)]


def common_xml(file, *, release="1.2"):
    """The common XML, the very bytes of the file; empty without a metadata segment."""
    return _part(library.czi_common_xml, file, release)


def common_attachment(file, *, release="1.2"):
    """The attachment of the common XML, the very bytes of the file; empty without a metadata segment."""
    return _part(library.czi_common_attachment, file, release)


def tile(file, entry, *, release="1.2"):
    """The record of a tile; 24 where there is no such entry."""
    numbers, starts = (c_uint64 * TILE_NUMBERS)(), (c_int32 * TILE_STARTS)()
    ask(library.czi_tile, file, release, [fitting(entry, 64, "entry")], (numbers, starts))
    return tile_of(numbers[:], starts[:])


def tiles(file, *, release="1.2"):
    """The records of all tiles, in the order of the directory. The file is judged once."""
    rows = _rows(library.czi_tiles, file, release, MOST_TILES, TILE_NUMBERS, TILE_STARTS)
    return [tile_of(numbers, starts) for numbers, starts in rows]


def all_records(file, *, release="1.2"):
    """The records of all tiles with all of their dimensions, in the order of the directory. The file is judged twice."""
    found = tiles(file, release=release)
    rows = iter(_dimensions(file, release, sum(one.dimensions for one in found)))
    return [Record(one, [next(rows)[1] for _ in range(one.dimensions)]) for one in found]


def dimensions(file, entry, *, release="1.2"):
    """The records of all dimensions of a tile, as its entry has them; 24 where there is no such entry."""
    tile(file, entry, release=release)
    rows = _dimensions(file, release, MOST_TILES * MOST_DIMENSIONS)
    return [dimension for number, dimension in rows if number == entry]


def _dimensions(file, release, most):
    """Every dimension record with the number of its entry; there are at most so many."""
    rows = _rows(library.czi_dimensions, file, release, most, DIMENSION_NUMBERS, 1)
    return [(numbers[0], dimension_of(numbers[1:], start)) for numbers, [start] in rows]


def _rows(call, file, release, most, width, signed):
    """Every record that a call gives, as its numbers and its signed ones, so many of each; there are at most so many."""
    numbers, starts, count = (c_uint64 * (most * width))(), (c_int32 * (most * signed))(), c_uint64()
    ask(call, file, release, (numbers, len(numbers), starts, len(starts)), [byref(count)])
    return [(numbers[k * width:(k + 1) * width], starts[k * signed:(k + 1) * signed]) for k in range(count.value)]


def summary(file, *, release="1.2"):
    """The figures of a file of any size."""
    figures, corners = [c_uint64() for _ in range(5)], [c_int32() for _ in range(4)]
    ask(library.czi_summary, file, release, answers=map(byref, figures + corners))
    *counts, has_box = (figure.value for figure in figures)
    return Summary(*counts, Box(*(corner.value for corner in corners)) if has_box else None)


def listing(file, *, release="1.2"):
    """The listing's text. Refuses nothing: a refusal is in the text, 30 for a file of over 65,536 bytes too."""
    text, judged_by = ctypes.create_string_buffer(TEXT), release_number(release)
    with lent(file) as bytes_:
        length = library.czi_list(*bytes_, judged_by, text)
    return text.raw[:length].decode("ascii")
