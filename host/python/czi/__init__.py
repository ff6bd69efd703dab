"""The proved CZI library for Python 3: judges a file, hands out its parts and records, composes planes of it, writes quote
sheets, and repacks it without its dead segments.

A file is lent as its bytes: bytes, a bytearray, a memoryview, an mmap or a numpy array. It is not copied, and no call
changes a byte of it. Any bytes and any number get an answer: what is refused raises Refused, with the number, the place and
the words of the rule. Each call judges the whole file first; tiles and all_records ask for all of them at once.

A file is judged by release "1.2" of the format, or by "1.02" where release says so: then no tile has a mask, and 17 and 18 are
never raised. "1.02" is for a file that was archived under it and no other, whose masks would be forgotten.

A tile may have layers, such as the focal planes of a stack: starts={"Z": 6} takes the one that starts there.

    import czi, mmap
    with open("scan.czi", "rb") as scan:
        file = mmap.mmap(scan.fileno(), 0, access=mmap.ACCESS_READ)
    print(czi.summary(file).box)
    print(czi.count(file, masks=True).covered)
    print(czi.count(file, masks=True, release="1.02").covered)
    print(czi.quote(file, "edition=2\\npitch_x=0.325\\npitch_y=0.325\\n", scene="any").area_nm2)
    print(len(file), len(czi.repack(file)))

While a call runs nobody may change what it was lent, another thread or program neither: a mapped file that is cut meanwhile
ends the program by SIGBUS.
"""

from ._library import VERSION
from .counting import Count, count
from .pixel import PixelType, pixel_bytes
from .plane import Plane, chosen, compose
from .quoting import Quote, quote
from .reader import (all_records, attachment, attachment_data, attachments, common_attachment, common_xml, dimensions, judge,
                     listing, summary, tile, tile_attachment, tile_metadata, tile_pixels, tiles)
from .records import Attachment, Box, Chosen, Dimension, Extent, Layers, Mark, Mask, Record, Summary, Tile
from .refusal import Refused
from .repacking import repack, repack_size

__all__ = [
    "Attachment", "Box", "Chosen", "Count", "Dimension", "Extent", "Layers", "Mark", "Mask", "PixelType", "Plane", "Quote",
    "Record", "Refused", "Summary", "Tile", "VERSION", "all_records", "attachment", "attachment_data", "attachments", "chosen",
    "common_attachment", "common_xml", "compose", "count", "dimensions", "judge", "listing", "pixel_bytes",
    "quote", "repack", "repack_size", "summary", "tile", "tile_attachment", "tile_metadata", "tile_pixels", "tiles",
]
