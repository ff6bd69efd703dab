"""Records: a tile, a dimension, an attachment, the figures of a file."""

import struct
import uuid
from dataclasses import dataclass
from enum import IntEnum
from typing import NamedTuple, Optional

from ._lending import whole
from .pixel import PixelType


class Extent(NamedTuple):
    """How a tile lies along X or Y; stored is StoredSize, where 0 is read as Size."""

    start: int
    size: int
    stored: int


class Layers(NamedTuple):
    """Several planes of a tile's pixels in one sub-block, such as the focal planes of a stack: the letter along which they lie,
    none of X, Y, M and S, the start of the first, and how many they are, 2 to 1,024. A question selects the tile by the start of
    any of them, and gets the pixels of that one."""

    letter: str
    start: int
    size: int

    @property
    def last(self):
        """The start of the last."""
        return self.start + self.size - 1


class Mask(NamedTuple):
    """A tile's mask, which is that of each of its layers: where its chunk's header stands (the lines are from 36 bytes later
    on), its sides, bytes a line."""

    place: int
    width: int
    height: int
    stride: int


@dataclass(frozen=True)
class Tile:
    """The record of a tile. Its parts are slices of the file."""

    entry: int                  # its number in the sub-block directory, from 0
    place: int                  # where the entry stands
    pixel_type: PixelType
    position: int               # where its sub-block stands
    pyramid: int                # the pyramid byte, not judged
    dimensions: int             # how many it has
    x: Extent
    y: Extent
    m: Optional[int]            # the start of M, if it has one
    layers: Optional[Layers]    # its layers, if it has any
    metadata: slice
    pixels: slice               # of all of its layers, one behind the other
    attachment: slice
    mask: Optional[Mask]

    @property
    def is_pyramid_tile(self):
        """Is it one, which no plane shows and no box counts?"""
        return self.x.size != self.x.stored or self.y.size != self.y.stored

    def layer_pixels(self, start):
        """The pixels of the layer that starts there, as a slice of the file; None where the tile has no such layer, or no
        layers."""
        start = whole(start, "start")
        if self.layers is None or not self.layers.start <= start <= self.layers.last:
            return None
        length = (self.pixels.stop - self.pixels.start) // self.layers.size
        first = self.pixels.start + (start - self.layers.start) * length
        return slice(first, first + length)


class Dimension(NamedTuple):
    """The record of a dimension. The bits of StartCoordinate are as the file has them, those of a not-a-number too."""

    letter: str
    start: int
    size: int
    coordinate_bits: int
    stored: int

    @property
    def coordinate(self):
        """StartCoordinate as a float."""
        return struct.unpack("<f", struct.pack("<I", self.coordinate_bits))[0]


class Record(NamedTuple):
    """A tile with its dimensions, as its entry has them."""

    tile: Tile
    dimensions: list


@dataclass(frozen=True)
class Attachment:
    """The record of an attachment. The bytes are as they stand in the file; data is a slice of it."""

    entry: int                  # its number in the attachment directory, from 0
    guid: bytes                 # the content GUID, 16 bytes
    file_type: bytes            # 8 bytes, any; mostly letters, and zeros behind them
    name: bytes                 # 80 bytes: the name ends at the first zero byte, and any may follow
    data: slice

    @property
    def guid_text(self):
        """The GUID as it is printed: the first three groups are numbers, whose low byte comes first in the file."""
        return f"{{{uuid.UUID(bytes_le=self.guid)}}}".upper()

    @property
    def file_type_text(self):
        """The file type up to its first zero byte, or all of it; what is no UTF-8 is replaced by U+FFFD."""
        return _text(self.file_type)

    @property
    def name_text(self):
        """The name up to its first zero byte; what is no UTF-8 is replaced by U+FFFD."""
        return _text(self.name)


def _text(field):
    return field.split(b"\0")[0].decode("utf-8", "replace")


class Mark(IntEnum):
    """What a question makes of a tile."""

    NotSelected = 0
    Selected = 1                # and it shares no pixel with the window
    Meets = 2                   # selected, and it shares a pixel with the window


class Chosen(NamedTuple):
    """What a question makes of the tiles of a file: how many it selects, how many of them share a pixel with its window,
    and the mark of each, in the order of the directory. Where none meets the window, no pixel of it is covered."""

    selected: int
    meeting: int
    marks: list


class Box(NamedTuple):
    """The box over all tiles that are no pyramid tiles; right and bottom exclusive."""

    left: int
    top: int
    right: int
    bottom: int

    @property
    def window(self):
        """The same as a window: left, top, width, height."""
        return self.left, self.top, self.right - self.left, self.bottom - self.top


class Summary(NamedTuple):
    """The figures of a file."""

    bytes: int
    segments: int
    tiles: int
    attachments: int
    box: Optional[Box]


def tile_of(numbers, starts):
    """A tile record of the library, with names. The order is that of include/czi.h."""
    def part(at):
        return slice(numbers[at], numbers[at] + numbers[at + 1])

    return Tile(
        entry=numbers[0], place=numbers[1], pixel_type=PixelType(numbers[2]), position=numbers[3], pyramid=numbers[4],
        dimensions=numbers[5],
        x=Extent(starts[0], numbers[6], numbers[7]),
        y=Extent(starts[1], numbers[8], numbers[9]),
        m=starts[2] if numbers[10] else None,
        layers=Layers(chr(numbers[22]), starts[3], numbers[23]) if numbers[22] else None,
        metadata=part(11), pixels=part(13), attachment=part(15),
        mask=Mask(*numbers[18:22]) if numbers[17] else None)


def dimension_of(numbers, start):
    """A dimension record of the library, with names. The order is that of include/czi.h, behind the entry's number."""
    letter, size, coordinate_bits, stored = numbers
    return Dimension(chr(letter), start, size, coordinate_bits, stored)
