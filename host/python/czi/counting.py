"""Covered pixels of a window of any size."""

from typing import NamedTuple

from .pixel import PixelType, pixel_bytes
from .plane import Met, chosen, compose, masks_number, refuse_early
from .reader import summary
from .refusal import Refused

# The greatest side of a window that the library composes, and the last column and row.
_SIDE = 65536
_LAST = 2**31 - 1
_WINDOW = 20


class Count(NamedTuple):
    """What was counted, and into how many windows it was cut: their counts add up, which is proved. And how many tiles were
    selected, and how many of these meet the window. Fewer are selected than the file has where a scene or a channel was
    forgotten, and where there are pyramid tiles, which never are. A forgotten layer does not show where layers begin at 0:
    the first is taken then. And by which release the file was judged, "1.2" or "1.02"."""

    covered: int
    pixels: int
    windows: int
    selected: int
    meeting: int
    release: str


def count(file, window=None, pixel_type=None, *, starts=None, scene=0, masks=False, memory=512 << 20, release="1.2"):
    """Counts the covered pixels of a window, which may have sides of over 65,536: it is cut, and the counts are added.
    Windows that no selected tile meets have none, which is proved, and are not composed.

    All is as for compose, and so is what it selects unless told otherwise: scene 0, starts of 0, masks off. For an area ask
    with scene="any" and masks=True. window is the summary's box unless given; a file without a box, or without tiles, has no
    covered pixel. The windows take at most so many bytes of memory, but at least a row's.

    Raises Refused: 20 and 21 first; then 23 where two types are among the tiles in the window, or one that was not asked for.
    The place is that of the first such tile in the directory, however the window is cut.
    """
    masks_number(masks)
    if window is None:
        box = summary(file, release=release).box
        if box is None:
            found = chosen(file, (0, 0, 0, 0), starts=starts, scene=scene, release=release)
            if pixel_type is not None:
                # Of a type that is not listed 21 is said here too.
                refuse_early(file, (0, 0, 1, 1), pixel_type, starts, scene, release)
            return Count(0, 0, 0, found.selected, found.meeting, release)
        window = box.window
    met = Met(file, window, starts, scene, release)
    given = pixel_type is not None
    if not given:
        pixel_type = PixelType.Gray8 if met.pixel_type is None else met.pixel_type
    for end in ends(*window):
        try:
            refuse_early(file, end, pixel_type, starts, scene, release)
        except Refused as refused:
            if refused.number != _WINDOW:
                raise
            more = "count takes any window but one with a side of 0 or an edge past 2147483647"
            raise Refused(_WINDOW, refused.place, more) from None
    met.refuse_another(pixel_type, given)
    cut = Cut(*window, pixel_bytes(pixel_type), memory)
    pixels, covered = cut.wide * cut.high, 0
    target = map_ = None
    for part in cut.met(lambda block: chosen(file, block, starts=starts, scene=scene, release=release).meeting != 0):
        if target is None:
            # For the largest part: the others take that memory again.
            target, map_ = bytearray(pixels * pixel_bytes(pixel_type)), bytearray((pixels + 7) // 8)
        plane = compose(file, part, pixel_type, starts=starts, scene=scene, masks=masks, target=target, map=map_,
                        release=release)
        covered += plane.covered
    return Count(covered, cut.width * cut.height, cut.columns * cut.rows, met.chosen.selected, met.chosen.meeting, release)


def ends(left, top, width, height):
    """The first and the last part of at most 65,536 a side: the library takes the whole window in parts where it takes these
    two. One that starts past the last column or row is put there, where no part fits."""
    wide, high = min(width, _SIDE), min(height, _SIDE)
    yield left, top, wide, high
    yield min(left + width - wide, _LAST), min(top + height - high, _LAST), wide, high


class Cut:
    """A window with pixels, cut into parts of one size, smaller ones at the right and bottom: none has a side of over 65,536
    or, if it has two rows, takes more than that memory."""

    def __init__(self, left, top, width, height, pixel, memory):
        self.left, self.top, self.width, self.height = left, top, width, height
        self.wide = min(width, _SIDE)
        bits_a_row = self.wide * (8 * pixel + 1)
        self.high = max(1, min(_SIDE, height, 8 * memory // bits_a_row))
        self.columns, self.rows = -(-width // self.wide), -(-height // self.high)

    def met(self, is_met):
        """The parts that are met, row by row. A block of parts of which none is met is not met itself and is left out
        whole, so that a window that is empty for the most part takes few questions."""
        blocks = [(range(self.columns), range(self.rows))]
        while blocks:
            columns, rows = blocks.pop()
            window = self._window(columns, rows)
            if not is_met(window):
                continue
            if len(rows) > 1:
                half = len(rows) // 2
                blocks += (columns, rows[half:]), (columns, rows[:half])
            elif len(columns) > 1:
                half = len(columns) // 2
                blocks += (columns[half:], rows), (columns[:half], rows)
            else:
                yield window

    def _window(self, columns, rows):
        """The window that a block of parts makes up."""
        across, down = columns.start * self.wide, rows.start * self.high
        return (self.left + across, self.top + down,
                min(columns.stop * self.wide, self.width) - across, min(rows.stop * self.high, self.height) - down)
