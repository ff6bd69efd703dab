"""Composing a plane, and which tiles a question selects for it."""

from collections.abc import Mapping
from ctypes import byref, c_int32, c_uint64
from dataclasses import dataclass, field

from ._lending import apart, fitting, lent, whole
from ._library import MOST_TILES, library
from .pixel import PixelType, pixel_bytes
from .reader import ask, summary, tiles
from .records import Box, Chosen, Mark
from .refusal import Refused

_COMPOSERS = {"plain": library.czi_compose_plain, "quick": library.czi_compose_quick}
_TOO_SHORT = 22
_ANOTHER_TYPE = 23
# The letters whose start is asked for by starts.
_SELECTING = set("ABCDEFGHIJKLNOPQRTUVWZ")
# A byte that is no mark.
_UNMARKED = 0xFF


@dataclass(frozen=True)
class Plane:
    """A composed plane: what was lent, or taken, for it, and what was counted."""

    window: tuple       # left, top, width, height
    pixel_type: int
    target: object = field(repr=False)  # width * height pixels row by row, unpadded
    map: object = field(repr=False)     # one bit a pixel in the same order, high bit first: 1 where a tile gave the pixel
    covered: int        # how many pixels a tile gave: the map's ones
    stored: int         # how many pixels the composer stored
    release: str        # by which the file was judged: "1.2" or "1.02"


def compose(file, window=None, pixel_type=None, *, starts=None, scene=0, masks=False, background=None, target=None,
            map=None, composer="quick", release="1.2"):
    """Composes a window of the plane: each pixel from the topmost selected tile that gives it, else the background.

    window       left, top, width, height; the sides are 1 to 65,536. The summary's box unless given. A Box itself, which has
                 right and bottom, is not taken: its property window is.
    pixel_type   the target's; unless given that of the selected tiles that meet the window, where they have one, or of the
                 first tile where none does
    starts       where the tiles to select start, by letter: {"C": 1}. 0 for the letters that are not given. A tile with layers
                 is selected by the start of any of them, and gives the pixels of that one: {"Z": 6}.
    scene        where they start along S, or "any"
    masks        True: a tile gives only its valid pixels. False unless given; nothing else is taken.
    background   one pixel; zeros unless given
    target, map  writable buffers, of any type and at least long enough; bytearrays unless given
    composer     "quick" stores each pixel once, "plain" all that the tiles give; both leave the same
    release      by which the file is judged: "1.2", or "1.02", under which no tile has a mask, so that masks makes no difference.
                 "1.02" is for a file that was archived under it and no other, whose masks would be forgotten.

    Raises Refused, 20 to 23 beside those of the file; then no byte of target and map was changed. Two types among the tiles
    in the window are 23 too where pixel_type is not given.
    """
    masks_number(masks)
    if composer not in _COMPOSERS:
        raise ValueError(f"composer is {composer!r}, which is neither 'plain' nor 'quick'")
    asked = Asked(file, window, pixel_type, starts, scene, background, release)
    target, map = asked.buffers(target, map)
    question = _question(asked.window, asked.pixel_type, starts, scene, masks)
    covered, stored = _compose(_COMPOSERS[composer], file, release, question, asked.background, target, map)
    return Plane(asked.window, asked.pixel_type, target, map, covered, stored, release)


def chosen(file, window=None, *, starts=None, scene=0, release="1.2"):
    """Which tiles a question selects, and which of them share a pixel with its window, as the composers have it.

    All is as for compose, but that any window may be asked about, with sides of over 65,536 too; one with a side of 0
    shares a pixel with no tile. Masks do not enter.
    """
    corner, sides = window_numbers(window_of(file, release) if window is None else window)
    marks = bytearray([_UNMARKED]) * MOST_TILES
    selected, meeting = c_uint64(), c_uint64()
    with lent(marks, True) as bytes_:
        asked = (*starts_of(starts, scene), int(scene == "any"), *corner, *sides, *bytes_)
        ask(library.czi_chosen, file, release, asked, (byref(selected), byref(meeting)))
    # Those past the tiles stay as they were.
    return Chosen(selected.value, meeting.value, [Mark(mark) for mark in marks if mark != _UNMARKED])


def window_of(file, release):
    """The summary's box as a window."""
    box = summary(file, release=release).box
    if box is None:
        raise ValueError("no tile of the file has a place in a plane: a window has to be given")
    return box.window


class Met:
    """What a question selects of a file, and the tiles that meet its window, of any sides, in the order of the directory."""

    def __init__(self, file, window, starts, scene, release):
        self.chosen = chosen(file, window, starts=starts, scene=scene, release=release)
        every = tiles(file, release=release)
        self.tiles = [tile for tile, mark in zip(every, self.chosen.marks) if mark == Mark.Meets]
        self._first = (self.tiles or every)[:1]

    @property
    def pixel_type(self):
        """That of the first tile that meets the window, or of the first tile; None where the file has no tiles."""
        return self._first[0].pixel_type if self._first else None

    def refuse_another(self, pixel_type, given):
        """Raises 23 at the first tile of another type, as the library does of a window that it composes. The type is a listed
        one, given or that of the first of them."""
        for tile in self.tiles:
            if tile.pixel_type != pixel_type:
                named = PixelType(pixel_type).name
                has = f"tile {tile.entry} has {tile.pixel_type.name}"
                raise Refused(_ANOTHER_TYPE, tile.place,
                              f"{has}, asked for is {named}" if given else f"tile {self.tiles[0].entry} has {named}, {has}")


class Asked:
    """What is asked of a window: what is not given is the file's. And the buffers for it."""

    def __init__(self, file, window, pixel_type, starts, scene, background, release):
        self.window = tuple(window_of(file, release) if window is None else no_box(window))
        self._met = Met(file, self.window, starts, scene, release)
        self.chosen = self._met.chosen
        self._given = pixel_type is not None
        self.pixel_type = pixel_type if self._given else self._met.pixel_type
        if self.pixel_type is None:
            raise ValueError("the file has no tiles, and so no pixel type: pixel_type has to be given")
        self.background = bytes(pixel_bytes(self.pixel_type)) if background is None else background
        self._early = file, release, _question(self.window, self.pixel_type, starts, scene, False), self.background

    def buffers(self, target, map):
        """Those that are given, or bytearrays; what is refused whatever is lent is refused before memory is taken."""
        if target is None or map is None:
            _refuse_early(_COMPOSERS["quick"], *self._early)
            if target is None and map is None:
                # Nothing is lent that could be too short, which would be said before.
                self._met.refuse_another(self.pixel_type, self._given)
            pixels = self.window[2] * self.window[3]
            target = bytearray(pixels * len(memoryview(self.background).cast("B"))) if target is None else target
            map = bytearray((pixels + 7) // 8) if map is None else map
        return target, map


def masks_number(masks):
    """Masks as the library takes them. What is true in some other way could be meant either way: 'off', 2."""
    if not isinstance(masks, bool):
        raise TypeError(f"masks is {masks!r}, and has to be True or False")
    return 1 if masks else 2


def _question(window, pixel_type, starts, scene, masks):
    """The starts, and the numbers behind them up to the background and from there on, as the library takes them."""
    corner, sides = window_numbers(window)
    before = (int(scene == "any"), fitting(pixel_type, 32, "pixel_type"))
    return starts_of(starts, scene), before, (*corner, *sides, masks_number(masks))


def no_box(window):
    """The window, if it is no box, whose last two numbers are edges and not sides."""
    if isinstance(window, Box):
        raise TypeError("window is a Box, which has left, top, right and bottom; its property window has left, top, width and "
                        "height")
    return window


def window_numbers(window):
    """The corner and the sides, as the library takes them."""
    left, top, width, height = no_box(window)
    return ((fitting(left, 32, "left", signed=True), fitting(top, 32, "top", signed=True)),
            (fitting(width, 32, "width"), fitting(height, 32, "height")))


def starts_of(starts, scene):
    """The starts of A to Z, and how many they are."""
    letters = (c_int32 * 26)()
    if not isinstance(starts, (Mapping, type(None))):
        raise TypeError(f"starts is {starts!r}, and has to be a dict of starts by letter, such as {{'C': 1}}")
    for letter, start in (starts or {}).items():
        if letter not in _SELECTING:
            raise ValueError(f"{letter!r} has no start to ask for: A to Z have, but X, Y, M, and S, which is scene")
        name = f"the start of {letter}"
        letters[ord(letter) - ord("A")] = fitting(whole(start, name), 32, name, signed=True)
    if isinstance(scene, bool):
        raise TypeError(f"scene is {scene!r}, and has to be a number or 'any'")
    if isinstance(scene, str) and scene != "any":
        raise ValueError(f"scene is {scene!r}, which is neither a number nor 'any'")
    if scene != "any":
        letters[ord("S") - ord("A")] = fitting(scene, 32, "scene", signed=True)
    return letters, len(letters)


def refuse_early(file, window, pixel_type, starts, scene, release):
    """Raises what is refused of that window whatever is lent."""
    question = _question(window, pixel_type, starts, scene, False)
    _refuse_early(_COMPOSERS["quick"], file, release, question, bytes(pixel_bytes(pixel_type)))


def _refuse_early(call, file, release, question, background):
    """With nothing lent: what else is refused is refused before memory is taken."""
    try:
        _compose(call, file, release, question, background, bytearray(), bytearray())
    except Refused as refused:
        if refused.number != _TOO_SHORT:
            raise


def _compose(call, file, release, question, background, target, map):
    starts, before, behind = question
    covered, stored = c_uint64(), c_uint64()
    with lent(file) as bytes_, lent(background) as pixel, lent(target, True) as plane, lent(map, True) as bits:
        written = {"target": plane, "map": bits}
        apart(written, {**written, "file": bytes_, "background": pixel})
        asked = (*starts, *before, *pixel, *behind, *plane, *bits)
        ask(call, file, release, asked, (byref(covered), byref(stored)))
    return covered.value, stored.value
