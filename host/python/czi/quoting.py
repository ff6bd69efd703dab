"""Quote sheets: the covered count of a window, and the area that it comes to by the pitch of the settings."""

from ctypes import byref, c_uint64
from dataclasses import dataclass, field

from ._lending import apart, fitting, lent
from ._library import SHEET_MIN, library
from .plane import Asked, starts_of, window_numbers
from .reader import ask
from .refusal import Refused

_COMMA = 34
_SETTINGS = 35
# What the lack of the line masks= means.
_MASKS = {"1": "off", "2": "on"}


@dataclass(frozen=True)
class Quote:
    """A quote: the sheet and its two numbers, the plane that was composed for it, and what was selected and read."""

    covered: int        # how many pixels a tile gave: the map's ones
    area_nm2: int       # covered times both pitches: square nanometres, of which a square millimetre has 10**12
    sheet: str          # the two lines that say both, as the library wrote them
    window: tuple       # left, top, width, height
    pixel_type: int
    target: object = field(repr=False)  # width * height pixels row by row, unpadded
    map: object = field(repr=False)     # one bit a pixel in the same order, high bit first: 1 where a tile gave the pixel
    release: str        # by which the file was judged: "1.2" or "1.02"
    tiles: int          # how many the file has, pyramid tiles among them
    selected: int       # how many were selected: fewer than there are where a scene or a channel was forgotten; a forgotten
                        # layer does not show where layers begin at 0: the first is taken then
    meeting: int        # how many of these meet the window
    edition: int        # the settings as they were read: 1 or 2
    pitch_x_nm: int     # the pitches in nanometres
    pitch_y_nm: int
    masks: bool         # by the line masks=, or by the edition where it lacks


def quote(file, settings, window=None, pixel_type=None, *, starts=None, scene=0, background=None, target=None, map=None,
          release="1.2"):
    """Composes a window as the settings say, and writes its quote sheet.

    settings     the lines edition= (1 or 2), pitch_x=, pitch_y= (micrometres, 0.001 to 65.535) and masks= (on or off), in this
                 order and each ended by a newline; without the last, masks are off in edition 1 and on in 2. Bytes, or text,
                 which is encoded as UTF-8. Read a settings file as bytes: in text mode Python hides carriage returns, and what
                 is quoted by is no longer what stands in the file.

    All else is as for compose, and so is what it selects unless told otherwise: scene 0, starts of 0. For an area ask with
    scene="any". There is no masks here: the settings say it.

    Raises Refused: 34 for a comma in the settings, whose offset in them in bytes is the place, and 35 for any other fault of
    theirs, both before the file is judged; then what compose raises. What is wrong with settings that are 35 the command says,
    with line and column: czi quote FILE --settings quote.txt.
    """
    settings = settings.encode() if isinstance(settings, str) else settings
    _refuse_settings(settings, release)
    asked = Asked(file, window, pixel_type, starts, scene, background, release)
    target, map = asked.buffers(target, map)
    corner, sides = window_numbers(asked.window)
    covered, written, sheet = c_uint64(), c_uint64(), bytearray(SHEET_MIN)
    with lent(file) as bytes_, lent(asked.background) as pixel, lent(settings) as said, lent(target, True) as plane, \
            lent(map, True) as bits, lent(sheet, True) as text:
        lent_to = {"target": plane, "map": bits}
        apart(lent_to, {**lent_to, "file": bytes_, "background": pixel, "settings": said})
        numbers = (int(scene == "any"), fitting(asked.pixel_type, 32, "pixel_type"))
        question = (*starts_of(starts, scene), *numbers, *pixel, *corner, *sides, *said, *plane, *bits, *text)
        ask(library.czi_quote, file, release, question, (byref(covered), byref(written)))
    sheet = sheet[:written.value].decode("ascii")
    area = dict(line.split("=") for line in sheet.splitlines())["area_nm2"]
    chosen = asked.chosen
    return Quote(covered.value, int(area), sheet, asked.window, asked.pixel_type, target, map, release,
                 len(chosen.marks), chosen.selected, chosen.meeting, *_read(settings))


def _read(settings):
    """Edition, both pitches in nanometres, and masks of settings that the library takes."""
    said = dict(line.split("=") for line in _bytes(settings).decode("ascii").splitlines())
    pitches = (said[name].partition(".") for name in ("pitch_x", "pitch_y"))
    nanometres = [int(whole + decimals.ljust(3, "0")) for whole, _, decimals in pitches]
    return int(said["edition"]), *nanometres, said.get("masks", _MASKS[said["edition"]]) == "on"


def _bytes(settings):
    return bytes(memoryview(settings).cast("B"))


def _refuse_settings(settings, release):
    """Raises what is refused of the settings, whatever the file is: these go first, so the library is asked with no file."""
    with lent(settings) as said, lent(b"") as none:
        question = (*starts_of(None, 0), 0, 0, *none, 0, 0, 1, 1, *said, *none, *none, *none)
        try:
            ask(library.czi_quote, b"", release, question, (byref(c_uint64()), byref(c_uint64())))
        except Refused as refused:
            if refused.number == _COMMA:
                raise Refused(_COMMA, refused.place, _where(settings, refused.place) + _no_path(settings)) from None
            if refused.number == _SETTINGS:
                more = "czi quote FILE --settings quote.txt names line and column" + _no_path(settings)
                raise Refused(_SETTINGS, refused.place, more) from None


def _where(settings, place):
    """The line of the settings at that offset, and the byte of the line, both counted from 1."""
    lines = _bytes(settings)[:place].split(b"\n")
    return f"line {len(lines)} of the settings, byte {len(lines[-1]) + 1}"


def _no_path(settings):
    """What to say of settings without a newline, which may be a file's name."""
    text = _bytes(settings)
    wanted = "; there is no newline in them: the settings themselves are wanted, their bytes or text, and not a file's name"
    return wanted if text and b"\n" not in text else ""
