"""The shared library: where it is, and what its functions take. host/tests/interface holds this against include/czi.h."""

import ctypes
import os
from ctypes import POINTER, c_int32, c_size_t, c_uint32, c_uint64, c_void_p
from pathlib import Path

# CZI_VERSION of the header that this was written for; the soname has it too.
VERSION = 3

# The numbers of the releases.
RELEASE_1_2 = 0
RELEASE_1_02 = 1

# The lengths of the arrays that the library writes; the least one of a sheet.
TEXT = 192
SHEET_MIN = 49
TILE_NUMBERS = 24
TILE_STARTS = 4
DIMENSION_NUMBERS = 5
ATTACHMENT_GUID = 16
ATTACHMENT_FILE_TYPE = 8
ATTACHMENT_NAME = 80

# The most that an accepted file has: tiles, and dimensions of a tile.
MOST_TILES = 4096
MOST_DIMENSIONS = 16

_LENT = [c_void_p, c_size_t]
_FILE = [*_LENT, c_uint32]
_U64 = POINTER(c_uint64)
_I32 = POINTER(c_int32)
_PART = [_U64, _U64, _U64]
_TABLE = [*_FILE, _U64, c_size_t, _I32, c_size_t, _U64, _U64]
_COMPOSER = [
    *_FILE, *_LENT, c_uint32, c_uint32, *_LENT, c_int32, c_int32, c_uint32, c_uint32, c_uint32, *_LENT, *_LENT, *_PART]
_QUOTE = [
    *_FILE, *_LENT, c_uint32, c_uint32, *_LENT, c_int32, c_int32, c_uint32, c_uint32, *4 * _LENT, *_PART]

# What each function returns and takes.
SIGNATURES = {
    "czi_version": (c_uint32, []),
    "czi_pixel_bytes": (c_uint32, [c_uint32]),
    "czi_judge": (c_uint32, [*_FILE, _U64]),
    "czi_tile_pixels": (c_uint32, [*_FILE, c_uint64, *_PART]),
    "czi_tile_metadata": (c_uint32, [*_FILE, c_uint64, *_PART]),
    "czi_tile_attachment": (c_uint32, [*_FILE, c_uint64, *_PART]),
    "czi_attachment_data": (c_uint32, [*_FILE, c_uint64, *_PART]),
    "czi_attachment": (c_uint32, [*_FILE, c_uint64, _U64, c_void_p, c_void_p, c_void_p, _U64, _U64]),
    "czi_common_xml": (c_uint32, [*_FILE, *_PART]),
    "czi_common_attachment": (c_uint32, [*_FILE, *_PART]),
    "czi_tile": (c_uint32, [*_FILE, c_uint64, _U64, _U64, _I32]),
    "czi_tiles": (c_uint32, _TABLE),
    "czi_dimension": (c_uint32, [*_FILE, c_uint64, c_uint64, _U64, _U64, _I32, _U64, POINTER(c_uint32), _U64]),
    "czi_dimensions": (c_uint32, _TABLE),
    "czi_summary": (c_uint32, [*_FILE, *6 * [_U64], *4 * [_I32]]),
    "czi_list": (c_uint64, [*_FILE, c_void_p]),
    "czi_compose_plain": (c_uint32, _COMPOSER),
    "czi_compose_quick": (c_uint32, _COMPOSER),
    "czi_quote": (c_uint32, _QUOTE),
    "czi_repack_size": (c_uint32, [*_FILE, _U64, _U64]),
    "czi_repack": (c_uint32, [*_FILE, *_LENT, _U64, _U64]),
    "czi_chosen": (c_uint32, [*_FILE, *_LENT, c_uint32, c_int32, c_int32, c_uint32, c_uint32, *_LENT, *_PART]),
}


def _path():
    """Where the library is: as CZI_LIBRARY says, else where ./install or host/shared put it, else as the loader finds it."""
    if said := os.environ.get("CZI_LIBRARY"):
        return said
    name = f"libczi.so.{VERSION}"
    above = Path(__file__).resolve().parents[3]
    for folder in (above, above / "target" / "shared"):
        if (folder / name).is_file():
            return str(folder / name)
    return name


def _load():
    path = _path()
    library = ctypes.CDLL(path)
    version = library.czi_version() if hasattr(library, "czi_version") else "without a number"
    if version != VERSION:
        raise ImportError(f"{path} has interface {version}, and this package is for {VERSION}")
    for name, (answer, taken) in SIGNATURES.items():
        function = getattr(library, name)
        function.restype, function.argtypes = answer, taken
    return library


library = _load()
