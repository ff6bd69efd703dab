"""Files written anew without their dead segments."""

from ctypes import byref, c_uint64

from ._lending import apart, lent
from ._library import library
from .reader import ask


def repack_size(file, *, release="1.2"):
    """How many bytes the repacked file has: the least length of a buffer for repack. They may be more than the file has, by what
    is listed twice, and where the file segment had under 512 bytes.

    Raises Refused: the file's own refusals, then 36 where it would have more than 8,192 segments or 2^40 bytes.
    """
    size = c_uint64()
    ask(library.czi_repack_size, file, release, answers=[byref(size)])
    return size.value


def repack(file, *, release="1.2", out=None):
    """The file written anew without its dead segments: those that are neither the file segment nor named by it, nor by an entry
    of a directory that it names. It is accepted under the same release; its records, parts and planes are those of the file, and only places differ.
    Repacked again it gives the same bytes. A segment that is listed twice is written twice.

    out          a writable buffer of any type, at least repack_size long; a bytearray unless given. It must not overlap file: that
                 is refused where it is seen, but two maps of one file are two buffers to Python, so do not lend both

    Returns the new file: the bytearray, or a memoryview of the first bytes of out, which hold it; what of out is past them stays.

    Raises Refused: what repack_size raises, then 25 where out is shorter than the new file; then no byte of out was changed.
    """
    given = out
    if given is None:
        out = bytearray(repack_size(file, release=release))
    written = c_uint64()
    with lent(file) as bytes_, lent(out, True) as buffer:
        apart({"out": buffer}, {"file": bytes_})
        ask(library.czi_repack, file, release, buffer, [byref(written)])
    return out if given is None else memoryview(given).cast("B")[:written.value]
