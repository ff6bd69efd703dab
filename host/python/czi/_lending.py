"""Lends buffers to the library without a copy, and numbers that fit."""

import ctypes
import operator
from contextlib import contextmanager
from ctypes import POINTER, c_char_p, c_int, c_ssize_t, c_void_p, py_object
from typing import NamedTuple


class _View(ctypes.Structure):
    """Py_buffer."""

    _fields_ = [
        ("buf", c_void_p), ("obj", c_void_p), ("len", c_ssize_t), ("itemsize", c_ssize_t), ("readonly", c_int),
        ("ndim", c_int), ("format", c_char_p), ("shape", c_void_p), ("strides", c_void_p), ("suboffsets", c_void_p),
        ("internal", c_void_p)]


_SIMPLE, _WRITABLE = 0, 1
_get = ctypes.pythonapi.PyObject_GetBuffer
_get.argtypes, _get.restype = [py_object, POINTER(_View), c_int], c_int
_release = ctypes.pythonapi.PyBuffer_Release
_release.argtypes, _release.restype = [POINTER(_View)], None

# What stands at the address of a buffer without bytes.
_NOTHING = ctypes.c_uint64()


class Lent(NamedTuple):
    """A buffer as the library takes it."""

    address: int
    length: int

    def meets(self, other):
        """Do the two share a byte?"""
        return self.address < other.address + other.length and other.address < self.address + self.length


@contextmanager
def lent(buffer, writable=False):
    """The bytes of a buffer, whose place is fixed meanwhile. TypeError and BufferError are those of Python."""
    view = _View()
    _get(buffer, ctypes.byref(view), _WRITABLE if writable else _SIMPLE)
    try:
        yield Lent(view.buf or ctypes.addressof(_NOTHING), view.len)
    finally:
        _release(ctypes.byref(view))


def apart(written, others):
    """Refuses to lend what is written where it shares a byte with another buffer: names and buffers."""
    for name, buffer in written.items():
        for other, its in others.items():
            if name != other and buffer.meets(its):
                raise ValueError(f"{name} and {other} share bytes")


def whole(value, name):
    """The whole number. A bool is none: what is true could be meant for something else."""
    if isinstance(value, bool) or not hasattr(value, "__index__"):
        raise TypeError(f"{name} is {value!r}, and has to be a whole number")
    return operator.index(value)


def fitting(value, bits, name, signed=False):
    """The number, if it has so many bits: the library would be asked about another one."""
    number = operator.index(value)
    low, high = (-(1 << bits - 1), 1 << bits - 1) if signed else (0, 1 << bits)
    if not low <= number < high:
        raise ValueError(f"{name} is {number}, which is no {'signed ' if signed else ''}number of {bits} bits")
    return number
