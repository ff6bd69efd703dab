"""Pixel types."""

from enum import IntEnum

from ._lending import fitting
from ._library import library


class PixelType(IntEnum):
    """The pixel types that are listed."""

    Gray8 = 0
    Gray16 = 1
    GrayFloat = 2
    Bgr24 = 3
    Bgr48 = 4
    BgrFloat = 8
    Bgra32 = 9
    GrayComplex = 10
    BgrComplex = 11

    @property
    def bytes(self):
        """The bytes of a pixel."""
        return pixel_bytes(self)


def pixel_bytes(pixel_type):
    """The bytes of a pixel of that type; 0 for one that is not listed."""
    return library.czi_pixel_bytes(fitting(pixel_type, 32, "pixel_type"))
