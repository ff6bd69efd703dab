"""Reads files with OpenSlide: runs where libopenslide is installed, needs nothing else.

    python3 read.py FOLDER      for each FOLDER/NAME.czi, writes FOLDER/NAME.argb and prints
                                NAME WIDTH HEIGHT, or NAME: and OpenSlide's error or the signal that ended it
    python3 read.py --windows FILE
                                prints WIDTH HEIGHT, or refused: and OpenSlide's error; then, for each line
                                LEFT TOP WIDTH HEIGHT of standard input, writes that window's pixels
    python3 read.py --version

The .argb file has OpenSlide's answer as it gave it: level 0 entire, 32 bits a pixel. Windows are of level 0 too.
"""
import ctypes
import os
import signal
import sys
from pathlib import Path

library = ctypes.CDLL("libopenslide.so.1")
for name in ["openslide_get_version", "openslide_get_error", "openslide_detect_vendor"]:
    getattr(library, name).restype = ctypes.c_char_p
library.openslide_open.restype = ctypes.c_void_p
library.openslide_get_error.argtypes = [ctypes.c_void_p]
library.openslide_get_level0_dimensions.argtypes = [ctypes.c_void_p] + 2 * [ctypes.POINTER(ctypes.c_int64)]
library.openslide_read_region.argtypes = [ctypes.c_void_p, ctypes.c_void_p] + [
    ctypes.c_int64, ctypes.c_int64, ctypes.c_int32, ctypes.c_int64, ctypes.c_int64]


class Failed(Exception):
    pass


class Slide:
    """An open file, with level 0's width and height."""

    def __init__(self, path):
        self.handle = library.openslide_open(os.fsencode(path))
        if not self.handle:
            raise Failed("no format is recognised")
        self.check()
        width, height = ctypes.c_int64(), ctypes.c_int64()
        library.openslide_get_level0_dimensions(self.handle, ctypes.byref(width), ctypes.byref(height))
        self.check()
        self.width, self.height = width.value, height.value

    def check(self):
        error = library.openslide_get_error(self.handle)
        if error is not None:
            raise Failed(error.decode())

    def window(self, left, top, width, height):
        """The window's pixels, from level 0's corner."""
        pixels = ctypes.create_string_buffer(width * height * 4)
        library.openslide_read_region(self.handle, pixels, left, top, 0, width, height)
        self.check()
        return pixels.raw


def read(path):
    """Width, height and pixels."""
    slide = Slide(path)
    return slide.width, slide.height, slide.window(0, 0, slide.width, slide.height)


def windows(path):
    try:
        slide = Slide(path)
        sys.stdout.buffer.write(b"%d %d\n" % (slide.width, slide.height))
        sys.stdout.buffer.flush()
        for line in sys.stdin:
            sys.stdout.buffer.write(slide.window(*map(int, line.split())))
            sys.stdout.buffer.flush()
    except Failed as error:
        print("refused: %s" % error)


def answer(path):
    try:
        width, height, pixels = read(path)
    except Failed as error:
        print("%s: %s" % (path.stem, error))
        return
    path.with_suffix(".argb").write_bytes(pixels)
    print(path.stem, width, height)


def main():
    if sys.argv[1] == "--version":
        print(library.openslide_get_version().decode())
        return
    if sys.argv[1] == "--windows":
        windows(sys.argv[2])
        return
    for path in sorted(Path(sys.argv[1]).glob("*.czi")):
        # In a process of its own: some files end it.
        sys.stdout.flush()
        child = os.fork()
        if child == 0:
            answer(path)
            sys.stdout.flush()
            os._exit(0)
        status = os.waitpid(child, 0)[1]
        if os.WIFSIGNALED(status):
            print("%s: ended by %s" % (path.stem, signal.Signals(os.WTERMSIG(status)).name))
        elif status != 0:
            sys.exit("%s: could not be tried" % path.stem)


main()
