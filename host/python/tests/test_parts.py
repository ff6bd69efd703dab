"""Parts and records, and that they are of the very bytes that were lent."""

import math
import mmap
import string
import struct
import tracemalloc
import unittest
from array import array

import czi
from stored import SAMPLES, sample


def mapped(name):
    with open(SAMPLES / f"{name}.czi", "rb") as file:
        return mmap.mmap(file.fileno(), 0, access=mmap.ACCESS_READ)


def largest():
    """The mosaic with another directory, in which its first tile stands 4,096 times with 16 dimensions: the most of both."""
    file = bytearray(sample("mosaic"))
    tile = czi.tile(file, 0)
    letters = "".join(d.letter for d in czi.dimensions(file, 0))
    more = [struct.pack("<4siifi", letter.encode(), 0, 1, 0, 0) for letter in string.ascii_uppercase if letter not in letters]
    entry = file[tile.place:tile.place + 32 + 20 * len(letters)] + b"".join(more[:16 - len(letters)])
    entry[28:32] = struct.pack("<i", 16)
    # A sub-block of its own, since its copy of the entry has to be the same.
    entry[6:14] = struct.pack("<q", len(file))
    pixels = file[tile.pixels]
    segment(file, b"ZISRAWSUBBLOCK", struct.pack("<iiq", 0, 0, len(pixels)) + entry + pixels)
    file[84:92] = struct.pack("<q", len(file))
    segment(file, b"ZISRAWDIRECTORY", struct.pack("<i124x", 4096) + entry * 4096)
    return file


def segment(file, name, room):
    """Puts a segment behind the file."""
    allocated = -(-len(room) // 32) * 32
    file += struct.pack("<16sqq", name, allocated, len(room)) + bytes(room).ljust(allocated, b"\0")


def parts(file):
    """All parts of the mosaic."""
    yield czi.common_xml(file)
    yield czi.common_attachment(file)
    yield czi.attachment_data(file, 0)
    for entry in range(4):
        yield czi.tile_pixels(file, entry)
        yield czi.tile_metadata(file, entry)
        yield czi.tile_attachment(file, entry)


class Parts(unittest.TestCase):
    def test_parts_are_of_the_very_file(self):
        for file in (sample("mosaic"), bytearray(sample("mosaic")), mapped("mosaic"), array("B", sample("mosaic"))):
            for part in parts(file):
                self.assertIs(part.obj, file)
                self.assertTrue(part.readonly)

    def test_a_view_of_a_file_is_not_copied_either(self):
        file = sample("mosaic")
        shaped = memoryview(file).cast("B", (32, len(file) // 32))
        for part in parts(shaped):
            self.assertIs(part.obj, file)
        words = memoryview(file).cast("H")
        self.assertEqual([bytes(part) for part in parts(words)], [bytes(part) for part in parts(file)])

    def test_a_change_of_the_file_is_seen_in_its_part(self):
        file = bytearray(sample("mosaic"))
        tile, pixels = czi.tile(file, 2), czi.tile_pixels(file, 2)
        file[tile.pixels.start] ^= 0xFF
        self.assertEqual(pixels[0], file[tile.pixels.start])

    def test_no_call_copies_the_file(self):
        file = bytes(16 << 20)
        tracemalloc.start()
        for call in (czi.judge, czi.summary, czi.common_xml, czi.compose, czi.count):
            with self.assertRaises(czi.Refused):
                call(file)
        peak = tracemalloc.get_traced_memory()[1]
        tracemalloc.stop()
        self.assertLess(peak, 1 << 20)

    def test_what_is_no_buffer_is_not_lent(self):
        with self.assertRaises(TypeError):
            czi.judge("mosaic.czi")
        with self.assertRaises(BufferError):
            czi.judge(memoryview(sample("mosaic"))[::2])

    def test_the_parts_of_the_mosaic(self):
        file = sample("mosaic")
        self.assertTrue(bytes(czi.common_xml(file)).startswith(b"<ImageDocument>"))
        self.assertEqual(len(czi.common_attachment(file)), 0)
        self.assertEqual(len(czi.attachment_data(file, 0)), 40)
        self.assertEqual(bytes(czi.tile_attachment(file, 2)), b"plain bytes")
        self.assertIn(b"CHUNKCONTAINER", bytes(czi.tile_metadata(file, 1)))
        self.assertEqual(len(czi.common_xml(sample("smallest"))), 0)


class Records(unittest.TestCase):
    def test_a_tile_is_where_its_parts_are(self):
        file = sample("mosaic")
        tiles = czi.tiles(file)
        self.assertEqual([(t.entry, t.x, t.y, t.m) for t in tiles], [
            (0, (100, 24, 24), (60, 16, 16), 0), (1, (118, 24, 24), (60, 16, 16), 1),
            (2, (100, 24, 24), (72, 16, 16), 2), (3, (119, 24, 24), (71, 16, 16), 3)])
        for tile in tiles:
            self.assertEqual(tile, czi.tile(file, tile.entry))
            self.assertEqual(file[tile.pixels], czi.tile_pixels(file, tile.entry))
            self.assertEqual(file[tile.metadata], czi.tile_metadata(file, tile.entry))
            self.assertEqual(file[tile.attachment], czi.tile_attachment(file, tile.entry))
            self.assertEqual(file[tile.place:tile.place + 2], b"DV")
            self.assertFalse(tile.is_pyramid_tile)
        self.assertEqual([t.mask is not None for t in tiles], [False, True, False, False])
        self.assertEqual(tiles[1].mask[1:], (24, 16, 3))
        self.assertEqual(file[tiles[1].mask.place:][:4].hex(), "67eae3cb")

    def test_pyramid_tiles_and_no_m(self):
        tiles = czi.tiles(sample("pyramids"))
        self.assertEqual([(t.is_pyramid_tile, t.pyramid, t.m) for t in tiles], [(True, 2, None), (True, 2, None)])
        self.assertEqual(tiles[1].x, (64, 16, 16))

    def test_every_pixel_type(self):
        tiles = czi.tiles(sample("free"))
        self.assertEqual({t.pixel_type for t in tiles}, set(czi.PixelType))
        for tile in tiles:
            area = tile.x.stored * tile.y.stored
            self.assertEqual(tile.pixels.stop - tile.pixels.start, area * tile.pixel_type.bytes)
        self.assertEqual([czi.pixel_bytes(n) for n in range(14)], [1, 2, 4, 3, 6, 0, 0, 0, 12, 4, 8, 24, 0, 0])

    def test_records_are_tiles_with_their_dimensions(self):
        for name in ("mosaic", "free", "pyramids", "smallest"):
            file = sample(name)
            found = czi.all_records(file)
            self.assertEqual([record.tile for record in found], czi.tiles(file))
            for tile, dimensions in found:
                self.assertEqual(tile, czi.tile(file, tile.entry))
                self.assertEqual(dimensions, czi.dimensions(file, tile.entry))
                self.assertEqual(len(dimensions), tile.dimensions)
                starts = {d.letter: (d.start, d.size, d.stored) for d in dimensions}
                self.assertEqual((starts["X"], starts["Y"]), (tile.x, tile.y))
        self.assertEqual("".join(d.letter for d in czi.all_records(sample("mosaic"))[3].dimensions), "XYCSM")

    def test_every_record_of_the_largest_file(self):
        file = largest()
        found = czi.all_records(file)
        self.assertEqual([tile.entry for tile, _ in found], list(range(4096)))
        letters = {"".join(d.letter for d in dimensions) for _, dimensions in found}
        self.assertEqual(letters, {"XYCSMABDEFGHIJKL"})
        self.assertEqual(czi.dimensions(file, 4095), found[0].dimensions)
        self.assertEqual(czi.tile(file, 4095), found[4095].tile)
        self.assertEqual(czi.chosen(file), (4096, 4096, [czi.Mark.Meets] * 4096))

    def test_attachments_are_named(self):
        file = sample("mosaic")
        attachment, = czi.attachments(file)
        self.assertEqual(attachment, czi.attachment(file, 0))
        self.assertEqual((attachment.name_text, attachment.file_type_text), ("TimeStamps", "CZTIMS"))
        self.assertEqual((attachment.name, attachment.file_type), (b"TimeStamps".ljust(80, b"\0"), b"CZTIMS\0\0"))
        self.assertEqual(attachment.guid, bytes(range(16, 32)))
        self.assertEqual(attachment.guid_text, "{13121110-1514-1716-1819-1A1B1C1D1E1F}")
        self.assertEqual(file[attachment.data], czi.attachment_data(file, 0))
        self.assertEqual(czi.attachments(sample("smallest")), [])

    def test_a_name_of_any_bytes(self):
        file = bytearray(sample("mosaic"))
        first = file.index(b"A1")
        for place in (first, file.index(b"A1", first + 1)):
            file[place + 40:place + 48] = b"ABCDEFGH"
            file[place + 48:place + 58] = b"x\xFF\xC3\xA9\0more\xFF"
        attachment = czi.attachment(file, 0)
        self.assertEqual((attachment.file_type_text, attachment.name_text), ("ABCDEFGH", "x\uFFFD\u00E9"))
        self.assertEqual(attachment.name[:10], b"x\xFF\xC3\xA9\0more\xFF")

    def test_dimensions_keep_their_bits(self):
        dimensions = czi.dimensions(sample("free"), 9)
        self.assertEqual("".join(d.letter for d in dimensions), "ABCDMXTYZSR")
        self.assertEqual(dimensions[0][1:], (-1, 1, 0x7FA00001, 1))
        self.assertTrue(math.isnan(dimensions[0].coordinate))
        self.assertEqual(dimensions[6].start, 2**31 - 2)


if __name__ == "__main__":
    unittest.main()
