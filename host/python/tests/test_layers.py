"""Tiles with layers, several planes in one sub-block: the stored stack, by each start."""

import unittest
from types import MappingProxyType

import czi
from stored import sample
from test_samples import refusal_of

SETTINGS = "edition={}\npitch_x=1.25\npitch_y=2\n"
# By start along Z: which tiles are selected, and the covered count with masks off and on. Tile 3 is a pyramid tile.
BY_START = {
    -2**31: ([], (0, 0)), 0: ([], (0, 0)), 4: ([], (0, 0)), 5: ([0], (96, 96)), 6: ([0, 1, 2], (204, 188)),
    7: ([0, 1], (180, 164)), 8: ([1], (96, 80)), 9: ([], (0, 0)), 2**31 - 1: ([], (0, 0))}


def plane_of(file, selected, start):
    """The plane of the stack's box by its records alone. Tile 2 has no M: it lies below the others."""
    plane = bytearray(b"\xFF" * (22 * 12))
    tiles = czi.tiles(file)
    for tile in (tiles[entry] for entry in (2, 0, 1) if entry in selected):
        for k, pixel in enumerate(file[tile.layer_pixels(start) or tile.pixels]):
            row, column = divmod(k, tile.x.size)
            plane[(tile.y.start + row) * 22 + tile.x.start + column] = pixel
    return plane


class Layers(unittest.TestCase):
    def test_records_have_their_layers(self):
        file = sample("stack")
        for release in ("1.2", "1.02"):
            tiles = czi.tiles(file, release=release)
            self.assertEqual([tile.layers for tile in tiles], [("Z", 5, 3), ("Z", 6, 3), None, ("Z", 5, 3)])
            self.assertEqual([tile.is_pyramid_tile for tile in tiles], [False, False, False, True])
            self.assertEqual([czi.tile(file, entry, release=release) for entry in range(4)], tiles)
        self.assertEqual(tiles[1].layers.last, 8)
        for name in ("mosaic", "free", "pyramids"):
            self.assertEqual({tile.layers for tile in czi.tiles(sample(name))}, {None})

    def test_a_view_has_all_layers(self):
        file = sample("stack")
        for tile, length in zip(czi.tiles(file), (3 * 96, 3 * 96, 24, 3 * 72), strict=True):
            pixels = czi.tile_pixels(file, tile.entry)
            self.assertEqual(len(pixels), length)
            self.assertIs(pixels.obj, file)
            if tile.layers is None:
                self.assertIsNone(tile.layer_pixels(6))
                continue
            first, last = tile.layers.start, tile.layers.last
            self.assertEqual(b"".join(file[tile.layer_pixels(start)] for start in range(first, last + 1)), bytes(pixels))
            self.assertIsNone(tile.layer_pixels(first - 1))
            self.assertIsNone(tile.layer_pixels(last + 1))

    def test_what_is_no_start(self):
        file = sample("stack")
        for tile in czi.tiles(file):
            for wrong in (5.5, 6.0, "6", None, True):
                with self.assertRaisesRegex(TypeError, "^start is .*, and has to be a whole number$"):
                    tile.layer_pixels(wrong)
            self.assertIsNone(tile.layer_pixels(2**31))

        def quote(file, **how):
            return czi.quote(file, SETTINGS.format("1"), **how)

        for call in (czi.compose, czi.count, czi.chosen, quote):
            for wrong in (True, False, 5.5, "6", None):
                with self.assertRaisesRegex(TypeError, "^the start of Z is .*, and has to be a whole number$"):
                    call(file, starts={"Z": wrong})
            for wrong in ([0, 6], [("Z", 6)], (), "Z=6", 6, False):
                with self.assertRaisesRegex(TypeError, "^starts is .*, and has to be a dict of starts by letter, such as "):
                    call(file, starts=wrong)
            call(file, starts={})
            call(file, starts=MappingProxyType({"Z": 6}))

    def test_a_start_selects_the_tiles_that_have_that_layer(self):
        file = sample("stack")
        for start, (selected, _) in BY_START.items():
            found = czi.chosen(file, starts={"Z": start})
            self.assertEqual([entry for entry, mark in enumerate(found.marks) if mark == czi.Mark.Meets], selected, start)
            self.assertEqual((found.selected, found.meeting), (len(selected), len(selected)), start)
        self.assertEqual(czi.chosen(file, starts={"Z": 6, "C": 1}).selected, 0)
        self.assertEqual(czi.chosen(file, scene="any").selected, 0)

    def test_a_plane_has_the_pixels_of_the_layer_that_is_asked_for(self):
        file = sample("stack")
        for start, (selected, covered) in BY_START.items():
            wanted = plane_of(file, selected, start)
            for composer in ("plain", "quick"):
                plane = czi.compose(file, starts={"Z": start}, background=b"\xFF", composer=composer)
                self.assertEqual((plane.target, plane.covered), (wanted, covered[0]), start)
                older = czi.compose(file, starts={"Z": start}, background=b"\xFF", masks=True, composer=composer, release="1.02")
                self.assertEqual((older.target, older.map), (plane.target, plane.map), start)
            for masks, ones in zip((False, True), covered):
                # Whole, and in windows of a row each.
                for memory in (512 << 20, 0):
                    count = czi.count(file, starts={"Z": start}, masks=masks, memory=memory)
                    self.assertEqual((count.covered, count.selected), (ones, len(selected)), start)

    def test_a_layer_is_quoted(self):
        file = sample("stack")
        for start, (selected, covered) in BY_START.items():
            for edition, ones in zip("12", covered):
                quote = czi.quote(file, SETTINGS.format(edition), starts={"Z": start})
                self.assertEqual((quote.covered, quote.area_nm2), (ones, ones * 1250 * 2000), start)
                self.assertEqual((quote.tiles, quote.selected), (4, len(selected)), start)

    def test_a_repacked_stack_has_the_same_layers(self):
        file = sample("stack")
        clean = czi.repack(file)
        for old, new in zip(czi.tiles(file), czi.tiles(clean), strict=True):
            self.assertEqual((new.layers, clean[new.pixels]), (old.layers, file[old.pixels]))

    def test_a_second_letter_with_layers_or_one_before_y_is_11(self):
        tiles = czi.tiles(sample("stack"))
        for name, entry in (("stack_of_two", 0), ("stack_before_y", 1)):
            self.assertEqual(refusal_of(czi.judge, sample(name)), (11, tiles[entry].place))


if __name__ == "__main__":
    unittest.main()
