"""Planes and counts."""

import unittest
from array import array

import czi
from czi.counting import Cut
from stored import OPENSLIDE, sample
from test_samples import refusal_of

BOX = (100, 60, 43, 28)


def openslide(name):
    """A stored mosaic, and the plane and the map's ones that OpenSlide gave of it."""
    file = (OPENSLIDE / f"{name}.czi").read_bytes()
    head, sides, lines = (OPENSLIDE / f"{name}.pbm").read_bytes().split(b"\n", 2)
    assert head == b"P4"
    width = int(sides.split()[0])
    stride = (width + 7) // 8
    spare = ~((1 << -width % 8) - 1) & 0xFF
    ones = sum(bin(b & (spare if k % stride == stride - 1 else 0xFF)).count("1") for k, b in enumerate(lines))
    return file, (OPENSLIDE / f"{name}.raw").read_bytes(), ones


class Planes(unittest.TestCase):
    def test_planes_are_those_that_openslide_gave(self):
        seen = 0
        for line in (OPENSLIDE / "cases.txt").read_text().splitlines():
            name, kind, *window = line.split()
            window = [int(number) for number in window]
            file, wanted, ones = openslide(name)
            for composer in ("plain", "quick"):
                plane = czi.compose(file, window, scene="any", composer=composer)
                # OpenSlide gives the high byte of each channel.
                got = plane.target[1::2] if kind == "bgr48" else plane.target
                self.assertEqual(got, wanted, name)
                self.assertEqual(plane.covered, ones, name)
            self.assertEqual(czi.count(file, window, scene="any", memory=500).covered, ones, name)
            seen += 1
        self.assertGreaterEqual(seen, 12)

    def test_the_mosaic(self):
        file = sample("mosaic")
        plain, quick = (czi.compose(file, masks=True, composer=name) for name in ("plain", "quick"))
        self.assertEqual((plain.covered, plain.stored), (1138, 1500))
        self.assertEqual((quick.covered, quick.stored), (1138, 1138))
        self.assertEqual((plain.target, plain.map), (quick.target, quick.map))
        self.assertEqual((quick.window, quick.pixel_type), (BOX, czi.PixelType.Gray8))
        # Without masks: the pixels in one of the four rectangles.
        self.assertEqual(czi.compose(file).covered, 1174)

    def test_only_a_mask_that_its_section_declares_hides_pixels(self):
        file = sample("marker_outside")
        self.assertEqual([t.mask is not None for t in czi.tiles(file)], [False, False, False, False, True])
        tiles = b"".join(bytes([n]) * 4 for n in range(1, 6))
        for composer in ("plain", "quick"):
            self.assertEqual(bytes(czi.compose(file, composer=composer).target), tiles)
            plane = czi.compose(file, masks=True, composer=composer)
            self.assertEqual(bytes(plane.target), tiles[:16] + bytes(4))
            self.assertEqual((plane.covered, plane.stored), (16, 16))

    def test_what_is_selected(self):
        file, _, ones = openslide("scenes")
        first, second, any_scene = (czi.compose(file, scene=scene).covered for scene in (0, 1, "any"))
        self.assertEqual(first + second, ones)
        self.assertEqual(any_scene, ones)
        self.assertEqual(czi.compose(file, starts={"C": 1}, scene="any").covered, 0)
        self.assertEqual(czi.compose(file, starts={"C": 0, "Z": 0}).covered, first)
        for wrong in ({"S": 1}, {"X": 0}, {"M": 0}, {"c": 0}, {"CZ": 0}, {"": 0}):
            with self.assertRaises(ValueError):
                czi.compose(file, starts=wrong)

    def test_background_and_lent_buffers(self):
        file = sample("mosaic")
        target, map_ = array("B", b"\x5A" * (43 * 28 + 9)), bytearray(b"\xA5" * 160)
        plane = czi.compose(file, masks=True, background=b"\x07", target=target, map=map_)
        self.assertIs(plane.target, target)
        self.assertIs(plane.map, map_)
        self.assertEqual(target[43 * 28:].tobytes(), b"\x5A" * 9)
        self.assertEqual(map_[151:], b"\xA5" * 9)
        uncovered = [target[k] for k in range(43 * 28) if not map_[k // 8] >> 7 - k % 8 & 1]
        self.assertEqual(uncovered, [7] * (43 * 28 - 1138))
        self.assertEqual(plane.target[:43 * 28].tobytes(),
                         czi.compose(file, masks=True, background=b"\x07", composer="plain").target)

    def test_a_refused_question_changes_nothing(self):
        file = sample("mosaic")
        first = czi.tile(file, 0).place
        for wanted, window, how in [
                ((20, 0), (100, 60, 0, 28), {}),
                ((20, 0), (2**31 - 1, 0, 1, 1), {}),
                ((21, 0), BOX, {"pixel_type": 12}),
                ((21, 0), BOX, {"background": b"\0\0"}),
                ((22, 0), (100, 60, 43, 29), {}),
                ((23, first), (100, 60, 20, 28), {"pixel_type": 1})]:
            target, map_ = bytearray(b"\x5A" * 1204), bytearray(b"\xA5" * 151)
            for composer in ("plain", "quick"):
                refused = refusal_of(czi.compose, file, window, target=target, map=map_, composer=composer, **how)
                self.assertEqual(refused, wanted)
                self.assertEqual((set(target), set(map_)), ({0x5A}, {0xA5}))
            # Without buffers there is nothing that is too short.
            if wanted[0] != 22:
                self.assertEqual(refusal_of(czi.compose, file, window, **how), wanted)

    def test_what_must_not_be_written(self):
        file = bytearray(sample("mosaic"))
        before, both = bytes(file), bytearray(1204 + 150)
        with self.assertRaises(ValueError):
            czi.compose(file, BOX, target=file)
        with self.assertRaises(ValueError):
            czi.compose(file, BOX, map=memoryview(file)[100:400])
        with self.assertRaises(ValueError):
            czi.compose(before, BOX, target=memoryview(both)[:1204], map=memoryview(both)[1203:])
        with self.assertRaises(BufferError):
            czi.compose(before, BOX, target=bytes(1204))
        self.assertEqual((file, both), (before, bytes(1204 + 150)))

    def test_one_may_begin_where_the_other_ends(self):
        both = memoryview(bytearray(151 + 1204 + 151))
        plane, behind = both[151:151 + 1204], both[151 + 1204:]
        self.assertEqual(czi.compose(sample("mosaic"), BOX, target=plane, map=behind).covered, 1174)
        self.assertEqual(czi.compose(sample("mosaic"), BOX, target=plane, map=both[:151]).covered, 1174)
        self.assertEqual(both[:151], behind)

    def test_a_window_is_refused_before_memory_is_taken(self):
        for window, how, wanted in [((0, 0, 2**32 - 1, 2**32 - 1), {}, (20, 0)),
                                    ((0, 0, 65536, 65536), {"pixel_type": 11, "background": b""}, (21, 0))]:
            self.assertEqual(refusal_of(czi.compose, sample("mosaic"), window, **how), wanted)

    def test_what_the_file_does_not_say(self):
        with self.assertRaisesRegex(ValueError, "window"):
            czi.compose(sample("pyramids"))
        with self.assertRaisesRegex(ValueError, "no pixel type"):
            czi.compose(sample("smallest"), (0, 0, 1, 1))

    def test_two_types_are_refused_at_the_first_other_tile(self):
        file, corner = sample("free"), (-2**31, -2**31, 1, 1)
        second, third = (czi.tile(file, entry).place for entry in (1, 2))
        for call in (czi.compose, czi.count):
            with self.assertRaises(czi.Refused) as caught:
                call(file, corner)
            self.assertEqual((caught.exception.number, caught.exception.place), (23, third))
            self.assertTrue(str(caught.exception).endswith("another type (tile 0 has Gray8, tile 2 has GrayFloat)"))
            self.assertEqual(refusal_of(call, file, corner, 0), (23, third))
        # Tile 1 meets the box too, in its last part, and stands before the others.
        self.assertEqual(refusal_of(czi.count, file), (23, second))
        with self.assertRaisesRegex(czi.Refused, r"\(tile 1 has Gray16, asked for is Gray8\)"):
            czi.count(file, pixel_type=0)
        self.assertEqual(refusal_of(czi.count, file, pixel_type=1), (23, czi.tile(file, 0).place))
        # 20 and 21 go before it, and 22 where something is lent.
        self.assertEqual(refusal_of(czi.compose, file), (20, 0))
        self.assertEqual(refusal_of(czi.count, file, pixel_type=12), (21, 0))
        self.assertEqual(refusal_of(czi.compose, file, corner, target=bytearray()), (22, 0))

    def test_masks_are_true_or_false(self):
        for wrong in ("off", "on", 2, 1, 0, None, [], b""):
            for call in (czi.compose, czi.count):
                with self.assertRaisesRegex(TypeError, "masks is .* True or False"):
                    call(sample("mosaic"), masks=wrong)
            with self.assertRaisesRegex(TypeError, "masks is .* True or False"):
                czi.count(sample("pyramids"), masks=wrong)

    def test_words_that_mean_nothing_are_named(self):
        for call in (czi.compose, czi.count, czi.chosen):
            with self.assertRaisesRegex(ValueError, "scene is 'Any', which is neither a number nor 'any'"):
                call(sample("mosaic"), scene="Any")
        with self.assertRaisesRegex(ValueError, "composer is 'fast', which is neither 'plain' nor 'quick'"):
            czi.compose(sample("mosaic"), composer="fast")


class Choosing(unittest.TestCase):
    def test_marks_and_counts(self):
        file = sample("mosaic")
        no, selected, meets = czi.Mark
        self.assertEqual(czi.chosen(file), (4, 4, [meets] * 4))
        # A column of tiles 0 and 2 alone, as high as a window can be.
        self.assertEqual(czi.chosen(file, (100, -2**31, 1, 2**32 - 1)), (4, 2, [meets, selected, meets, selected]))
        self.assertEqual(czi.chosen(file, (105, 65, 0, 9)), (4, 0, [selected] * 4))
        self.assertEqual(czi.chosen(file, scene=1), (0, 0, [no] * 4))
        self.assertEqual(czi.chosen(file, starts={"C": 1}, scene="any"), (0, 0, [no] * 4))
        self.assertEqual(czi.chosen(sample("pyramids"), (0, 0, 99, 99)), (0, 0, [no] * 2))
        self.assertEqual(czi.chosen(sample("smallest"), (0, 0, 1, 1)), (0, 0, []))

    def test_what_is_no_question(self):
        with self.assertRaises(ValueError):
            czi.chosen(sample("mosaic"), (0, 0, -1, 1))
        with self.assertRaises(ValueError):
            czi.chosen(sample("mosaic"), starts={"X": 0})
        with self.assertRaisesRegex(ValueError, "window"):
            czi.chosen(sample("pyramids"))
        self.assertEqual(refusal_of(czi.chosen, sample("refusal-13"), (0, 0, 1, 1))[0], 13)

    def test_the_type_is_that_of_the_tiles_in_the_window(self):
        # Tiles of nine types, of which those at the window have one; or none is there, and the first tile's counts.
        file = sample("free")
        for window, covered in [((0, 0, 1, 1), 1), ((7, 7, 2, 2), 0)]:
            plane = czi.compose(file, window)
            self.assertEqual((plane.pixel_type, plane.covered), (czi.PixelType.Gray8, covered))
            self.assertEqual(czi.count(file, window).covered, covered)
        other = {"A": -1, "B": -1, "C": -1, "D": -1, "T": 2**31 - 2, "Z": 5, "R": 5}
        self.assertEqual(czi.chosen(file, (0, 0, 1, 1), starts=other, scene=5)[:2], (1, 1))
        self.assertEqual(czi.compose(file, (0, 0, 1, 1), starts=other, scene="any").covered, 1)


class Counts(unittest.TestCase):
    def test_a_cut_window_adds_up(self):
        file = sample("mosaic")
        for memory, windows in [(512 << 20, 1), (1355, 1), (1354, 2), (100, 14), (1, 28)]:
            self.assertEqual(czi.count(file, masks=True, memory=memory), (1138, 43 * 28, windows, 4, 4, "1.2"), memory)

    def test_sides_over_65536(self):
        file = sample("mosaic")
        self.assertEqual(czi.count(file, (-65500, 0, 70000, 100)), (1174, 7_000_000, 2, 4, 4, "1.2"))
        self.assertEqual(czi.count(file, (100, -65473, 43, 65600)), (1174, 43 * 65600, 2, 4, 4, "1.2"))

    def test_the_windows_tile_the_window(self):
        for width, height, pixel, memory in [(7, 5, 3, 40), (65537, 2, 1, 1 << 20), (3, 65537, 1, 1 << 20), (1, 1, 24, 0)]:
            places, windows = set(), 0
            cut = Cut(-3, 4, width, height, pixel, memory)
            for left, top, wide, high in cut.met(lambda block: True):
                self.assertTrue(1 <= wide <= min(65536, cut.wide) and 1 <= high <= min(65536, cut.high))
                self.assertTrue(high == 1 or wide * high * pixel + (wide * high + 7) // 8 <= memory)
                new = {(x, y) for x in range(left, left + wide) for y in range(top, top + high)}
                self.assertFalse(new & places)
                places |= new
                windows += 1
            self.assertEqual(windows, cut.columns * cut.rows)
            self.assertEqual(len(places), width * height)
            self.assertEqual((min(places), max(places)), ((-3, 4), (width - 4, height + 3)))

    def test_few_questions_find_the_windows_that_are_met(self):
        asked = []

        def is_met(block):
            left, top, wide, high = block
            asked.append(block)
            return left <= 2**30 < left + wide and top <= 77 < top + high

        cut = Cut(-2**31, -2**31, 2**32 - 1, 2**32 - 1, 1, 1 << 20)
        (left, top, wide, high), = cut.met(is_met)
        self.assertTrue(left <= 2**30 < left + wide and top <= 77 < top + high)
        self.assertEqual((wide, high), (cut.wide, cut.high))
        self.assertGreater(cut.columns * cut.rows, 2**40)
        self.assertLess(len(asked), 100)
        self.assertEqual(list(cut.met(lambda block: False)), [])

    def test_windows_that_no_tile_meets_are_not_composed(self):
        file = sample("mosaic")
        plane = (-2**31, -2**31, 2**32 - 1, 2**32 - 1)
        counted = czi.count(file, plane, masks=True, memory=1 << 20)
        self.assertEqual(counted[:2], (1138, plane[2] * plane[3]))
        self.assertGreater(counted.windows, 2**40)
        self.assertEqual(czi.count(file, plane, scene=7)[0], 0)

    def test_nothing_to_count(self):
        self.assertEqual(czi.count(sample("pyramids")), (0, 0, 0, 0, 0, "1.2"))
        self.assertEqual(czi.count(sample("smallest"), (0, 0, 10, 10)), (0, 100, 1, 0, 0, "1.2"))
        self.assertEqual(czi.count(sample("smallest"), (0, 0, 10, 10), 4), (0, 100, 1, 0, 0, "1.2"))
        self.assertEqual(czi.count(sample("mosaic"), (100, 60, 1, 70000))[2:5], (2, 4, 2))
        self.assertEqual(czi.count(sample("mosaic"), scene=1)[3:5], (0, 0))
        self.assertEqual(refusal_of(czi.count, sample("mosaic"), (100, 60, 0, 28)), (20, 0))
        for window in [(2**31 - 2, 0, 70000, 1), (2**31 - 1 - 65536, 0, 200000, 1), (0, 2**31 - 1, 1, 2**32 - 1)]:
            self.assertEqual(refusal_of(czi.count, sample("mosaic"), window), (20, 0))
            with self.assertRaisesRegex(czi.Refused, r"\(count takes any window but one with a side of 0 or an edge past"):
                czi.count(sample("mosaic"), window)
        self.assertEqual(refusal_of(czi.count, sample("smallest"), (0, 0, 0, 1)), (20, 0))

    def test_a_type_that_is_not_listed_is_refused_of_every_file(self):
        for name in ("mosaic", "pyramids", "smallest"):
            self.assertEqual(refusal_of(czi.count, sample(name), pixel_type=12), (21, 0), name)
            self.assertEqual(refusal_of(czi.count, sample(name), (0, 0, 9, 9), 12), (21, 0), name)
            self.assertEqual(refusal_of(czi.compose, sample(name), (0, 0, 9, 9), 12), (21, 0), name)


if __name__ == "__main__":
    unittest.main()
