"""Quote sheets."""

import unittest

import czi
from stored import SAMPLES, sample
from test_samples import refusal_of

BOX = (100, 60, 43, 28)
PITCHES = "pitch_x=0.325\npitch_y=1.3\n"


def settings(edition, masks=""):
    return f"edition={edition}\n{PITCHES}{masks}"


class Quotes(unittest.TestCase):
    def test_stored_settings_give_the_stored_sheets(self):
        paths = sorted(SAMPLES.glob("quote-*.sheet"))
        self.assertGreaterEqual(len(paths), 2)
        for path in paths:
            quoted = czi.quote(sample("mosaic"), path.with_suffix(".txt").read_bytes(), scene="any")
            self.assertEqual(quoted.sheet, path.read_text("ascii"))

    def test_a_sheet_is_the_composers_count_by_both_pitches(self):
        file = sample("mosaic")
        for said, masks, covered in [(settings(1), False, 1174), (settings(1, "masks=on\n"), True, 1138),
                                     (settings(2), True, 1138), (settings(2, "masks=off\n"), False, 1174)]:
            for given in (said, said.encode(), bytearray(said.encode()), memoryview(said.encode())):
                quoted = czi.quote(file, given)
                plane = czi.compose(file, masks=masks)
                self.assertEqual((quoted.covered, quoted.area_nm2), (covered, covered * 325 * 1300))
                self.assertEqual(quoted.sheet, f"covered={covered}\narea_nm2={covered * 325 * 1300}\n")
                self.assertEqual((quoted.target, quoted.map, quoted.covered), (plane.target, plane.map, plane.covered))
                self.assertEqual((quoted.window, quoted.pixel_type, quoted.release), (BOX, czi.PixelType.Gray8, "1.2"))
            self.assertEqual(czi.quote(file, said, release="1.02").covered, 1174)

    def test_what_is_selected_and_lent(self):
        file, said = sample("mosaic"), settings(2)
        self.assertEqual(czi.quote(file, said, scene=1).sheet, "covered=0\narea_nm2=0\n")
        self.assertEqual(czi.quote(file, said, starts={"C": 1}, scene="any").covered, 0)
        halves = [czi.quote(file, said, window).area_nm2 for window in ((100, 60, 20, 28), (120, 60, 23, 28))]
        self.assertEqual(sum(halves), czi.quote(file, said).area_nm2)
        target, map_ = bytearray(b"\x5A" * 1213), bytearray(b"\xA5" * 160)
        quoted = czi.quote(file, said, BOX, 0, background=b"\x07", target=target, map=map_)
        self.assertIs(quoted.target, target)
        self.assertIs(quoted.map, map_)
        self.assertEqual((target[1204:], map_[151:]), (b"\x5A" * 9, b"\xA5" * 9))
        self.assertEqual(target[:1204], czi.compose(file, masks=True, background=b"\x07").target)

    def test_the_settings_are_refused_before_the_file(self):
        comma = settings(1).replace("1.3", "1,3")
        for file in (sample("mosaic"), sample("refusal-13"), sample("smallest"), b""):
            for how in ({}, {"window": (0, 0, 0, 0)}, {"pixel_type": 12}, {"target": bytearray()}):
                with self.assertRaises(czi.Refused) as caught:
                    czi.quote(file, comma, **how)
                self.assertEqual((caught.exception.number, caught.exception.place), (34, comma.index(",")))
                self.assertEqual(caught.exception.more, "line 3 of the settings, byte 10")
                self.assertTrue(str(caught.exception).startswith("refused 34 at 33: a comma in the settings; "))
                for fault in ("", settings(3), settings(1)[:-1], settings(1) + "\n", settings(1, "masks=yes\n"),
                              settings(1).replace("\n", "\r\n"), "\ufeff" + settings(1), settings(1).replace("1.3", "325"),
                              settings(1).replace("1.3", "1.3 \u00b5m")):
                    self.assertEqual(refusal_of(czi.quote, file, fault, **how), (35, 0), fault)
        self.assertEqual(refusal_of(czi.quote, sample("mosaic"), ",?,"), (34, 0))
        self.assertEqual(refusal_of(czi.quote, sample("refusal-13"), settings(1))[0], 13)

    def test_who_has_35_is_told_where_to_look(self):
        file = sample("mosaic")
        for said, number, place, is_path in [
                (settings(3), 35, 0, False), ("", 35, 0, False), ("edition=1", 35, 0, True), ("/jobs/quote.txt", 35, 0, True),
                (b"quote-1.txt", 35, 0, True), ("a,b.txt", 34, 1, True), (settings(1).replace(".", ","), 34, 19, False)]:
            with self.assertRaises(czi.Refused) as caught:
                czi.quote(file, said)
            self.assertEqual((caught.exception.number, caught.exception.place), (number, place))
            wanted = "names line and column" if number == 35 else "of the settings, byte"
            self.assertIn(wanted, str(caught.exception))
            self.assertEqual("not a file's name" in str(caught.exception), is_path, said)

    def test_what_was_selected_and_read(self):
        file = sample("mosaic")
        for said, masks in [(settings(1), False), (settings(2), True), (settings(1, "masks=on\n"), True),
                            (settings(2, "masks=off\n"), False)]:
            for given in (said, said.encode(), memoryview(said.encode())):
                quoted = czi.quote(file, given, (100, 60, 1, 1))
                self.assertEqual((quoted.tiles, quoted.selected, quoted.meeting), (4, 4, 1))
                self.assertEqual((quoted.edition, quoted.masks), (int(said[8]), masks))
                self.assertEqual((quoted.pitch_x_nm, quoted.pitch_y_nm), (325, 1300))
        quoted = czi.quote(file, "edition=1\npitch_x=00065.535\npitch_y=7\n", scene=1)
        self.assertEqual((quoted.tiles, quoted.selected, quoted.meeting), (4, 0, 0))
        self.assertEqual((quoted.pitch_x_nm, quoted.pitch_y_nm), (65535, 7000))
        for shown in (repr(quoted), repr(czi.compose(file))):
            self.assertIn("covered=", shown)
            self.assertLess(len(shown), 400)
            self.assertNotIn("bytearray", shown)

    def test_a_box_is_no_window_and_a_bool_no_scene(self):
        file, box = sample("mosaic"), czi.summary(sample("mosaic")).box
        def quote(file, *window, **how):
            return czi.quote(file, settings(2), *window, **how)

        for call in (czi.compose, czi.count, czi.chosen, quote):
            with self.assertRaisesRegex(TypeError, "window is a Box"):
                call(file, box)
            call(file, box.window)
            for scene in (True, False):
                with self.assertRaisesRegex(TypeError, f"scene is {scene}"):
                    call(file, scene=scene)

    def test_a_refused_question_changes_nothing(self):
        file, first = sample("mosaic"), czi.tile(sample("mosaic"), 0).place
        for wanted, window, how in [
                ((20, 0), (100, 60, 0, 28), {}),
                ((21, 0), BOX, {"pixel_type": 12}),
                ((21, 0), BOX, {"background": b"\0\0"}),
                ((22, 0), (100, 60, 43, 29), {}),
                ((23, first), (100, 60, 20, 28), {"pixel_type": 1})]:
            target, map_ = bytearray(b"\x5A" * 1204), bytearray(b"\xA5" * 151)
            refused = refusal_of(czi.quote, file, settings(2), window, target=target, map=map_, **how)
            self.assertEqual(refused, wanted)
            self.assertEqual((set(target), set(map_)), ({0x5A}, {0xA5}))
            if wanted[0] != 22:
                self.assertEqual(refusal_of(czi.quote, file, settings(2), window, **how), wanted)

    def test_what_must_not_be_written(self):
        file, said = sample("mosaic"), bytearray(settings(2).encode())
        before = bytes(said)
        with self.assertRaisesRegex(ValueError, "map and settings share bytes"):
            czi.quote(file, said, (100, 60, 1, 1), map=said)
        both = bytearray(1204 + 150)
        with self.assertRaisesRegex(ValueError, "share bytes"):
            czi.quote(file, said, BOX, target=memoryview(both)[:1204], map=memoryview(both)[1203:])
        with self.assertRaises(BufferError):
            czi.quote(file, said, BOX, target=bytes(1204))
        self.assertEqual((said, both), (before, bytes(1204 + 150)))

    def test_what_is_no_settings(self):
        for wrong in (None, 1, ["edition=1"]):
            with self.assertRaises(TypeError):
                czi.quote(sample("mosaic"), wrong)
        with self.assertRaisesRegex(ValueError, "release is '2'"):
            czi.quote(sample("mosaic"), settings(1), release="2")
        with self.assertRaisesRegex(TypeError, "masks"):
            czi.quote(sample("mosaic"), settings(1), masks=True)
        with self.assertRaisesRegex(ValueError, "window"):
            czi.quote(sample("pyramids"), settings(1))


if __name__ == "__main__":
    unittest.main()
