"""Files judged by release 1.2, and by 1.02."""

import inspect
import struct
import unittest
from dataclasses import replace

import czi
from stored import SAMPLES, sample
from test_metadata import METADATA_AT, SECTION, one_tile
from test_samples import refusal_of

# What takes a file, a file and the number of an entry, and a file and settings.
OF_FILES = [czi.judge, czi.listing, czi.summary, czi.tiles, czi.all_records, czi.attachments, czi.common_xml,
            czi.common_attachment, czi.chosen, czi.compose, czi.count, czi.repack, czi.repack_size]
OF_ENTRIES = [czi.tile, czi.dimensions, czi.tile_pixels, czi.tile_metadata, czi.tile_attachment, czi.attachment,
              czi.attachment_data]
OF_SETTINGS = [czi.quote]
EVERY = OF_FILES + OF_ENTRIES + OF_SETTINGS
SETTINGS = "edition=2\npitch_x=0.325\npitch_y=0.325\n"


def calls(name):
    """Each function as a call for that sample, whose first entries it asks for."""
    file = sample(name)
    for call in OF_FILES:
        yield call, lambda call=call, **named: call(file, **named)
    for call in OF_ENTRIES:
        yield call, lambda call=call, **named: call(file, 0, **named)
    for call in OF_SETTINGS:
        yield call, lambda call=call, **named: call(file, SETTINGS, **named)


class Releases(unittest.TestCase):
    def test_every_function_with_a_file_takes_a_release(self):
        functions = [getattr(czi, name) for name in czi.__all__ if inspect.isfunction(getattr(czi, name))]
        taking = {call for call in functions if "file" in inspect.signature(call).parameters}
        self.assertEqual(taking, set(EVERY))
        for call in EVERY:
            said = inspect.signature(call).parameters["release"]
            self.assertEqual((said.default, said.kind), ("1.2", said.KEYWORD_ONLY), call)

    def test_a_broken_container_is_judged_by_1_2_alone(self):
        for call, asked in calls("archive"):
            older = refusal_of(asked, release="1.02")
            # The file has no attachments of its own.
            self.assertEqual(older, (24, 0) if call in (czi.attachment, czi.attachment_data) else None, call)
            if call is not czi.listing:
                self.assertEqual(refusal_of(asked), (17, 945), call)
                self.assertEqual(refusal_of(asked, release="1.2"), (17, 945), call)
        self.assertEqual(bytes(czi.tile_attachment(sample("archive"), 0, release="1.02")), b"scanned 2011-05-04, slide 17")
        for name in ("refusal-17", "refusal-18", "container19"):
            self.assertIsNone(czi.judge(sample(name), release="1.02"))

    def test_attachments_of_a_file_with_a_broken_container(self):
        attachments = czi.attachments(sample("refusal-17"), release="1.02")
        self.assertEqual([attachment.name_text for attachment in attachments], ["TimeStamps"])

    def test_a_file_without_a_box_is_judged_by_the_release_too(self):
        file = bytearray(one_tile(SECTION))
        for entry in (128 + 32 + 128, METADATA_AT - 256 + 16):
            # X has Size 2 and is stored as 1: a pyramid tile.
            file[entry + 32:entry + 52] = struct.pack("<4sii4xi", b"X", 0, 2, 1)
        self.assertEqual(czi.count(file, release="1.02"), (0, 0, 0, 0, 0, "1.02"))
        self.assertEqual(refusal_of(czi.count, file, pixel_type=12, release="1.02"), (21, 0))
        self.assertEqual(refusal_of(czi.count, file)[0], 17)

    def test_what_is_behind_a_broken_container_is_judged(self):
        for call, asked in calls("archive_behind"):
            if call is not czi.listing:
                self.assertEqual(refusal_of(asked, release="1.02"), (13, 2192), call)
                self.assertEqual(refusal_of(asked), (17, 945), call)

    def test_listings_under_1_02_are_those_stored(self):
        others = 0
        for path in sorted(SAMPLES.glob("*.czi")):
            newer, older = (path.with_suffix(end) for end in (".txt", ".1.02.txt"))
            others += older.exists()
            wanted = (older if older.exists() else newer).read_text("ascii")
            self.assertEqual(czi.listing(path.read_bytes(), release="1.02"), wanted, path)
        self.assertGreaterEqual(others, 5)

    def test_records_are_the_same_but_for_the_mask(self):
        file = sample("mosaic")
        newer, older = czi.tiles(file), czi.tiles(file, release="1.02")
        self.assertEqual([tile.mask is not None for tile in newer], [False, True, False, False])
        self.assertEqual(older, [replace(tile, mask=None) for tile in newer])
        self.assertEqual(czi.tile(file, 1, release="1.02"), older[1])
        self.assertEqual([record.tile for record in czi.all_records(file, release="1.02")], older)
        self.assertEqual(czi.dimensions(file, 1, release="1.02"), czi.dimensions(file, 1))
        self.assertEqual(czi.attachments(file, release="1.02"), czi.attachments(file))
        self.assertEqual(czi.summary(file, release="1.02"), czi.summary(file))
        self.assertEqual(czi.chosen(file, release="1.02"), czi.chosen(file))
        for call in (czi.tile_pixels, czi.tile_metadata, czi.tile_attachment):
            self.assertEqual(call(file, 1, release="1.02"), call(file, 1), call)

    def test_masks_on_is_the_same_as_masks_off_under_1_02(self):
        file = sample("mosaic")
        without = czi.compose(file)
        self.assertEqual((without.covered, without.release), (1174, "1.2"))
        self.assertEqual(czi.compose(file, masks=True).covered, 1138)
        self.assertEqual(czi.count(file, masks=True).covered, 1138)
        for masks in (True, False):
            for composer in ("plain", "quick"):
                plane = czi.compose(file, masks=masks, composer=composer, release="1.02")
                self.assertEqual(plane, replace(without, stored=plane.stored, release="1.02"))
            self.assertEqual(czi.count(file, masks=masks, release="1.02"), czi.count(file)._replace(release="1.02"))
            # In windows of a row each.
            self.assertEqual(czi.count(file, masks=masks, memory=0, release="1.02").covered, 1174)

    def test_another_release_is_not_taken(self):
        for name in ("mosaic", "refusal-13"):
            for call, asked in calls(name):
                for word in ("", "1.20", "1,02", "1,2", "1.02 ", "1.0", "2", "v1.2", "1.2\n"):
                    with self.assertRaises(ValueError) as caught:
                        asked(release=word)
                    self.assertEqual(str(caught.exception), f"release is {word!r}, which is neither '1.02' nor '1.2'", call)
                for other in (1.2, 1.02, 1, 0, None, b"1.2", ["1.2"], True):
                    with self.assertRaises(TypeError) as caught:
                        asked(release=other)
                    self.assertEqual(str(caught.exception), f"release is {other!r}, and has to be '1.02' or '1.2'", call)


if __name__ == "__main__":
    unittest.main()
