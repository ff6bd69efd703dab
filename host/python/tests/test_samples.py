"""Every stored sample: its listing, its figures, its refusal."""

import unittest

import czi
from stored import listings, sample


def refusal_of(call, *given, **named):
    """The refusal that a call raises, as number and place; None where it raises none."""
    try:
        call(*given, **named)
    except czi.Refused as refused:
        return refused.number, refused.place


class Samples(unittest.TestCase):
    def test_listings_are_those_stored(self):
        names = [name for name, file, text, _ in listings() if czi.listing(file) == text]
        self.assertEqual(names, [name for name, *_ in listings()])
        self.assertGreaterEqual(len(names), 20)

    def test_figures_are_those_listed(self):
        seen = 0
        for name, file, _, said in listings():
            if "bytes" in said:
                figures = czi.summary(file)
                for key in ("bytes", "segments", "tiles", "attachments"):
                    self.assertEqual(getattr(figures, key), int(said[key]), name)
                box = "none" if figures.box is None else ",".join(map(str, figures.box))
                self.assertEqual(box, said["box"], name)
                self.assertIsNone(czi.judge(file))
                self.assertEqual(len(czi.tiles(file)), figures.tiles)
                seen += 1
        self.assertGreaterEqual(seen, 5)

    def test_refusals_are_those_listed(self):
        seen = set()
        for name, file, _, said in listings():
            if said.get("refused", "30") != "30":
                wanted = int(said["refused"]), int(said["place"])
                for call in (czi.judge, czi.summary, czi.tiles, czi.all_records, czi.attachments, czi.common_xml, czi.chosen,
                             czi.compose, czi.count, czi.repack, czi.repack_size):
                    self.assertEqual(refusal_of(call, file), wanted, (name, call))
                for call in (czi.tile, czi.dimensions, czi.tile_pixels, czi.attachment, czi.attachment_data):
                    self.assertEqual(refusal_of(call, file, 0), wanted, (name, call))
                seen.add(wanted[0])
        self.assertEqual(seen, set(range(1, 19)) - {4})

    def test_too_long_to_list_is_judged_all_the_same(self):
        file = sample("over")
        self.assertEqual(czi.listing(file), "refused=30\nplace=0\n")
        self.assertEqual(czi.summary(file).bytes, len(file))


class Refusal(unittest.TestCase):
    def test_number_place_and_words(self):
        with self.assertRaises(czi.Refused) as caught:
            czi.judge(sample("refusal-13"))
        refused = caught.exception
        self.assertEqual(refused.number, 13)
        self.assertEqual(refused.words, "compression not 0")
        self.assertEqual(str(refused), f"refused 13 at {refused.place}: compression not 0")

    def test_what_there_is_not_is_24(self):
        file = sample("mosaic")
        for call, first_missing in [(czi.tile, 4), (czi.dimensions, 4), (czi.tile_pixels, 4), (czi.tile_metadata, 4),
                                    (czi.tile_attachment, 4), (czi.attachment, 1), (czi.attachment_data, 1)]:
            for entry in (first_missing, 2**64 - 1):
                self.assertEqual(refusal_of(call, file, entry), (24, 0), call)

    def test_a_number_that_does_not_fit_is_no_question(self):
        file = sample("mosaic")
        for entry in (-1, 2**64):
            with self.assertRaises(ValueError):
                czi.tile(file, entry)
        for window in [(2**31, 0, 1, 1), (0, -2**31 - 1, 1, 1), (0, 0, 2**32, 1), (0, 0, 1, -1)]:
            with self.assertRaises(ValueError):
                czi.compose(file, window)
        with self.assertRaises(ValueError):
            czi.pixel_bytes(2**32)


if __name__ == "__main__":
    unittest.main()
