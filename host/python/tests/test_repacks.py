"""Files written anew without their dead segments."""

import array
import mmap
import struct
import tempfile
import unittest
from dataclasses import replace

import czi
from stored import SAMPLES, sample
from test_samples import refusal_of

BUFFER, TOO_LARGE = 25, 36


def segment(name, content):
    allocated = (len(content) + 31) // 32 * 32
    return struct.pack("<16sqq", name, allocated, len(content)) + content.ljust(allocated, b"\0")


def crowded(tiles, attached):
    """A file with one tile of a pixel and one attachment without data, listed so often."""
    dimensions = b"".join(struct.pack("<4siiii", letter, 0, 1, 0, 1) for letter in (b"X", b"Y"))
    entry = struct.pack("<2siqiiB5xi", b"DV", 0, 128, 0, 0, 0, 2) + dimensions
    block = segment(b"ZISRAWSUBBLOCK", (struct.pack("<iiq", 0, 0, 1) + entry).ljust(257, b"\0"))
    listed = struct.pack("<2s10xq108x", b"A1", 128 + len(block))
    parts = block + segment(b"ZISRAWATTACH", bytes(16) + listed + bytes(112))
    directory = segment(b"ZISRAWDIRECTORY", struct.pack("<i124x", tiles) + entry * tiles)
    positions = 128 + len(parts), 128 + len(parts) + len(directory)
    file = struct.pack("<i48xq12xq", 1, *positions).ljust(96, b"\0")
    names = segment(b"ZISRAWATTDIR", struct.pack("<i252x", attached) + listed * attached)
    return segment(b"ZISRAWFILE", file) + parts + directory + names


def said(file, release):
    """All that a file says of itself but places, and the parts."""
    tiles = []
    for record in czi.all_records(file, release=release):
        tile = record.tile
        mask = tile.mask and tile.mask._replace(place=tile.mask.place - tile.attachment.start)
        parts = [bytes(file[part]) for part in (tile.metadata, tile.pixels, tile.attachment)]
        tile = replace(tile, place=0, position=0, metadata=None, pixels=None, attachment=None, mask=mask)
        tiles.append((tile, repr(record.dimensions), parts))
    attached = [(one.guid, one.file_type, one.name, bytes(file[one.data])) for one in czi.attachments(file, release=release)]
    common = [bytes(call(file, release=release)) for call in (czi.common_xml, czi.common_attachment)]
    return tiles, attached, common, czi.summary(file, release=release).box


class Repacks(unittest.TestCase):
    def test_the_dead_file_becomes_the_stored_one(self):
        file, wanted = sample("dead"), sample("dead_repacked")
        self.assertEqual((czi.summary(file).segments, czi.summary(wanted).segments), (14, 9))
        for release in ("1.2", "1.02"):
            for given in (file, wanted, bytearray(file), memoryview(wanted)):
                self.assertEqual(czi.repack_size(given, release=release), len(wanted))
                clean = czi.repack(given, release=release)
                self.assertIsInstance(clean, bytearray)
                self.assertEqual(clean, wanted)
        self.assertEqual(czi.listing(clean), (SAMPLES / "dead_repacked.txt").read_text("ascii"))

    def test_the_new_file_has_what_the_old_one_has(self):
        seen = 0
        for path in sorted(SAMPLES.glob("*.czi")):
            file = path.read_bytes()
            for release in ("1.2", "1.02"):
                if refusal_of(czi.judge, file, release=release) is None:
                    clean = czi.repack(file, release=release)
                    self.assertIsNone(czi.judge(clean, release=release))
                    self.assertEqual(said(clean, release), said(file, release), path)
                    self.assertEqual(czi.repack(clean, release=release), clean, path)
                    # The box of free.czi is the whole plane.
                    if czi.summary(file, release=release).box is not None and path.stem != "free":
                        old, new = (czi.compose(one, masks=True, scene="any", release=release) for one in (file, clean))
                        self.assertEqual(old, new, path)
                    seen += 1
        self.assertGreaterEqual(seen, 20)

    def test_a_buffer_is_lent(self):
        file, wanted = sample("dead"), sample("dead_repacked")
        for more in (0, 8, 4096):
            for out in (bytearray(b"\x5A" * (4096 + more)), memoryview(bytearray(b"\x5A" * (4096 + more))),
                        array.array("Q", b"\x5A" * (4096 + more))):
                clean = czi.repack(file, out=out)
                self.assertEqual((type(clean), clean, clean.nbytes), (memoryview, wanted, 4096))
                self.assertEqual(bytes(out)[4096:], b"\x5A" * more)
                # They are the buffer's own bytes.
                clean[0] = 7
                self.assertEqual(bytes(out)[0], 7)

    def test_mapped_files_are_lent(self):
        with tempfile.TemporaryFile() as out, (SAMPLES / "dead.czi").open("rb") as scan:
            out.truncate(czi.repack_size(sample("dead")))
            with mmap.mmap(scan.fileno(), 0, access=mmap.ACCESS_READ) as file, mmap.mmap(out.fileno(), 0) as room:
                czi.repack(file, out=room).release()
            self.assertEqual(out.read(), sample("dead_repacked"))

    def test_a_refused_call_changes_nothing(self):
        file, size = sample("dead"), czi.repack_size(sample("dead"))
        for length in (0, 1, size - 32, size - 1):
            out = bytearray(b"\x5A" * length)
            self.assertEqual(refusal_of(czi.repack, file, out=out), (BUFFER, 0))
            self.assertEqual(out, b"\x5A" * length)
        for release, wanted in (("1.2", (17, 945)), ("1.02", None)):
            out = bytearray(b"\x5A" * 4096)
            self.assertEqual(refusal_of(czi.repack, sample("archive"), out=out, release=release), wanted)
            self.assertEqual(out == b"\x5A" * 4096, wanted is not None)
        self.assertEqual(refusal_of(czi.repack, sample("refusal-13"), out=bytearray())[0], 13)
        with self.assertRaises(czi.Refused) as caught:
            czi.repack(file, out=bytearray())
        self.assertEqual(str(caught.exception), "refused 25 at 0: buffer shorter than the repacked file")

    def test_over_8192_segments_are_36(self):
        file = crowded(4096, 4093)
        clean = czi.repack(file)
        self.assertEqual((czi.summary(file).segments, czi.summary(clean).segments), (5, 8192))
        self.assertGreater(len(clean), len(file))
        for attached in (4094, 4096):
            file = crowded(4096, attached)
            self.assertEqual(refusal_of(czi.repack_size, file), (TOO_LARGE, 0))
            self.assertEqual(refusal_of(czi.repack, file), (TOO_LARGE, 0))
            for length in (0, 10_000_000):
                out = bytearray(length)
                self.assertEqual(refusal_of(czi.repack, file, out=out), (TOO_LARGE, 0))
                self.assertEqual(out.count(0), length)

    def test_what_must_not_be_written(self):
        room = bytearray(sample("dead") + bytes(9280))
        before, view = bytes(room), memoryview(room)
        for out in (room, view[:9280], view[9279:], view[5000:]):
            with self.assertRaisesRegex(ValueError, "^out and file share bytes$"):
                czi.repack(view[:9280], out=out)
        self.assertEqual(room, before)
        self.assertEqual(czi.repack(view[:9280], out=view[9280:]), sample("dead_repacked"))
        self.assertEqual(room[:9280], before[:9280])
        for out in (bytes(4096), view.toreadonly(), memoryview(bytearray(8192))[::2]):
            with self.assertRaises(BufferError):
                czi.repack(sample("dead"), out=out)
        for out in (1, "out", [0]):
            with self.assertRaises(TypeError):
                czi.repack(sample("dead"), out=out)
        for call in (czi.repack, czi.repack_size):
            with self.assertRaises(TypeError):
                call("dead.czi")


if __name__ == "__main__":
    unittest.main()
