"""Holds the command czi against other readers on files of a folder; host/compare-real starts it.

    python3 real.py CZI DIR [ROOT]

CZI is the command. ROOT is a folder with OpenSlide to chroot to, with a place for copies in ROOT/tmp; without it planes
are not compared. One line a file and a closing count; exits 1 on any difference.
"""
import json
import mmap
import re
import shutil
import struct
import subprocess
import sys
import tempfile
from pathlib import Path

here = Path(__file__).resolve().parent
sys.path.insert(0, str(here.parent))
import reading  # noqa: E402

KINDS = {3: "bgr24", 4: "bgr48"}
SIDE = 4096
BITS = [bytes(255 * (b >> n & 1) for n in range(7, -1, -1)) for b in range(256)]


class Tile:
    """An entry of an accepted file; `m` is None without M, `places` are those of M's start in it and in its copy."""

    def __init__(self, file, at):
        self.pixel_type, position = struct.unpack_from("<iq", file, at + 2)
        self.m, self.places = None, []
        count, = struct.unpack_from("<i", file, at + 28)
        self.length = 32 + 20 * count
        for place in range(32, self.length, 20):
            start, size, _, stored = struct.unpack_from("<iifi", file, at + place + 4)
            letter = file[at + place:at + place + 1]
            if letter == b"X":
                self.left, self.right, whole_x = start, start + size, stored in (0, size)
            elif letter == b"Y":
                self.top, self.bottom, whole_y = start, start + size, stored in (0, size)
            elif letter == b"M":
                self.m = start
                self.places = [at + place + 4, position + 32 + 16 + place + 4]
        self.whole = whole_x and whole_y

    def meets(self, other):
        return (self.left < other.right and other.left < self.right
                and self.top < other.bottom and other.top < self.bottom)


def tiles_of(file):
    directory, = struct.unpack_from("<q", file, 32 + 52)
    count, = struct.unpack_from("<i", file, directory + 32)
    at, tiles = directory + 32 + 128, []
    for _ in range(count):
        tiles.append(Tile(file, at))
        at += tiles[-1].length
    return tiles


def decided(tiles):
    """Does M say which is on top wherever tiles overlap?"""
    groups = {}
    for tile in tiles:
        groups.setdefault(tile.m, []).append(tile)
    without = groups.pop(None, [])
    pairs = [(group, group) for group in groups.values()] + [(without, tiles)]
    return not any(a is not b and a.meets(b) for some, others in pairs for a in some for b in others)


class Files:
    """What was found over all files."""

    def __init__(self, czi, root):
        self.czi, self.root = czi, root
        self.exiftool = shutil.which("exiftool")
        self.files = self.accepted = self.planes = self.pixels = self.given = self.differ = self.undecided = 0
        self.headers = self.texts = self.failed = 0

    def run(self, *words):
        return subprocess.run([self.czi, *map(str, words)], capture_output=True, check=False)

    def said(self, *words):
        """The command's answer in the listing's words."""
        ran = self.run(*words)
        if ran.returncode == 2:
            return b"refused=%s\nplace=%s\n" % re.match(rb"czi: refused (\d+) at (\d+):", ran.stderr).groups()
        if ran.returncode != 0:
            sys.exit("compare-real: FAILED: %s" % ran.stderr.decode(errors="replace").strip())
        return ran.stdout

    def one(self, path):
        """Words about a file, and whether nothing differs."""
        self.files += 1
        with path.open("rb") as stream:
            file = mmap.mmap(stream.fileno(), 0, access=mmap.ACCESS_READ) if path.stat().st_size else b""
        judged = self.run("judge", path)
        theirs = reading.figures(file)
        refused = theirs.startswith(b"refused=")
        figures = b"".join(self.said("info", path).splitlines(keepends=True)[:5])
        same = (figures == theirs and self.said("list", path) == reading.listing(file)
                and self.said("judge", path) == (theirs if refused else b"accepted\n"))
        words = [(judged.stdout or judged.stderr).decode().strip().removeprefix("czi: "),
                 "figures agree" if same else "FIGURES DIFFER"]
        fine = same
        if judged.returncode == 0:
            self.accepted += 1
            if self.root:
                told, same = self.plane(path, file)
                words.append(told)
                fine = fine and same
        if self.exiftool:
            told, same = self.header(path, file)
            words.append(told)
            fine = fine and same
        self.failed += not fine
        return "; ".join(words)

    # ---- planes

    def plane(self, path, file):
        tiles = tiles_of(file)
        whole = [t for t in tiles if t.whole]
        kinds = sorted({t.pixel_type for t in tiles})
        if not whole:
            return "planes not compared: no tile is whole", True
        if len(kinds) != 1 or kinds[0] not in KINDS:
            return "planes not compared: pixel types %s" % ", ".join(map(str, kinds)), True
        with tempfile.TemporaryDirectory(prefix="real.", dir=self.root / "tmp") as work:
            return self.compare(path, tiles, whole, KINDS[kinds[0]], Path(work))

    def compare(self, path, tiles, whole, kind, work):
        copy = work / "copy.czi"
        shutil.copyfile(path, copy)
        order = {m: n for n, m in enumerate(sorted({t.m for t in tiles if t.m is not None}, reverse=True))}
        with copy.open("r+b") as stream:
            for tile in tiles:
                for place in tile.places:
                    stream.seek(place)
                    stream.write(struct.pack("<i", order[tile.m]))
        shutil.copyfile(here / "read.py", work / "read.py")
        inner = "/tmp/" + work.name
        with subprocess.Popen(["chroot", self.root, "python3", inner + "/read.py", "--windows", inner + "/copy.czi"],
                              stdin=subprocess.PIPE, stdout=subprocess.PIPE) as outside:
            told = outside.stdout.readline().decode().strip()
            if not re.fullmatch(r"\d+ \d+", told):
                return "planes not compared: OpenSlide: %s" % (told or "ended with %d" % outside.wait()), True
            size = tuple(map(int, told.split()))
            left, top = min(t.left for t in whole), min(t.top for t in whole)
            box = max(t.right for t in whole) - left, max(t.bottom for t in whole) - top
            width, height = min(box[0], size[0]), min(box[1], size[1])
            given = differ = 0
            for y in range(0, height, SIDE):
                for x in range(0, width, SIDE):
                    w, h = min(SIDE, width - x), min(SIDE, height - y)
                    outside.stdin.write(b"%d %d %d %d\n" % (x, y, w, h))
                    outside.stdin.flush()
                    argb = outside.stdout.read(4 * w * h)
                    if len(argb) != 4 * w * h:
                        return "planes not compared: OpenSlide: %s" % argb.decode(errors="replace").strip(), True
                    ours, covered = self.inside(path, kind, left + x, top + y, w, h, work)
                    given += covered.count(255)
                    differ += differing(ours, covered, argb)
        firm = decided(whole)
        self.planes, self.pixels, self.given = self.planes + 1, self.pixels + width * height, self.given + given
        self.differ, self.undecided = self.differ + differ * firm, self.undecided + differ * (not firm)
        told = "plane %d x %d" % (width, height)
        if size != box:
            told += " (box %d x %d, OpenSlide %d x %d)" % (box + size)
        told += ", %d given by a tile, %d differ" % (given, differ)
        if not firm:
            told += ", M does not decide all"
        return told, not (firm and differ)

    def inside(self, path, kind, left, top, width, height, work):
        """The command's three channels, and its map with a byte 255 or 0 for a pixel."""
        ran = self.run("compose", path, "--window", "%d,%d,%d,%d" % (left, top, width, height), "--type", kind,
                       "--scene", "any", "--masks", "off", "--composer", "both", "--force",
                       "--out", work / "plane", "--map", work / "map")
        if ran.returncode != 0 or b"both composers agree" not in ran.stdout.splitlines():
            sys.exit("compare-real: FAILED: %s: czi compose: %s" % (path.name, (ran.stdout + ran.stderr).decode()))
        plane = (work / "plane").read_bytes()
        plane = plane[1::2] if kind == "bgr48" else plane
        head, stride = b"P4\n%d %d\n" % (width, height), (width + 7) // 8
        lines = (work / "map").read_bytes()
        if len(plane) != 3 * width * height or not lines.startswith(head):
            sys.exit("compare-real: FAILED: %s: the command's plane has another size" % path.name)
        rows = (lines[at:at + stride] for at in range(len(head), len(lines), stride))
        return [plane[n::3] for n in range(3)], b"".join(b"".join(map(BITS.__getitem__, r))[:width] for r in rows)

    # ---- header and XML

    def header(self, path, file):
        tags = ["ZISRAWVersion", "PrimaryFileGUID", "FileGUID"]
        ran = subprocess.run([self.exiftool, "-j", "-n", *("-" + t for t in tags), str(path)], capture_output=True,
                             check=False)
        theirs = json.loads(ran.stdout or b"[{}]")[0]
        if any(tag not in theirs for tag in tags):
            return "exiftool says nothing", True
        self.headers += 1
        ours = ["%d %d" % struct.unpack_from("<ii", file, 32), file[48:64].hex(), file[64:80].hex()]
        same = ours == [str(theirs[tag]) for tag in tags]
        words = "exiftool: version and GUIDs %s" % ("agree" if same else "DIFFER")
        xml = subprocess.run([self.exiftool, "-b", "-XML", str(path)], capture_output=True, check=False).stdout
        at = struct.unpack_from("<q", file, 32 + 60)[0] if len(file) >= 112 else 0
        if xml and 0 < at <= len(file) - 288:
            self.texts += 1
            size, = struct.unpack_from("<i", file, at + 32)
            equal = file[at + 288:at + 288 + size] == xml
            return words + ", XML of %d bytes %s" % (len(xml), "agrees" if equal else "DIFFERS"), same and equal
        return words + ", no XML", same


def differing(ours, covered, argb):
    """The number of pixels that differ."""
    pairs = [(mine, argb[n::4]) for n, mine in enumerate(ours + [covered])]
    if all(mine == other for mine, other in pairs):
        return 0
    return len({k for mine, other in pairs if mine != other for k in range(len(mine)) if mine[k] != other[k]})


def main():
    czi, folder = sys.argv[1:3]
    files = Files(czi, Path(sys.argv[3]) if sys.argv[3:] else None)
    if not files.exiftool:
        print("compare-real: exiftool is not installed: header and XML are skipped")
    for path in sorted(Path(folder).glob("*.czi")):
        print("%s: %s" % (path.name, files.one(path)), flush=True)
    f = files
    print("compare-real: %d files, %d accepted, %d refused; %d planes, %d pixels, %d given by a tile, %d differ, "
          "%d differ where M does not decide; %d headers and %d XML of exiftool; %d files with a difference"
          % (f.files, f.accepted, f.files - f.accepted, f.planes, f.pixels, f.given, f.differ, f.undecided, f.headers,
             f.texts, f.failed))
    return 1 if f.failed or not f.files else 0


if __name__ == "__main__":
    sys.exit(main())
