"""Compares the planes of the command czi with those of OpenSlide.

    python3 planes.py FOLDER [--store TO]
    python3 planes.py --probes FOLDER ANSWERS
    python3 planes.py --repacked FOLDER

FOLDER has cases.txt as host/openslide/make writes it and, of each case, OpenSlide's answer NAME.argb and the
command's plane NAME.plane and map NAME.pbm. Every pixel is compared: whether a tile gave it, and its three
channels; of 16-bit channels OpenSlide gives the high byte. Exits 1 where a pixel differs. With --store
OpenSlide's planes go to TO as NAME.raw, three bytes a pixel, and NAME.pbm.

With --probes it says of each file what the command judged (NAME.judged) and what OpenSlide answered, and where
both gave a plane of 26 by 16, how they differ.

With --repacked it compares what OpenSlide answered of the files FOLDER/NAME.czi (in FOLDER/answers, with NAME.argb)
and of the repacked ones (in FOLDER/repacked, with what the command said of each in NAME.said): every pixel, colour and
alpha. It says where OpenSlide does not answer the same. Exits 1 where a pixel or the size differs, where OpenSlide
reads the old file and not the new one, and where a repack is refused.
"""
import sys
from pathlib import Path


def outside(argb, width, height):
    """OpenSlide's plane as three bytes a pixel, and its map with a byte 1 or 0 for a pixel."""
    if len(argb) != 4 * width * height:
        sys.exit("OpenSlide's plane has another size")
    alpha = argb[3::4]
    if set(alpha) - {0, 255}:
        sys.exit("OpenSlide's plane has half-transparent pixels")
    for n in range(3):
        if any(value and not opaque for value, opaque in zip(argb[n::4], alpha)):
            sys.exit("OpenSlide's plane has colour where no tile is")
    plane = bytearray(3 * width * height)
    for n in range(3):
        plane[n::3] = argb[n::4]
    return bytes(plane), bytes(a & 1 for a in alpha)


def picture(covered, width, height):
    """The map as the command writes it."""
    lines = b"P4\n%d %d\n" % (width, height)
    for y in range(height):
        bits = "".join(map(str, covered[y * width:(y + 1) * width]))
        bits += "0" * (-width % 8)
        lines += int(bits, 2).to_bytes(len(bits) // 8, "big")
    return lines


def differing(one, other, one_map, other_map):
    """The numbers of the pixels that differ."""
    if one == other and one_map == other_map:
        return []
    return [k for k in range(len(one_map))
            if one[3 * k:3 * k + 3] != other[3 * k:3 * k + 3] or one_map[k] != other_map[k]]


def inside(folder, name, kind, width, height):
    """The command's plane as three bytes a pixel, and its map with a byte 1 or 0 for a pixel."""
    plane = (folder / (name + ".plane")).read_bytes()
    plane = plane[1::2] if kind == "bgr48" else plane
    head = b"P4\n%d %d\n" % (width, height)
    lines = (folder / (name + ".pbm")).read_bytes()
    if len(plane) != 3 * width * height or not lines.startswith(head):
        sys.exit("%s: the command's plane has another size" % name)
    lines, stride = lines[len(head):], (width + 7) // 8
    bits = ("".join(format(b, "08b") for b in lines[y * stride:(y + 1) * stride])[:width] for y in range(height))
    return plane, bytes(map(int, "".join(bits)))


def compare(folder, store):
    files = pixels = given = differ = 0
    for line in (folder / "cases.txt").read_text().splitlines():
        name, kind = line.split()[:2]
        width, height = map(int, line.split()[4:])
        answer = folder / (name + ".argb")
        if not answer.exists():
            sys.exit("%s: OpenSlide gave no plane" % name)
        theirs, their_map = outside(answer.read_bytes(), width, height)
        ours, our_map = inside(folder, name, kind, width, height)
        count = len(differing(ours, theirs, our_map, their_map))
        if count:
            print("%s: %d of %d pixels differ" % (name, count, width * height))
        if store:
            (store / (name + ".raw")).write_bytes(theirs)
            (store / (name + ".pbm")).write_bytes(picture(their_map, width, height))
        files, pixels, given, differ = files + 1, pixels + width * height, given + sum(our_map), differ + count
    print("%d mosaics, %d pixels, %d of them given by a tile; %d differ" % (files, pixels, given, differ))
    return 1 if differ or not files else 0


def where(differ, width):
    """In words. The two tiles of a probe overlap in columns 10 to 15 and rows 4 to 11."""
    overlap = {y * width + x for y in range(4, 12) for x in range(10, 16)}
    if not differ:
        return "the same plane"
    if set(differ) == overlap:
        return "the other tile on top in the overlap, the rest the same"
    return "%d pixels differ" % len(differ)


def probes(folder, answers):
    for line in answers.read_text().splitlines():
        name = line.replace(":", " ").split()[0]
        said = (folder / (name + ".judged")).read_text().strip()
        answer = folder / (name + ".argb")
        if not answer.exists():
            theirs = line.split(": ", 1)[1]
        else:
            width, height = map(int, line.split()[1:])
            theirs = "%d x %d" % (width, height)
            if (folder / (name + ".plane")).exists() and (width, height) == (26, 16):
                kind = "bgr48" if name == "type_4" else "bgr24"
                ours, our_map = inside(folder, name, kind, width, height)
                plane, covered = outside(answer.read_bytes(), width, height)
                differ = differing(ours, plane, our_map, covered)
                theirs += ", %s" % where(differ, width)
        print("%-26s czi: %s; OpenSlide: %s" % (name, said, theirs))
    return 0


def answers_in(folder):
    """What OpenSlide answered of each file, by name: WIDTH HEIGHT or why not."""
    lines = (folder / "answers").read_text().splitlines()
    return dict(line.split(": ", 1) if ": " in line else line.split(" ", 1) for line in lines)


def repacked(folder):
    new = folder / "repacked"
    old_answers, new_answers = answers_in(folder), answers_in(new)
    files = carried = dropped = before = after = read = pixels = given = differ = unread = wrong = 0
    for path in sorted(folder.glob("*.czi")):
        name = path.stem
        if not (new / path.name).exists():
            print("%s: the repack is refused: %s" % (name, (new / (name + ".said")).read_text().strip()))
            wrong += 1
            continue
        said = dict(line.split("=", 1) for line in (new / (name + ".said")).read_text().splitlines() if "=" in line)
        files, dropped = files + 1, dropped + int(said["segments_dropped"])
        carried += said["segments_dropped"] != "0"
        before, after = before + path.stat().st_size, after + (new / path.name).stat().st_size
        old_plane, new_plane = folder / (name + ".argb"), new / (name + ".argb")
        if old_answers[name] != new_answers[name]:
            print("%s: OpenSlide's answer of the old file: %s; of the new one: %s"
                  % (name, old_answers[name], new_answers[name]))
        if not old_plane.exists():
            unread += 1
        elif old_answers[name] != new_answers[name] or not new_plane.exists():
            wrong += 1
        else:
            one, other = old_plane.read_bytes(), new_plane.read_bytes()
            width, height = map(int, old_answers[name].split())
            if len(one) != 4 * width * height or len(other) != len(one):
                sys.exit("%s: OpenSlide's plane has another size" % name)
            count = 0 if one == other else sum(one[k:k + 4] != other[k:k + 4] for k in range(0, len(one), 4))
            if count:
                print("%s: %d of %d pixels differ in the new file" % (name, count, width * height))
            read, pixels, differ = read + 1, pixels + width * height, differ + count
            given += width * height - one[3::4].count(0)
    print("%d repacked, %d of them with dead segments; %d dead segments, %d bytes before, %d after"
          % (files, carried, dropped, before, after))
    print("%d that OpenSlide reads, %d it does not; %d pixels, %d of them given by a tile; %d differ"
          % (read, unread, pixels, given, differ))
    return 1 if differ or wrong or not read else 0


def main():
    words = sys.argv[1:]
    if words[0] == "--repacked":
        return repacked(Path(words[1]))
    if words[0] == "--probes":
        return probes(Path(words[1]), Path(words[2]))
    return compare(Path(words[0]), Path(words[2]) if words[1:2] == ["--store"] else None)


if __name__ == "__main__":
    sys.exit(main())
