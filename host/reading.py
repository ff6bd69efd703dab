"""The listing of papers 01 and 02, planes, the settings and sheet of a quote, and the clean file of a repack, read straight
from their text and apart from the crates.

As a program it lists standard input, by release 1.2 or by the one that is named: 1.02. It is plain on purpose: the papers'
sentences in their order. With the word settings it reads the lines of `selfcheck --settings N` and says where it reads
settings otherwise, with the word repacks those of `selfcheck --repacks N`, where it writes another clean file, with the word
planes those of `selfcheck --planes N`, where it composes another plane.
"""
import mmap
import re
import struct
import sys
import tempfile
from decimal import Decimal

NAMES = [b"ZISRAWFILE", b"ZISRAWDIRECTORY", b"ZISRAWSUBBLOCK", b"ZISRAWMETADATA", b"ZISRAWATTACH",
         b"ZISRAWATTDIR", b"DELETED"]
FILE, DIRECTORY, SUBBLOCK, METADATA, ATTACH, ATTDIR, DELETED = NAMES
BYTES_A_PIXEL = {0: 1, 1: 2, 2: 4, 3: 3, 4: 6, 8: 12, 9: 4, 10: 8, 11: 24}
MASK = bytes.fromhex("67EAE3CBFC5B2B49A16AECE378031448")
HEADER = 32

# What metadata consist of, by paper 02, Req 01; no two of these begin alike. A name is taken whole, since what ends it
# must follow.
NAME = rb"([^\t\n\r />!<][^\t\n\r /><]*)(?=[\t\n\r />])"
TEXT = re.compile(rb"[^<]+")
SKIPPED = re.compile(rb"<!--.*?-->|<\?.*?\?>|<!\[CDATA\[.*?\]\]>", re.DOTALL)
START_TAG = re.compile(rb"<(?!\?)" + NAME + rb"""(?:[^"'<>]|"[^"]*"|'[^']*')*>""")
END_TAG = re.compile(rb"</" + NAME + rb"[\t\n\r ]*>")
SECTION = [b"METADATA", b"AttachmentSchema", b"DataFormat"]


def declares_container(metadata):
    """Is the attachment of a sub-block with that metadata a chunk container?"""
    declares, open_tags, behind, at = False, [], 0, 0
    while at < len(metadata):
        start = START_TAG.match(metadata, at)
        end = END_TAG.match(metadata, at)
        part = start or end or TEXT.match(metadata, at) or SKIPPED.match(metadata, at)
        if part is None:
            return False
        if start and not start[0].endswith(b"/>"):
            open_tags.append(start[1])
            behind = part.end()
            if len(open_tags) > 64:
                return False
        if end:
            if open_tags == SECTION and metadata[behind:at] == b"CHUNKCONTAINER":
                declares = True
            if open_tags[-1:] != [end[1]]:
                return False
            open_tags.pop()
        at = part.end()
    return declares and not open_tags


class Refused(Exception):
    def __init__(self, number, place):
        super().__init__(number, place)
        self.number, self.place = number, place


def refuse(given, number, place):
    if given:
        raise Refused(number, place)


class Segment:
    def __init__(self, name, at, allocated, used):
        self.name, self.at, self.body = name, at, at + HEADER
        self.room = used if used != 0 else allocated


class Tile:
    """A tile as its entry and its sub-block say: the entry's place, the type, the dimensions by letter, the letter that has
    layers or None, the pixels as (start, length), the mask or None."""

    def __init__(self, at, pixel_type, dimensions, layers, pixels, mask):
        self.at, self.type, self.dimensions, self.layers = at, pixel_type, dimensions, layers
        self.pixels, self.mask = pixels, mask
        self.x, self.y = dimensions[b"X"], dimensions[b"Y"]
        self.is_whole = self.x[1] == self.x[2] and self.y[1] == self.y[2]

    def layer(self, starts, any_scene):
        """The number of the layer that is asked for, 0 where there is one alone; None where the tile is not selected."""
        layer = 0
        for number, letter in enumerate(b"ABCDEFGHIJKLMNOPQRSTUVWXYZ"):
            letter = bytes([letter])
            if letter in b"XYM" or letter == b"S" and any_scene:
                continue
            start, size, _ = self.dimensions.get(letter, (0, 1, 1))
            past = (starts[number] if number < len(starts) else 0) - start
            if not 0 <= past < size:
                return None
            layer += past
        return layer if self.is_whole else None

    def is_valid(self, file, column, row):
        """Is the pixel valid by the mask, which serves each layer?"""
        if self.mask is None:
            return True
        lines, width, height, stride = self.mask
        return column < width and row < height and file[lines + row * stride + column // 8] >> 7 - column % 8 & 1 == 1


RELEASES = ["1.2", "1.02"]


class Reading:
    """One file's reading by a release. Raises Refused, or holds the figures of the listing."""

    def __init__(self, file, release="1.2"):
        if release not in RELEASES:
            raise ValueError(f"there is no release {release!r}")
        self.file, self.release = file, release
        self.segments = {}  # by position
        self.tiles = []
        self.attachments = 0
        # For a repack: of each entry DV its bytes, F, the sizes of its parts and where these begin; of the metadata segment
        # both sizes and where the XML begins; of each entry A1 its bytes, the size of its data and where they begin.
        self.blocks, self.common, self.listed = [], None, None
        self.walk()
        directory, metadata, attachments = self.file_segment()
        self.directory(directory)
        if metadata is not None:
            self.metadata(metadata)
        if attachments is not None:
            self.attachment_directory(attachments)

    def int(self, at):
        return struct.unpack_from("<i", self.file, at)[0]

    def long(self, at):
        return struct.unpack_from("<q", self.file, at)[0]

    def named(self, position, name):
        """The walked segment of that kind at that position, or None."""
        segment = self.segments.get(position)
        return segment if segment is not None and segment.name == name else None

    def walk(self):
        length = len(self.file)
        refuse(length == 0 or length % 32 != 0 or length > 2**40, 1, 0)
        at = 0
        while at < length:
            refuse(len(self.segments) == 8192, 4, at)
            name = self.file[at:at + 16].rstrip(b"\0")
            refuse(name not in NAMES, 2, at)
            allocated, used = self.long(at + 16), self.long(at + 24)
            refuse(allocated < 0 or allocated % 32 != 0, 3, at)
            refuse(used < 0 or used > allocated, 3, at)
            refuse(at + HEADER + allocated > length, 3, at)
            segment = Segment(name, at, allocated, used)
            refuse((name == FILE) != (at == 0), 5, at)
            refuse(name == FILE and segment.room < 80, 5, at)
            self.segments[at] = segment
            at += HEADER + allocated

    def file_segment(self):
        body = HEADER
        refuse(self.int(body) != 1, 6, 0)
        refuse(self.int(body + 48) != 0, 7, 0)
        refuse(self.int(body + 68) != 0, 8, 0)
        found = []
        for field, name in ((52, DIRECTORY), (60, METADATA), (72, ATTDIR)):
            position = self.long(body + field)
            segment = self.named(position, name)
            none = position == 0 and name != DIRECTORY
            refuse(segment is None and not none, 9, body + field)
            found.append(segment)
        return found

    def directory(self, segment):
        refuse(segment.room < 128, 10, segment.at)
        count = self.int(segment.body)
        refuse(count < 0 or count > 4096, 10, segment.at)
        end = segment.body + segment.room
        at = segment.body + 128
        for _ in range(count):
            refuse(at + 32 > end, 10, segment.at)
            dimensions = self.int(at + 28)
            refuse(self.file[at:at + 2] != b"DV" or not 1 <= dimensions <= 16, 11, at)
            length = 32 + 20 * dimensions
            refuse(at + length > end, 10, segment.at)
            self.entry(at, dimensions, length)
            at += length

    def entry(self, at, count, length):
        dimensions, layers = self.dimensions(at, count)
        x, y = dimensions[b"X"], dimensions[b"Y"]
        pixel_type = self.int(at + 2)
        refuse(pixel_type not in BYTES_A_PIXEL, 12, at)
        refuse(self.int(at + 18) != 0, 13, at)
        refuse(self.int(at + 14) != 0, 7, at)
        block = self.named(self.long(at + 6), SUBBLOCK)
        refuse(block is None, 14, at)
        fixed = max(256, 48 + 20 * count)
        refuse(fixed > block.room, 15, block.at)
        entry, copy = self.file[at:at + length], self.file[block.body + 16:block.body + 16 + length]
        refuse(entry[:23] + entry[28:] != copy[:23] + copy[28:], 15, block.at)
        metadata, attachment, data = self.int(block.body), self.int(block.body + 4), self.long(block.body + 8)
        refuse(metadata < 0 or attachment < 0 or data < 0, 16, block.at)
        refuse(fixed + metadata + data + attachment > block.room, 16, block.at)
        refuse(data != x[2] * y[2] * (dimensions[layers][2] if layers else 1) * BYTES_A_PIXEL[pixel_type], 16, block.at)
        start = block.body + fixed
        self.blocks.append((entry, fixed, (metadata, attachment, data), start))
        pixels, behind, mask = start + metadata, start + metadata + data, None
        # By 02, Req 05, every attachment is plain bytes under 1.02.
        if self.release == "1.2" and declares_container(self.file[start:pixels]):
            mask = self.chunks(behind, behind + attachment)
        self.tiles.append(Tile(at, pixel_type, dimensions, layers, (pixels, data), mask))

    def dimensions(self, at, count):
        """The dimensions of a well formed entry, each as (start, size, stored size) by its letter, and the letter that has layers."""
        seen = {}
        for place in range(at + 32, at + 32 + 20 * count, 20):
            letter = self.file[place:place + 4]
            refuse(not 65 <= letter[0] <= 90 or letter[1:] != b"\0\0\0", 11, at)
            refuse(letter in seen, 11, at)
            start, size, stored = self.int(place + 4), self.int(place + 8), self.int(place + 16)
            refuse(start + size > 2**31 - 1, 11, at)
            refuse(stored < 0, 11, at)
            stored = stored if stored != 0 else size
            if letter[:1] in b"XY":
                refuse(size < 1, 11, at)
            else:
                # By 02, Req 10, a letter but M and S may have layers, up to 1,024.
                refuse(size < 1 or size > (1 if letter[:1] in b"MS" else 1024) or stored != size, 11, at)
            seen[letter] = (start, size, stored)
        seen = {letter[:1]: dimension for letter, dimension in seen.items()}
        # X, then Y, then at most one letter that has layers.
        large = [letter for letter in seen if letter in b"XY" or seen[letter][1] > 1]
        refuse(large[:2] != [b"X", b"Y"] or len(large) > 3, 11, at)
        return seen, (large[2:] or [None])[0]

    def chunks(self, at, end):
        """The mask of a container, as (where its lines begin, width, height, stride), if there is one."""
        mask = None
        while at < end:
            refuse(end - at < 20, 17, at)
            size, payload = self.int(at + 16), at + 20
            refuse(size < 0 or payload + size > end, 17, at)
            if self.file[at:at + 16] == MASK:
                refuse(mask is not None or size < 16, 18, at)
                width, height, representation, stride = struct.unpack_from("<4i", self.file, payload)
                refuse(width < 0 or height < 0 or stride < 0 or representation != 0, 18, at)
                refuse(stride * 8 < width or 16 + stride * height > size, 18, at)
                mask = payload + 16, width, height, stride
            at = payload + size
        return mask

    def metadata(self, segment):
        refuse(segment.room < 256, 10, segment.at)
        xml, attachment = self.int(segment.body), self.int(segment.body + 4)
        refuse(xml < 0 or attachment < 0 or 256 + xml + attachment > segment.room, 10, segment.at)
        self.common = xml, attachment, segment.body + 256

    def attachment_directory(self, segment):
        refuse(segment.room < 256, 10, segment.at)
        count = self.int(segment.body)
        refuse(count < 0 or count > 4096 or 256 + 128 * count > segment.room, 10, segment.at)
        self.listed = []
        for at in range(segment.body + 256, segment.body + 256 + 128 * count, 128):
            entry = self.file[at:at + 128]
            refuse(entry[:2] != b"A1" or 0 not in entry[48:], 11, at)
            refuse(self.int(at + 20) != 0, 7, at)
            attachment = self.named(self.long(at + 12), ATTACH)
            refuse(attachment is None, 14, at)
            refuse(attachment.room < 256, 15, attachment.at)
            refuse(self.file[attachment.body + 16:attachment.body + 144] != entry, 15, attachment.at)
            size = self.int(attachment.body)
            refuse(size < 0 or 256 + size > attachment.room, 16, attachment.at)
            self.listed.append((entry, size, attachment.body + 256))
        self.attachments = count


def listing(file, release="1.2"):
    """The listing's text, as bytes."""
    return b"refused=30\nplace=0\n" if len(file) > 65536 else figures(file, release)


def figures(file, release="1.2"):
    """The same text for a file of any size."""
    try:
        read = Reading(file, release)
    except Refused as r:
        return b"refused=%d\nplace=%d\n" % (r.number, r.place)
    whole = [(tile.x, tile.y) for tile in read.tiles if tile.is_whole]
    box = b"none"
    if whole:
        left, top = min(x[0] for x, y in whole), min(y[0] for x, y in whole)
        right, bottom = max(x[0] + x[1] for x, y in whole), max(y[0] + y[1] for x, y in whole)
        box = b"%d,%d,%d,%d" % (left, top, right, bottom)
    return b"bytes=%d\nsegments=%d\ntiles=%d\nattachments=%d\nbox=%s\n" % (
        len(file), len(read.segments), len(read.tiles), read.attachments, box)


# Planes.

def plane(read, starts, any_scene, pixel_type, background, window, masks):
    """Both counts, the target and the map of a window (left, top, width, height). Raises Refused: 20, 21, 23."""
    left, top, width, height = window
    refuse(not 1 <= width <= 65536 or not 1 <= height <= 65536, 20, 0)
    refuse(left + width > 2**31 - 1 or top + height > 2**31 - 1, 20, 0)
    refuse(BYTES_A_PIXEL.get(pixel_type) != len(background), 21, 0)
    pixel, selected = len(background), []
    for number, tile in enumerate(read.tiles):
        layer = tile.layer(starts, any_scene)
        columns = range(max(left, tile.x[0]), min(left + width, tile.x[0] + tile.x[1]))
        rows = range(max(top, tile.y[0]), min(top + height, tile.y[0] + tile.y[1]))
        if layer is not None and columns and rows:
            refuse(tile.type != pixel_type, 23, tile.at)
            # Tiles without M lie below all with M; at a tie the later entry is on top.
            rank = b"M" in tile.dimensions, tile.dimensions.get(b"M", (0,))[0], number
            selected.append((rank, tile, layer, columns, rows))
    target, given, stored = bytearray(background * (width * height)), [0] * (width * height), 0
    for _, tile, layer, columns, rows in sorted(selected, key=lambda one: one[0]):
        first = tile.pixels[0] + layer * tile.x[1] * tile.y[1] * pixel
        for v in rows:
            for u in columns:
                column, row = u - tile.x[0], v - tile.y[0]
                if masks and not tile.is_valid(read.file, column, row):
                    continue
                at, here = first + (row * tile.x[1] + column) * pixel, (v - top) * width + u - left
                target[here * pixel:here * pixel + pixel] = read.file[at:at + pixel]
                given[here] = 1
                stored += 1
    bits = "".join(map(str, given)) + "0" * (-len(given) % 8)
    return sum(given), stored, bytes(target), int(bits, 2).to_bytes(len(bits) // 8, "big")


def said_of_plane(file, release, question):
    """What a line of `selfcheck --planes` ends with: of each tile its layers and the view of its pixels, then the plane."""
    starts, any_scene, pixel_type, background, *window, masks = question
    starts = [int(start) for start in starts.split(",") if start]
    said = ""
    try:
        read = Reading(file, release)
        for tile in read.tiles:
            start, size, _ = tile.dimensions[tile.layers] if tile.layers else (0, 0, 0)
            letter = tile.layers.decode() if tile.layers else "none"
            said += "layers=%s,%d,%d\npixels=%d,%d\n" % (letter, start, size, *tile.pixels)
        counts = plane(read, starts, any_scene == "true", int(pixel_type), bytes.fromhex(background[2:]),
                       [int(number) for number in window], masks == "On")
        return said + "covered=%d\nstored=%d\ntarget=%s\nmap=%s\n" % (*counts[:2], counts[2].hex(), counts[3].hex())
    except Refused as r:
        return said + "refused=%d\nplace=%d\n" % (r.number, r.place)


def compare_planes(lines):
    """Reads the lines; answers whether all are as they say, and some of each kind: planes of layers, refused files, 23."""
    count, layered, refused, another_type = 0, 0, 0, 0
    for line in lines:
        release, file, *question, said = line.split(" ")
        said = bytes.fromhex(said.strip()[2:]).decode("ascii")
        read = said_of_plane(bytes.fromhex(file[2:]), release, question)
        if read != said:
            print(f"DIFFERENT: plane under {release} for {question}: {read[:600]} instead of {said[:600]}")
            return False
        count += 1
        layered += "covered=" in said and "layers=" in said.replace("layers=none", "")
        refused += said.startswith("refused=")
        another_type += "refused=23" in said
    print(f"planes by a third reading: {count}, of which {layered} of files with layers, {refused} of refused files, "
          f"and {another_type} refused as 23")
    return layered * 3 > count and refused * 50 > count and another_type > 0


# The settings of a quote, Req 09: a pitch in micrometres, and all lines. Of bytes \d is 0 to 9.
PITCH = rb"\d{1,5}(?:\.\d{1,3})?"
SETTINGS = re.compile(rb"edition=([12])\npitch_x=(" + PITCH + rb")\npitch_y=(" + PITCH + rb")\n(?:masks=(on|off)\n)?")


def settings(text):
    """Whether masks are on, and both pitches in nanometres. Raises Refused, 34 or 35."""
    refuse(b"," in text, 34, text.find(b","))
    said = SETTINGS.fullmatch(text)
    refuse(said is None, 35, 0)
    edition, *pitches, masks = said.groups()
    pitches = [int(Decimal(pitch.decode("ascii")) * 1000) for pitch in pitches]
    refuse(not all(1 <= pitch <= 65535 for pitch in pitches), 35, 0)
    return masks == b"on" if masks else edition == b"2", *pitches


def sheet(covered, pitch_x, pitch_y):
    """The text of the sheet, as bytes."""
    return b"covered=%d\narea_nm2=%d\n" % (covered, covered * pitch_x * pitch_y)


def said_of_settings(text, covered):
    """What a line of `selfcheck --settings` ends with."""
    try:
        masks, *pitches = settings(text)
    except Refused as r:
        return b"refused=%d\nplace=%d\n" % (r.number, r.place)
    return (b"masks=On\n" if masks else b"masks=Off\n") + sheet(covered, *pitches)


def compare_settings(lines):
    """Reads the lines; answers whether all are as they say, and at least one in ten sound."""
    count, sound = 0, 0
    for line in lines:
        text, covered, said = line.split()
        text, said = bytes.fromhex(text[2:]), bytes.fromhex(said[2:])
        read = said_of_settings(text, int(covered))
        if read != said:
            print(f"DIFFERENT: settings {text}: {read} instead of {said}")
            return False
        count, sound = count + 1, sound + (not said.startswith(b"refused"))
    print(f"settings by a third reading: {count}, of which {sound} are sound")
    return sound * 10 > count > 0


# The clean file of a repack, Req 04.

def repack(file, release="1.2"):
    """The clean file, as bytes. Raises Refused: the file's own refusals, then 36."""
    read = Reading(file, release)
    sizes, positions, end = lay(read)
    clean = bytearray(end)
    for (name, used), at, content in zip(sizes, positions, contents(file, read, sizes, positions), strict=True):
        struct.pack_into("<16sqq", clean, at, name, allocated(used), used)
        clean[at + HEADER:at + HEADER + len(content)] = content
    return bytes(clean)


def repack_size(file, release="1.2"):
    """How long the clean file is. Raises Refused as well."""
    return lay(Reading(file, release))[-1]


def lay(read):
    """Name and UsedSize of each segment of the clean file, their positions, and its length."""
    sizes = [(FILE, 512), (DIRECTORY, 128 + sum(len(entry) for entry, *_ in read.blocks))]
    sizes += [(SUBBLOCK, fixed + sum(parts)) for _, fixed, parts, _ in read.blocks]
    if read.common is not None:
        sizes.append((METADATA, 256 + read.common[0] + read.common[1]))
    if read.listed is not None:
        sizes.append((ATTDIR, 256 + 128 * len(read.listed)))
        sizes += [(ATTACH, 256 + size) for _, size, _ in read.listed]
    positions, end = [], 0
    for _, used in sizes:
        positions.append(end)
        end += HEADER + allocated(used)
    refuse(len(sizes) > 8192 or end > 2**40, 36, 0)
    return sizes, positions, end


def allocated(used):
    """The smallest multiple of 32 that holds it."""
    return (used + 31) // 32 * 32


def contents(file, read, sizes, positions):
    """The contents in the order of the clean file; what is behind one is zero."""
    def at(name):
        return [position for position, size in zip(positions, sizes) if size[0] == name]

    fields = struct.pack("<4xqqi", *at(DIRECTORY), *(at(METADATA) or [0]), 0), struct.pack("<q", *(at(ATTDIR) or [0]))
    yield file[HEADER:HEADER + 8] + bytes(8) + file[HEADER + 16:HEADER + 48] + b"".join(fields)
    entries = [entry[:6] + struct.pack("<q", position) + entry[14:23] + bytes(5) + entry[28:]
               for (entry, *_), position in zip(read.blocks, at(SUBBLOCK))]
    yield struct.pack("<i124x", len(entries)) + b"".join(entries)
    for entry, (_, fixed, parts, start) in zip(entries, read.blocks):
        yield (struct.pack("<iiq", *parts) + entry).ljust(fixed, b"\0") + file[start:start + sum(parts)]
    if read.common is not None:
        xml, attachment, start = read.common
        yield struct.pack("<ii248x", xml, attachment) + file[start:start + xml + attachment]
    if read.listed is not None:
        entries = [struct.pack("<2s10xq4x", b"A1", position) + entry[24:]
                   for (entry, *_), position in zip(read.listed, at(ATTACH))]
        yield struct.pack("<i252x", len(entries)) + b"".join(entries)
        for entry, (_, size, start) in zip(entries, read.listed):
            yield struct.pack("<i12x", size) + entry + bytes(112) + file[start:start + size]


def said_of_repack(file, release):
    """What a line of `selfcheck --repacks` ends with. A file that is mostly zero bytes stands there as its length and
    what is not zero, each part behind its offset; of its clean file the length is said."""
    try:
        if file.startswith("0x"):
            return repack(bytes.fromhex(file[2:]), release)
        with tempfile.TemporaryFile() as sparse:
            length, *parts = file.split(",")
            sparse.truncate(int(length))
            for at, part in (part.split(":") for part in parts):
                sparse.seek(int(at))
                sparse.write(bytes.fromhex(part))
            sparse.flush()
            with mmap.mmap(sparse.fileno(), 0, access=mmap.ACCESS_READ) as mapped:
                return b"bytes=%d\n" % repack_size(mapped, release)
    except Refused as r:
        return b"refused=%d\nplace=%d\n" % (r.number, r.place)


def compare_repacks(lines):
    """Reads the lines; answers whether all are as they say, over half of them clean files, and some at the limits of 36."""
    count, clean, longest, refused = 0, 0, 0, 0
    for line in lines:
        release, file, said = line.split()
        said, written = bytes.fromhex(said[2:]), said_of_repack(file, release)
        if written != said:
            at = next((n for n, two in enumerate(zip(written, said)) if two[0] != two[1]), min(len(written), len(said)))
            print(f"DIFFERENT: repack under {release} of {file[:60]}: {len(written)} bytes instead of {len(said)}, at {at}: "
                  f"{written[at:at + 24]} instead of {said[at:at + 24]}")
            return False
        count += 1
        clean += said.startswith(FILE)
        longest += said == b"bytes=%d\n" % 2**40
        refused += said == b"refused=36\nplace=0\n"
    print(f"repacks by a third reading: {count}, of which {clean} are clean files, {longest} would have 2^40 bytes, "
          f"and {refused} are refused as 36")
    return clean * 2 > count and longest > 0 and refused > 0


COMPARED = {"settings": compare_settings, "repacks": compare_repacks, "planes": compare_planes}
if __name__ == "__main__" and len(sys.argv) == 2 and sys.argv[1] in COMPARED:
    compare = COMPARED[sys.argv[1]]
    sys.exit(0 if compare(sys.stdin) else 1)
elif __name__ == "__main__":
    sys.stdout.buffer.write(listing(sys.stdin.buffer.read(), *sys.argv[1:2]))
