"""Which metadata of a sub-block declare a chunk container: the package against host/reading.py, and both against what is said here."""

import random
import struct
import sys
import unittest

import czi
from stored import HOST
from test_samples import refusal_of

sys.path.append(str(HOST))
from reading import declares_container

MARKER = b"<DataFormat>CHUNKCONTAINER</DataFormat>"
SECTION = b"<METADATA><AttachmentSchema>" + MARKER + b"</AttachmentSchema></METADATA>"
METADATA_AT = 128 + 32 + 224 + 32 + 256

# What may stand beside the section, and what spoils it.
READ = [
    b"", b"text", b">", b"]]> --> ?>", b"\"'&=", b"\0\x0b\xFF", b"<a/>", b"<a ></a\n>", b"<a b=/>", b"<a/ ></a>", b"<a/b></a>",
    b"<a b=\"/\"></a>", b"<a b='<>\"'/>", b"<a \">'\"></a>", b"<a\"b></a\"b>", b"<a=></a=>", b"<\0\x0b\x0c/>", b"<a!/>",
    b"<!---->", b"<!-->-->", b"<!-- -- < -->", b"<??>", b"<?>?>", b"<? < > ?>", b"<![CDATA[]]>", b"<![CDATA[>]]]>",
    b"<![CDATA[</a>]]>", b"<a><a></a></a>", b"<METADATA/>", b"<a>" * 62 + b"<a/>" + b"</a>" * 62,
]
SPOILT = [
    b"<", b"< a/>", b"<>", b"</>", b"</a>", b"<a>", b"<a></b>", b"<a></A>", b"<a><b></a></b>", b"<a></a/>", b"<a></a b>", b"<a></ a>",
    b"<a/></a>", b"<a b=/></a>", b"<a/ >", b"<a b=\"/\">", b"<a<b/>", b"<a <b/>", b"<a b=\"c\"</a>", b"<a b='", b"<a b=\"'>", b"<a",
    b"<a></a", b"<!a/>", b"<!>", b"<!DOCTYPE a>", b"<!- -->", b"<!--", b"<!-->", b"<!--->", b"<?", b"<?>", b"<?a></?a>", b"</?a>",
    b"<![CDATA[", b"<![CDATA[]]", b"<![cdata[]]>", b"<![CDATA]]>", b"<a>" * 65 + b"</a>" * 65, b"<a>" * 63 + b"</a>" * 63 + b"<",
]
# The section with a fault of its own, or elsewhere.
OTHERS = [
    b"", MARKER, b"<METADATA>" + MARKER + b"</METADATA>", b"<a>" + SECTION + b"</a>", b"<!--" + SECTION + b"-->",
    b"<![CDATA[" + SECTION + b"]]>", b"<a b='" + SECTION + b"'/>", SECTION[:-1], SECTION[1:], SECTION.replace(b"CHUNK", b" CHUNK"),
    SECTION.replace(b"CHUNKCONTAINER", b"<![CDATA[CHUNKCONTAINER]]>"), SECTION.replace(b"CHUNK", b"<!---->CHUNK"),
    SECTION.replace(b"METADATA", b"Metadata"), SECTION.replace(b"DataFormat", b"dataFormat"), SECTION.replace(b"DataFormat", b"DataFormat\0"),
    SECTION.replace(b"<DataFormat>", b"<DataFormat/>"), SECTION.replace(b"<METADATA>", b"<METADATA/>"),
]
TOKENS = ([b"<", b"</", b"/>", b">", b"a", b"METADATA", b"AttachmentSchema", b"DataFormat", b"CHUNKCONTAINER", b'"', b"'", b"=", b"/", b" ",
           b"\t", b"\n", b"\r", b"\x0b", b"-->", b"--", b"->", b"?>", b"?", b"]]>", b"]]", b"]>", b"]"]
          + [opener[:n] for opener in (b"<!--", b"<?", b"<![CDATA[") for n in range(2, len(opener) + 1)])
NEAR = [b"<", b"METADATA", b">", b"<", b"AttachmentSchema", b">", b"<", b"DataFormat", b">", b"CHUNKCONTAINER", b"</", b"DataFormat", b">",
        b"</", b"AttachmentSchema", b">", b"</", b"METADATA", b">"]


def segment(name, room):
    allocated = -(-len(room) // 32) * 32
    return struct.pack("<16sqq", name, allocated, len(room)) + room.ljust(allocated, b"\0")


def one_tile(metadata, attachment=bytes(7)):
    """A file of one tile, whose attachment is no row of chunks."""
    entry = struct.pack("<2siq14xi", b"DV", 0, 128 + 32 + 224, 2)
    entry += b"".join(struct.pack("<4sii4xi", letter, 0, 1, 0) for letter in (b"X", b"Y"))
    fixed = struct.pack("<iiq", len(metadata), len(attachment), 1) + entry
    file = segment(b"ZISRAWFILE", struct.pack("<i48xq36x", 1, 128))
    file += segment(b"ZISRAWDIRECTORY", struct.pack("<i124x", 1) + entry)
    return file + segment(b"ZISRAWSUBBLOCK", fixed.ljust(256, b"\0") + metadata + b">" + attachment)


def drawn(draw):
    """A section with up to three tokens put in, taken out or exchanged."""
    tokens = list(NEAR)
    for _ in range(draw.randrange(4)):
        at = draw.randrange(len(tokens))
        tokens[at:at + draw.randrange(2)] = [draw.choice(TOKENS)] * draw.randrange(2)
        tokens = tokens or [b"<"]
    return b"".join(tokens)


class Metadata(unittest.TestCase):
    def check(self, metadata, declares):
        self.assertEqual(declares_container(metadata), declares, metadata)
        wanted = (17, METADATA_AT + len(metadata) + 1) if declares else None
        self.assertEqual(refusal_of(czi.judge, one_tile(metadata)), wanted, metadata)
        self.assertIsNone(refusal_of(czi.judge, one_tile(metadata), release="1.02"), metadata)

    def test_what_stands_beside_the_section(self):
        places = [0, 10, 28, 67, 86, 97]
        for content, declares in [(part, True) for part in READ] + [(part, False) for part in SPOILT]:
            for at in places:
                self.check(SECTION[:at] + content + SECTION[at:], declares)

    def test_the_section_itself(self):
        for metadata in OTHERS:
            self.check(metadata, False)
        for name in (b"METADATA", b"AttachmentSchema", b"DataFormat"):
            for rest in (b" ", b"\t\r\n", b" a='>'", b"/ ", b"/a", b" a=\"/\""):
                self.check(SECTION.replace(b"<" + name, b"<" + name + rest), True)
            for rest in (b"\x0b", b"\x0c", b"/", b" <", b" a='"):
                self.check(SECTION.replace(b"<" + name, b"<" + name + rest), False)

    def test_a_mask_is_there_where_the_metadata_declare_it(self):
        mask = bytes.fromhex("67EAE3CBFC5B2B49A16AECE378031448") + struct.pack("<i4iB", 17, 1, 1, 0, 1, 0)
        self.assertEqual(czi.compose(one_tile(SECTION, mask), masks=True).covered, 0)
        self.assertEqual(czi.compose(one_tile(MARKER, mask), masks=True).covered, 1)
        self.assertEqual(czi.compose(one_tile(SECTION, mask), masks=True, release="1.02").covered, 1)

    def test_drawn_tokens(self):
        draw, declared = random.Random(1), 0
        for _ in range(5000):
            metadata = drawn(draw)
            declares = declares_container(metadata)
            self.check(metadata, declares)
            declared += declares
        self.assertGreater(declared, 1000)


if __name__ == "__main__":
    unittest.main()
