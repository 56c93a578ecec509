"""Tests of specials for dvipdfmx. What they look like is dvipdfmx's (dvipdfmx.pdf, section 4)."""

import struct
import tempfile
import unittest
import zlib
from pathlib import Path

import boxglue
from boxglue import bp, pdf, pt


def png(width, height):
    """A PNG file of one color."""

    def chunk(kind, data):
        body = kind + data
        return struct.pack(">I", len(data)) + body + struct.pack(">I", zlib.crc32(body))

    head = struct.pack(">IIBBBBB", width, height, 8, 0, 0, 0, 0)
    data = zlib.compress(bytes((width + 1) * height))
    chunks = chunk(b"IHDR", head) + chunk(b"IDAT", data) + chunk(b"IEND", b"")
    return b"\x89PNG\r\n\x1a\n" + chunks


def jpeg(width, height):
    """The head of a JPEG file, with a segment before the one that has the size."""
    frame = struct.pack(">BHHB", 8, height, width, 1) + bytes([1, 0x11, 0])
    segments = [b"\xff\xe0" + struct.pack(">H", 7) + b"JFIF\0"]
    segments += [b"\xff\xc4" + struct.pack(">H", 4) + b"\0\0"]
    segments += [b"\xff\xc0" + struct.pack(">H", 2 + len(frame)) + frame]
    return b"\xff\xd8" + b"".join(segments) + b"\xff\xd9"


class Specials(unittest.TestCase):
    def test_links(self):
        begin = "pdf:bann <</Type/Annot/Subtype/Link/Border[0 0 0]/A<</S/"
        uri = pdf.link("https://example.org/a b(c)\\é")
        self.assertEqual(uri, f"{begin}URI/URI(https://example.org/a%20b%28c%29%5C%C3%A9)>>>>")
        self.assertEqual(pdf.link_to("boxes"), f"{begin}GoTo/D(boxes)>>>>")
        self.assertEqual(pdf.place("boxes"), "pdf:dest (boxes) [@thispage /XYZ @xpos @ypos null]")
        self.assertIn("(b%28%29)", pdf.link_to("b()"))
        self.assertIn("(b%28%29)", pdf.place("b()"))

    def test_scripts_can_have_them(self):
        """Any characters become some that a special can have."""
        name = "".join(map(chr, [*range(256), 0x20AC, 0x1F600]))
        for it in (pdf.link, pdf.link_to, pdf.place, lambda name: pdf.bookmark(1, name, name)):
            self.assertEqual(boxglue.quote(it(name)), it(name))

    def test_bookmarks(self):
        self.assertEqual(pdf.bookmark(1, "Aé"), "pdf:outline 1 <</Title<feff004100e9>>>")
        action = "/A<</S/GoTo/D(a)>>"
        self.assertEqual(pdf.bookmark(2, "", "a"), f"pdf:outline 2 <</Title<feff>{action}>>")

    def test_information(self):
        fields = "/Title<feff0041>/Author<feff0042>"
        self.assertEqual(pdf.information(Title="A", Author="B"), f"pdf:docinfo <<{fields}>>")

    def test_paper(self):
        self.assertEqual(pdf.paper(pt(540), pt(756)), "papersize=540.0pt,756.0pt")

    def test_left_open(self):
        """Links and colours that are open, from the outer one to the inner one."""
        link, blue = pdf.link("a").encode(), b"color push rgb 0 0 1"
        ends = b"color pop", b"pdf:eann"
        self.assertEqual(pdf.left_open([link, blue]), [link, blue])
        self.assertEqual(pdf.left_open([b"color pop"], [link, blue]), [link])
        self.assertEqual(pdf.left_open([link, blue, *ends]), [])
        self.assertEqual(pdf.left_open([*ends, b"other"]), [])
        self.assertEqual(pdf.left_open([b'html:<a href="#b">']), [b'html:<a href="#b">'])
        self.assertEqual([pdf.end_of(it) for it in (link, blue)], ["pdf:eann", "color pop"])
        self.assertIsNone(pdf.end_of(b"pdf:dest"))


class Pictures(unittest.TestCase):
    def setUp(self):
        room = tempfile.TemporaryDirectory()
        self.addCleanup(room.cleanup)
        self.room = Path(room.name)

    def picture(self, name, data, width=pt(300), height=pt(300)):
        """The picture of a file."""
        (self.room / name).write_bytes(data)
        return pdf.picture(self.room / name, width, height)

    def test_sizes(self):
        """It has 96 pixels to an inch, which are 72 big points."""
        for name, data in (("a.png", png(96, 48)), ("a.jpg", jpeg(96, 48))):
            found = self.picture(name, data)
            self.assertEqual((found.width, found.height), (72 * bp(1), 36 * bp(1)))
            size = f"width {boxglue.points(found.width)} height {boxglue.points(found.height)}"
            self.assertEqual(found.special, f"pdf:image {size} ({self.room / name})")

    def test_large_pictures(self):
        """One that does not fit keeps its shape."""
        for width, height in ((pt(50), pt(300)), (pt(300), pt(25))):
            found = self.picture("a.png", png(800, 400), width, height)
            self.assertAlmostEqual(found.width / pt(50), 1, 4)
            self.assertAlmostEqual(found.height / pt(25), 1, 4)

    def test_no_pictures(self):
        """There is none in other files, in none, and in those whose name a special cannot have."""
        for name, data in (("a.txt", b"text"), ("b.png", png(8, 8)[:20]), ("c.jpg", b"\xff\xd8")):
            self.assertIsNone(self.picture(name, data))
        for name in ("a(b.png", "é.png", "a\nb.png", "a\\b.png"):
            self.assertIsNone(self.picture(name, png(8, 8)))
        self.assertIsNone(self.picture("empty.png", png(0, 8)))
        self.assertIsNone(pdf.picture(self.room / "missing.png", pt(1), pt(1)))
        self.assertIsNone(pdf.picture(self.room, pt(1), pt(1)))


if __name__ == "__main__":
    unittest.main()
