"""The items of the bench: the work of each, for boxglue and for its peers. docs/SPEED.md has the
results.

An item has cases, and a case is one run of boxglue, mostly beside runs of other programs on the
same work."""

import os
import subprocess

import inputs

CMR10 = "/usr/share/texlive/texmf-dist/fonts/tfm/public/cm/cmr10.tfm"
PACKAGES = {
    **dict.fromkeys(("tex", "dvitype", "pdftex", "luatex"), "texlive-binaries"),
    "dvipng": "dvipng",
    "groff": "groff",
    "floor": "gcc",
}
HERE = os.path.dirname(os.path.abspath(__file__))
FLAGS = "-std=c99 -O2 -Wall -Wextra -Wpedantic -Werror".split()
PLACES = 80000
WIDTHS = (("345pt", 100), ("345pt", -1), ("1500pt", 100))
LENGTHS = (100, 250, 500, 1000, 2000, 4000, 8000)


class Peer:
    """A run of another program on the work of a case: its name in tables, and its words."""

    def __init__(self, name, *words):
        self.name, self.words = name, list(words)


class Case:
    """A run of boxglue with these words, this standard input and the file that it writes, if any;
    its peers; the unit that it is counted in; whether it is a large one, which is run once and
    whose output is not kept; and the status that boxglue ends with.
    """

    def __init__(
        self,
        name,
        words,
        stdin="/dev/null",
        out=None,
        peers=(),
        unit=None,
        units=1,
        large=False,
        status=0,
    ):
        self.name, self.words, self.stdin, self.out, self.peers = (
            name,
            words,
            stdin,
            out,
            list(peers),
        )
        self.unit, self.units, self.large, self.status = unit, units, large, status


class Work:
    """The inputs of all items, in a folder. `program` writes the DVI files that other items read.
    `more` names the peers that are there beside the first ones."""

    def __init__(self, program, folder, more=()):
        self.program, self.folder, self.more = os.path.abspath(program), folder, more

    def put(self, name, content):
        path = os.path.join(self.folder, name)
        if not os.path.exists(path):
            with open(path, "wb") as file:
                file.write(content if isinstance(content, bytes) else content.encode())
        return path

    def typeset(self, name, script, *fonts, **more):
        """A case of `typeset`; with `tex` the text that TeX sets beside it."""
        tex = more.pop("tex", None)
        if tex:
            self.put(name + ".tex", tex)
            more["peers"] = [Peer("tex", "tex", name + ".tex")]
        return Case(
            name, ["typeset", "out.dvi", *fonts], self.put(name + ".box", script), "out.dvi", **more
        )

    def made(self, out, case):
        """The DVI file that this case writes, once."""
        if not os.path.exists(os.path.join(self.folder, out)):
            words = ["typeset", out, *case.words[2:]]
            with open(case.stdin) as file:
                subprocess.run(
                    [self.program, *words],
                    cwd=self.folder,
                    stdin=file,
                    stdout=subprocess.DEVNULL,
                    check=True,
                )
        return out

    def there(self, *peers):
        """Those of these peers that are there. What a floor needs is built."""
        found = [it for it in peers if it.name in self.more]
        for it in found:
            if it.name == "floor":
                self.build(it.words[0])
        return found

    def build(self, floor: str) -> None:
        """Builds a program of bench/floor in the folder, once."""
        out = os.path.join(self.folder, floor)
        if not os.path.exists(out):
            subprocess.run(
                [
                    "cc",
                    *FLAGS,
                    "-o",
                    out,
                    os.path.join(HERE, "floor", os.path.basename(floor) + ".c"),
                ],
                check=True,
            )

    def book(self, tolerance):
        box, tex, words, _ = inputs.book(tolerance)
        case = self.typeset(
            "paragraphs_%d" % tolerance, box, "cmr10=" + CMR10, tex=tex, unit="word", units=words
        )
        text, script = case.name + ".tex", case.name + ".box"
        if tolerance == 200:
            troff = self.put("book.roff", inputs.troff_book())
            case.peers += self.there(
                Peer("pdftex", "pdftex", "-output-format=dvi", text),
                Peer("luatex", "luatex", "--output-format=dvi", text),
                Peer("groff", "groff", "-Tdvi", troff),
            )
        case.peers += self.there(Peer("floor", "./paragraphs", script, CMR10, "out.dvi"))
        return case

    def paragraphs(self):
        """2,000 paragraphs in cmr10, 280 pages by vsplit, at two tolerances."""
        yield self.book(200)
        yield self.book(10000)

    def places(self):
        """Paragraphs of few and of many legal places, at tolerance 10000."""
        for width, pretolerance in WIDTHS:
            for count in LENGTHS:
                box, tex = inputs.places(count, width, PLACES, 10000, pretolerance)
                name = "places_%s_%d_%d" % (width, pretolerance, count)
                yield self.typeset(
                    name,
                    box,
                    "cmr10=" + CMR10,
                    tex=tex,
                    unit="place",
                    units=PLACES // count * count,
                )

    def list(self):
        """`list` of the file that `paragraphs` writes."""
        out = self.made("book.dvi", self.book(200))
        peers = [
            Peer("dvitype", "dvitype", "-output-level=4", out),
            *self.there(Peer("floor", "./list", out, CMR10)),
        ]
        yield Case("list", ["list", out, "cmr10=" + CMR10], peers=peers)

    def paint(self):
        """4,000 rules on a page of A4 at 300 dpi."""
        out = self.made("rules.dvi", self.typeset("rules", inputs.many_rules(4000)))
        words = ["paint", "--page", "1", "--dpi", "300", "--width", "2480", "--height", "3508", out]
        yield Case(
            "paint",
            words,
            peers=[
                Peer("dvipng", "dvipng", "-D", "300", "-T", "210mm,297mm", "-o", "rules.png", out)
            ],
        )

    def short_lines(self):
        """Scripts of short lines: boxes of two rules each, and no page."""
        for count in (1000, 10000, 100000, 1000000):
            yield self.typeset(
                "short_lines_%d" % count, inputs.small_boxes(count), unit="line", units=count
            )

    def start(self):
        """An empty script."""
        yield self.typeset("start", "")

    def fonts(self):
        """A metric file of 40,000 bytes, read into one slot and into 201."""
        self.put("big.tfm", inputs.metric_file())
        for count in (1, 201):
            script = "".join("font %d big\n" % slot for slot in range(count))
            yield self.typeset(
                "fonts_%d" % count, script, "big=big.tfm", unit="reading", units=count
            )

    def pages_of_fonts(self, name, pages, loaded, **more):
        """Pages of one line, each in two of these loaded fonts."""
        for number in range(loaded):
            self.put(inputs.font_name(number) + ".tfm", inputs.small_metric_file(number))
        box, tex = inputs.pages_of_fonts(pages, loaded)
        fonts = ["%s=%s.tfm" % (font, font) for font in map(inputs.font_name, range(loaded))]
        return self.typeset(name, box, *fonts, tex=tex, unit="page", units=pages, **more)

    def many_fonts(self):
        """4,000 pages of which each uses two of 256 loaded fonts, and the same with these fonts
        alone loaded."""
        for loaded in (2, 256):
            yield self.pages_of_fonts("many_fonts_%d" % loaded, 4000, loaded)

    def small_pages(self):
        """Boxes of one rule, each shipped as a page or made void."""
        for last in ("ship", "void"):
            for count in (6000, 60000):
                yield self.typeset(
                    "small_pages_%s_%d" % (last, count),
                    inputs.small_pages(count, last),
                    unit="page",
                    units=count,
                )

    def large_pages(self):
        """10,000 and 60,000 pages of one line, with 2 and with 256 fonts loaded."""
        for loaded in (2, 256):
            for pages in (10000, 60000):
                yield self.pages_of_fonts(
                    "large_pages_%d_%d" % (loaded, pages), pages, loaded, large=True
                )

    def large_script(self):
        """Scripts of short lines, as short_lines, of up to 10,000,000 lines."""
        for count in (100000, 1000000, 10000000):
            yield self.typeset(
                "large_script_%d" % count,
                inputs.small_boxes(count),
                unit="line",
                units=count,
                large=True,
            )

    def large_list(self):
        """`list` of the file that `paragraphs` writes, of 1.4 MB, and of files of 14 and 140 MB
        with its pages again and again."""
        with open(os.path.join(self.folder, self.made("book.dvi", self.book(200))), "rb") as file:
            dvi = file.read()
        for megabytes, times in ((1, 0), (14, 9), (140, 101)):
            content = inputs.repeated_pages(dvi, times)
            out = os.path.basename(self.put("book_%d.dvi" % megabytes, content))
            peers = [Peer("dvitype", "dvitype", "-output-level=4", out)]
            yield Case(
                "large_list_%d" % megabytes,
                ["list", out, "cmr10=" + CMR10],
                peers=peers,
                unit="byte",
                units=len(content),
                large=True,
            )

    def of_first_lines(self, *counts, **more):
        for count in counts:
            yield self.typeset(
                "first_lines_%d" % count,
                inputs.first_lines(count),
                unit="place",
                units=count,
                **more,
            )

    def first_lines(self):
        """A paragraph that would fit into one line, with firstlines 32."""
        return self.of_first_lines(500, 1000, 2000)

    def of_splits(self, *counts, **more):
        for name, falls in (("same", False), ("falling", True)):
            for count in counts:
                yield self.typeset(
                    "splits_%s_%d" % (name, count),
                    inputs.splits(count, falls),
                    unit="split",
                    units=count,
                    **more,
                )

    def splits(self):
        """A box of rules that is split as often, with rules of the same width and of widths that
        fall."""
        return self.of_splits(1000, 2000, 4000)

    def of_long_text(self, *megabytes, **more):
        self.put("face.tfm", inputs.flat_metric_file())
        for size in megabytes:
            script = inputs.long_text(size * 10**6)
            yield self.typeset(
                "long_text_%d" % size,
                script,
                "face=face.tfm",
                unit="byte",
                units=size * 10**6,
                status=1,
                **more,
            )

    def long_text(self):
        """One line of text of this many megabytes, which no list can hold, so it is refused."""
        return self.of_long_text(1, 2, 4)

    def of_many_glyphs(self, *megabytes, **more):
        self.put("face.tfm", inputs.flat_metric_file())
        for size in megabytes:
            out = os.path.basename(
                self.put("glyphs_%d.dvi" % size, inputs.many_glyphs(size * 10**6))
            )
            words = [
                "paint",
                "--page",
                "1",
                "--dpi",
                "72",
                "--width",
                "100",
                "--height",
                "100",
                out,
                "face=face.tfm",
            ]
            yield Case("many_glyphs_%d" % size, words, unit="glyph", units=size * 10**6, **more)

    def many_glyphs(self):
        """`paint` of a page of this many million glyphs."""
        return self.of_many_glyphs(1, 2, 4)

    def of_many_numbers(self, *counts, **more):
        self.put("face.tfm", inputs.flat_metric_file())
        for count in counts:
            out = os.path.basename(self.put("numbers_%d.dvi" % count, inputs.many_numbers(count)))
            yield Case(
                "many_numbers_%d" % count,
                ["list", out, "face=face.tfm"],
                unit="number",
                units=count,
                **more,
            )

    def many_numbers(self):
        """`list` of a page that has one font under this many numbers, and a glyph by each."""
        return self.of_many_numbers(2500, 5000, 10000)

    def large_worst(self):
        """The worst inputs of the last five items, at larger sizes."""
        yield from self.of_first_lines(4000, 8190, large=True)
        yield from self.of_splits(8000, 16000, large=True)
        yield from self.of_long_text(25, 50, 100, large=True)
        yield from self.of_many_glyphs(12, 25, 50, large=True)
        yield from self.of_many_numbers(40000, 80000, 160000, large=True)


WORST = ("first_lines", "splits", "long_text", "many_glyphs", "many_numbers")
ITEMS = (
    "paragraphs",
    "places",
    "list",
    "paint",
    "short_lines",
    "start",
    "fonts",
    "many_fonts",
    "small_pages",
    *WORST,
)
LARGE = ("large_pages", "large_script", "large_list", "large_worst")
