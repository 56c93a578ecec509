#!/usr/bin/env python3
"""Draws the charts of docs/SPEED.md from the figures of runs: bench/charts.py [DATA ..] [--out
FOLDER], by default docs/speed.tsv, docs/speed_large.tsv and docs.

  speed_places.svg  microseconds and instructions per place against the length of the paragraph, at
                    both widths, beside tex
  speed_items.svg   bars for each case and each of its peers: time, instructions, cache misses and
                    memory as a ratio to the peer
  speed_memory.svg  the peak memory of small and large cases, beside the peer where there is one

It needs nothing but Python: the charts are written as text."""

import argparse
import html
import math
import os

DOCS = os.path.join(os.path.dirname(os.path.dirname(os.path.abspath(__file__))), "docs")
# The data of the runs that docs/SPEED.md shows.
KNOWN = [os.path.join(DOCS, name) for name in ("speed.tsv", "speed_large.tsv")]
COLOURS = {
    "boxglue": "#0b62a4",
    "tex": "#b5532a",
    "time": "#0b62a4",
    "instructions": "#5a9bd0",
    "cache misses": "#d9a441",
    "memory": "#a9b4bd",
}
RATIOS = (
    ("time", "seconds"),
    ("instructions", "instructions"),
    ("cache misses", "misses"),
    ("memory", "memory"),
)
INK, FAINT, GRID = "#222222", "#666666", "#dddddd"


class Figures:
    """The rows of runs, by case and program."""

    def __init__(self, paths):
        self.notes, self.rows = [], {}
        for path in paths:
            self.add(path)

    def add(self, path):
        """Adds the rows of a run."""
        with open(path) as file:
            lines = file.read().splitlines()
        self.notes += [line[2:] for line in lines if line.startswith("#")]
        lines = [line.split("\t") for line in lines if not line.startswith("#")]
        for line in lines[1:]:
            row = dict(zip(lines[0], line))
            self.rows.setdefault(row["case"], {})[row["program"]] = row

    def each(self, case, program, what):
        """A figure of a program per unit of the case, or None."""
        row = self.rows[case].get(program)
        return float(row[what]) / int(row["units"]) if row and row[what] else None

    def peer(self, case):
        """The row of the peer, or None."""
        return next((it for name, it in self.rows[case].items() if name != "boxglue"), None)

    def ratio(self, case, what, program=None):
        """The figure of boxglue divided by that of a peer, or of its first one, or None."""
        row = self.rows[case]
        peer = row[program] if program else self.peer(case)
        known = (
            peer and peer["program"] != "boxglue" and row["boxglue"].get(what) and peer.get(what)
        )
        return float(row["boxglue"][what]) / float(peer[what]) if known else None


class Svg:
    """A picture that is being drawn."""

    def __init__(self, width, height, title):
        self.parts = [
            '<svg xmlns="http://www.w3.org/2000/svg" width="%d" height="%d" viewBox="0 0 %d %d" font-family="Helvetica, Arial, sans-serif" font-size="12" role="img">'
            % (width, height, width, height),
            "<title>%s</title>" % html.escape(title),
            '<rect width="100%" height="100%" fill="white"/>',
        ]

    def text(self, x, y, words, anchor="start", colour=INK, size=12, weight="normal"):
        self.parts.append(
            '<text x="%.1f" y="%.1f" text-anchor="%s" fill="%s" font-size="%d" font-weight="%s" stroke="white" stroke-width="3" paint-order="stroke">%s</text>'
            % (x, y, anchor, colour, size, weight, html.escape(words))
        )

    def line(self, x1, y1, x2, y2, colour=GRID, width=1, dash=""):
        self.parts.append(
            '<line x1="%.1f" y1="%.1f" x2="%.1f" y2="%.1f" stroke="%s" stroke-width="%g" stroke-dasharray="%s"/>'
            % (x1, y1, x2, y2, colour, width, dash)
        )

    def path(self, points, colour, dash=""):
        self.parts.append(
            '<polyline points="%s" fill="none" stroke="%s" stroke-width="2" stroke-dasharray="%s"/>'
            % (" ".join("%.1f,%.1f" % it for it in points), colour, dash)
        )
        self.parts += [
            '<circle cx="%.1f" cy="%.1f" r="3" fill="%s"/>' % (x, y, colour) for x, y in points
        ]

    def bar(self, x, y, width, height, colour):
        self.parts.append(
            '<rect x="%.1f" y="%.1f" width="%.1f" height="%.1f" fill="%s"/>'
            % (x, y, width, height, colour)
        )

    def write(self, path):
        with open(path, "w") as file:
            file.write("\n".join(self.parts + ["</svg>"]) + "\n")


def steps_to(top):
    """The marks of an axis from 0 to at least `top`, four to eight of them."""
    size = 10 ** math.floor(math.log10(top))
    step = next(size * it for it in (0.2, 0.25, 0.5, 1, 2) if top / (size * it) <= 6)
    return [step * it for it in range(math.ceil(top / step) + 1)]


class Panel:
    """A chart against the length of the paragraph, which is on a logarithmic axis."""

    def __init__(self, svg, left, top, lengths, marks):
        self.svg, self.left, self.top, self.width, self.height = svg, left, top, 300, 180
        self.low, self.high, self.most = math.log(lengths[0]), math.log(lengths[-1]), marks[-1]
        for mark in marks:
            y = self.point(lengths[0], mark)[1]
            svg.line(left, y, left + self.width, y)
            svg.text(left - 6, y + 4, "{:,g}".format(mark), "end", FAINT, 11)
        for length in lengths:
            x = self.point(length, 0)[0]
            svg.line(x, top + self.height, x, top + self.height + 4, FAINT)
            svg.text(x, top + self.height + 17, "{:,}".format(length), "middle", FAINT, 11)

    def point(self, length, value):
        part = (math.log(length) - self.low) / (self.high - self.low)
        return self.left + part * self.width, self.top + self.height * (1 - value / self.most)


def places_of(figures, width, pretolerance):
    start = "places_%s_%d_" % (width, pretolerance)
    return sorted(
        (int(case[len(start) :]), case) for case in figures.rows if case.startswith(start)
    )


def draw_places(figures, out):
    svg = Svg(800, 580, "What a place of a paragraph costs")
    svg.text(
        20,
        26,
        "What a place costs, against the number of places in the paragraph",
        size=15,
        weight="bold",
    )
    for x, name, dash in ((20, "boxglue", ""), (110, "tex", "5 4")):
        svg.path([(x, 44), (x + 26, 44)], COLOURS[name], dash)
        svg.text(x + 34, 48, name)
    kinds = [("seconds", 1e6, "microseconds a place"), ("instructions", 1, "instructions a place")]
    for row, (what, scale, words) in enumerate(kinds):
        for column, (width, pretolerance) in enumerate((("345pt", 100), ("1500pt", 100))):
            cases = places_of(figures, width, pretolerance)
            found = {
                name: [(length, figures.each(case, name, what)) for length, case in cases]
                for name in ("boxglue", "tex")
            }
            if not cases or any(value is None for line in found.values() for _, value in line):
                continue
            left, top = 70 + column * 380, 92 + row * 250
            top_of = max(value * scale for line in found.values() for _, value in line)
            panel = Panel(svg, left, top, [length for length, _ in cases], steps_to(top_of))
            svg.text(left, top - 12, "%s, lines of %s" % (words, width))
            for name, dash in (("tex", "5 4"), ("boxglue", "")):
                svg.path(
                    [panel.point(length, value * scale) for length, value in found[name]],
                    COLOURS[name],
                    dash,
                )
    svg.text(20, 570, figures.notes[0] if figures.notes else "", colour=FAINT, size=10)
    svg.write(os.path.join(out, "speed_places.svg"))


LABELS = (
    ("paragraphs_200", "paragraphs, tolerance 200"),
    ("paragraphs_10000", "paragraphs, tolerance 10000"),
    ("places_345pt_100_100", "places: 345pt, 100"),
    ("places_345pt_100_1000", "places: 345pt, 1,000"),
    ("places_345pt_100_8000", "places: 345pt, 8,000"),
    ("places_1500pt_100_100", "places: 1500pt, 100"),
    ("places_1500pt_100_1000", "places: 1500pt, 1,000"),
    ("places_1500pt_100_8000", "places: 1500pt, 8,000"),
    ("list", "list"),
    ("paint", "paint"),
    ("many_fonts_256", "many_fonts, 256 loaded"),
)


def item_bars(svg, figures_of, kinds, rows, measures):
    """The rows of the chart: each a label and a bar for each kind of figure."""
    left, top, each, wide, most = measures
    for place, (it, label) in enumerate(rows):
        y = top + place * each
        svg.text(left - 10, y + 24, "%s: %s" % (label.replace(":", ","), it[1]), "end")
        for turn, (name, _) in enumerate(kinds):
            value = figures_of[it, name]
            if value is not None:
                long = min(value, most) / most * wide
                svg.bar(left, y + turn * 14, long, 11, COLOURS[name])
                svg.text(left + long + 5, y + turn * 14 + 10, "%.2f" % value, colour=FAINT, size=10)


def draw_items(figures, out):
    rows = [
        ((case, peer), label)
        for case, label in LABELS
        for peer in figures.rows.get(case, ())
        if peer != "boxglue"
    ]
    kinds = [
        (name, what)
        for name, what in RATIOS
        if any(figures.ratio(it[0], what, it[1]) is not None for it, _ in rows)
    ]
    left, top, each, wide = 210, 76, 8 + 14 * len(kinds), 500
    found = {
        (it, name): figures.ratio(it[0], what, it[1]) for it, _ in rows for name, what in kinds
    }
    most = max(1.2, min(max(it for it in found.values() if it is not None), 4))
    height = top + each * len(rows) + 50
    svg = Svg(800, height, "boxglue beside its peers")
    title = "boxglue as a ratio to the program that is named (less is better)"
    svg.text(20, 26, title, size=15, weight="bold")
    for place, (name, _) in enumerate(kinds):
        svg.bar(left + place * 120, 38, 12, 12, COLOURS[name])
        svg.text(left + 18 + place * 120, 48, name)
    bottom = top + each * len(rows)
    for mark in [it for it in steps_to(most) if it <= most]:
        x = left + mark / most * wide
        svg.line(x, top - 8, x, bottom)
        svg.text(x, bottom + 16, "%g" % mark, "middle", FAINT, 11)
    svg.line(left + wide / most, top - 8, left + wide / most, bottom, INK, 1.5)
    item_bars(svg, found, kinds, rows, (left, top, each, wide, most))
    svg.text(20, height - 10, figures.notes[0] if figures.notes else "", colour=FAINT, size=10)
    svg.write(os.path.join(out, "speed_items.svg"))


MEMORY = (
    ("start", "an empty script"),
    ("paragraphs_200", "2,000 paragraphs"),
    ("places_345pt_100_8000", "a paragraph of 8,000 places"),
    ("paint", "paint"),
    ("large_script_100000", "a script of 100,000 lines"),
    ("large_script_1000000", "1,000,000 lines"),
    ("large_script_10000000", "10,000,000 lines"),
    ("large_pages_2_10000", "10,000 pages, 2 fonts"),
    ("large_pages_2_60000", "60,000 pages, 2 fonts"),
    ("large_pages_256_60000", "60,000 pages, 256 fonts"),
    ("large_list_1", "list of 1.4 MB"),
    ("large_list_14", "list of 14 MB"),
    ("large_list_140", "list of 140 MB"),
)


def draw_memory(figures, out):
    """A bar for each case and its peer, on a logarithmic axis from 1 MB."""
    rows = [it for it in MEMORY if it[0] in figures.rows]
    left, top, each, wide = 210, 66, 38, 500
    megabytes = lambda row: float(row["memory"]) / 1e6
    tens = math.ceil(
        math.log10(max(megabytes(row) for case, _ in rows for row in figures.rows[case].values()))
    )
    svg = Svg(800, top + each * len(rows) + 50, "Peak memory of boxglue and its peers")
    svg.text(
        20, 26, "Peak memory in MB, on a logarithmic axis (less is better)", size=15, weight="bold"
    )
    for place, (name, colour) in enumerate(
        (("boxglue", "boxglue"), ("its peer, where there is one", "tex"))
    ):
        svg.bar(left + place * 120, 36, 12, 12, COLOURS[colour])
        svg.text(left + 18 + place * 120, 46, name)
    bottom = top + each * len(rows)
    for ten in range(tens + 1):
        x = left + ten / tens * wide
        svg.line(x, top - 8, x, bottom)
        svg.text(x, bottom + 16, "{:,}".format(10**ten), "middle", FAINT, 11)
    for place, (case, label) in enumerate(rows):
        y, peer = top + place * each, figures.peer(case)
        svg.text(left - 10, y + 14, label, "end")
        for turn, (row, colour) in enumerate(
            [(figures.rows[case]["boxglue"], "boxglue")] + ([(peer, "tex")] if peer else [])
        ):
            long = max(0, math.log10(megabytes(row))) / tens * wide
            svg.bar(left, y + turn * 14, long, 11, COLOURS[colour])
            svg.text(
                left + long + 5,
                y + turn * 14 + 10,
                "%.1f" % megabytes(row) + (" (%s)" % row["program"] if turn else ""),
                colour=FAINT,
                size=10,
            )
    for place, note in enumerate([it for it in figures.notes if it.startswith("bench/run.py")][:2]):
        svg.text(20, bottom + 34 + place * 12, note, colour=FAINT, size=10)
    svg.write(os.path.join(out, "speed_memory.svg"))


def main():
    parser = argparse.ArgumentParser(
        description=__doc__, formatter_class=argparse.RawDescriptionHelpFormatter
    )
    parser.add_argument("data", nargs="*", default=KNOWN, metavar="DATA")
    parser.add_argument("--out", default=DOCS, metavar="FOLDER")
    words = parser.parse_args()
    figures = Figures(words.data)
    os.makedirs(words.out, exist_ok=True)
    draw_places(figures, words.out)
    draw_items(figures, words.out)
    draw_memory(figures, words.out)


if __name__ == "__main__":
    main()
