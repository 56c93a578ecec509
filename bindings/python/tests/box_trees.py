"""Compares the tree of the box of each page with the marks of that page in the shipped file, on
random documents: box_trees.py DOCUMENTS METRICS.

A document is a line `document SIZE` and a script of this size."""
import re
import sys

import boxglue


def shown(item):
    """What an item shows, as a tuple; None if it shows nothing."""
    if isinstance(item, boxglue.GlyphItem):
        return "glyph", item.font, item.code, item.x, item.y, item.width
    if isinstance(item, boxglue.RuleItem) and item.height + item.depth > 0 and item.width > 0:
        return "rule", item.x, item.y, item.height + item.depth, item.width
    if isinstance(item, boxglue.SpecialItem):
        return "special", item.x, item.y, item.text
    return None


def mark_of(mark, x, y):
    """A mark of a page, from this place on."""
    if isinstance(mark, boxglue.Glyph):
        return "glyph", mark.font, mark.code, mark.h - x, mark.v - y, mark.width
    if isinstance(mark, boxglue.Rule):
        return "rule", mark.h - x, mark.v - y, mark.height, mark.width
    return "special", mark.h - x, mark.v - y, mark.text


def boxes_of(job, script):
    """The boxes of the pages that a script ships, each as it was before, and the places of their
    reference points."""
    pages, offset = [], {b"h": 0, b"v": 0}
    for piece in re.findall(rb"(?:.*\n)*?(?:ship \d+\n|\Z)", script):
        lines, _, ship = piece.rstrip(b"\n").rpartition(b"\n")
        if not ship.startswith(b"ship "):
            job.commands(piece)
            continue
        job.commands(lines + b"\n")
        for which, dimension in re.findall(rb"(?m)^set ([hv])offset (\S+)$", lines):
            offset[which] = boxglue.scaled_points(dimension.decode())
        box = job.inspect(int(ship.split()[1]))
        if job.commands(ship + b"\n").accepted:
            pages.append((box, offset[b"h"], offset[b"v"] + box.height))
    return pages


def compared(script, fonts):
    """How many pages and marks a document has, after both are compared."""
    with boxglue.Job(fonts) as job:
        pages = boxes_of(job, script)
        if not job.finish().accepted or not pages:
            return 0, 0
        document = boxglue.marks(job.take(), fonts)
    assert len(document.pages) == len(pages), f"{len(document.pages)} pages, {len(pages)} boxes"
    for number, (page, (box, x, y)) in enumerate(zip(document.pages, pages), 1):
        found = [it for it in map(shown, box.walk()) if it]
        wanted = [mark_of(it, x, y) for it in page.marks]
        assert found == wanted, f"page {number}: {difference(found, wanted)}"
    return len(pages), len(document.marks)


def difference(found, wanted):
    """The first difference of two lists."""
    others = (it for it in zip(found, wanted) if it[0] != it[1])
    return next(others, f"{len(found)} and {len(wanted)}")


def main(documents, metrics):
    """Compares all documents."""
    with open(documents, "rb") as it:
        data = it.read()
    with open(metrics, "rb") as it:
        fonts = {"cmr10": it.read()}
    count = pages = marks = at = 0
    while at < len(data):
        line = data.index(b"\n", at)
        end = line + 1 + int(data[at:line].split()[1])
        more = compared(data[line + 1 : end], fonts)
        at, count, pages, marks = end, count + 1, pages + more[0], marks + more[1]
    print(f"{count} documents, {pages} pages, {marks} marks")


if __name__ == "__main__":
    main(*sys.argv[1:])
