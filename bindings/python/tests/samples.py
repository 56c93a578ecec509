"""Scripts and fonts of the tests, and what they compare."""
import glob
import os
import re

import boxglue

# The source distribution has the examples beside this file.
HERE = os.path.dirname(os.path.abspath(__file__))
EXAMPLES = next(it for it in (f"{HERE}/examples", f"{HERE}/../../../examples") if os.path.isdir(it))
RULE = "hbox into 0\nrule 1pt 1pt 0pt\nend\nship 0\n"
ANSWERS = (
    "1: ok\n2: ok\n3: packed 1.0pt 1.0pt 0.0pt badness 0\n4: shipped 1\nend: pages 1 bytes 116\n"
)
TEXT = (
    "font 0 plain\nfont 7 plain at 5pt\nuse 0\nhbox into 0\ntext a b\nuse 7\ntext c\nend\nship 0\n"
)


def plain():
    """The fonts of a script in the font `plain`."""
    with open(f"{EXAMPLES}/plain.tfm", "rb") as it:
        return {"plain": it.read()}


def examples():
    """The scripts of examples/, each with the plain font under the names that it loads."""
    metrics = plain()["plain"]
    for path in sorted(glob.glob(f"{EXAMPLES}/*.box")):
        with open(path, encoding="ascii") as it:
            script = it.read()
        yield os.path.basename(path), script, dict.fromkeys(
            re.findall(r"^font \d+ (\S+)", script, flags=re.M), metrics
        )


def refusal_of(call, *words):
    """The refusal that a call raises."""
    try:
        call(*words)
    except boxglue.Refused as refused:
        return refused
    raise AssertionError("nothing is refused")


def line_of(mark):
    """The line of a mark in a listing (docs/FORMATS.md, section 4)."""
    if isinstance(mark, boxglue.Glyph):
        return f"glyph {mark.font} {mark.code} {mark.h} {mark.v}\n"
    if isinstance(mark, boxglue.Rule):
        return f"rule {mark.h} {mark.v} {mark.height} {mark.width}\n"
    return (
        f"special {mark.h} {mark.v} "
        + "".join(chr(it) if 32 <= it < 127 and it != 92 else f"\\{it:02x}" for it in mark.text)
        + "\n"
    )


def listing_of(document):
    """The listing of a document."""
    heads = (
        f"page {number} counts {' '.join(map(str, page.counts))}\n"
        for number, page in enumerate(document.pages, 1)
    )
    return "".join(
        head + "".join(map(line_of, page.marks)) for head, page in zip(heads, document.pages)
    )
