"""What the call for metrics has to give for a metric file at a size, as lines: by the tests' own
reader of metric files, and by what tftopl prints."""
import functools
import re
from dataclasses import dataclass, field
from fractions import Fraction

from models.metric_reader import GREATEST, Refused, counts_of, read_metrics, scaled, signed
from models.metric_reader import tables_of

UNIT = 1 << 20
NAMES = "SLANT", "SPACE", "STRETCH", "SHRINK", "XHEIGHT", "QUAD", "EXTRASPACE"
TOKEN = re.compile(r"[()]|[^()\s]+")


@dataclass
class Rows:
    """A font in words of a metric file: its design size, its check sum, its first seven parameters;
    by their codes the width, height, depth and italic correction of each character; and by pairs of
    codes the kern, as a word, or the character of a ligature."""

    design_word: int
    check_sum: int
    parameters: list
    characters: dict = field(default_factory=dict)
    kerns: dict = field(default_factory=dict)
    ligatures: dict = field(default_factory=dict)


def first_steps(program):
    """The kern or the character of each following character, by the first of these steps that
    applies: pairs of the following character, and what it has."""
    found = {}
    for following, its in program:
        found.setdefault(following, its)
    return found


def program_of(remainder, steps):
    """The steps of a program from this one on that are kerns or plain ligatures: the following
    character of each, with its operation and its remainder."""
    at = 256 * steps[remainder][2] + steps[remainder][3] if steps[remainder][0] > 128 else remainder
    while at < len(steps):
        skip, following, op, rest = steps[at]
        if skip <= 128 and (op == 0 or op >= 128):
            yield following, (op, rest)
        at = at + skip + 1 if skip < 128 else len(steps)


def rows_of(data):
    """The rows of a file, or Refused for the first rule that it breaks."""
    read_metrics(data)
    counts = counts_of(data)
    words, tables = tables_of(data, counts)
    entry = lambda name, at: signed(tables[name][at])
    given = [signed(it) for it in tables["np"][:7]]
    rows = Rows(
        signed(data[28:32]), int.from_bytes(data[24:28], "big"), given + [0] * (7 - len(given))
    )
    for code, (width, sizes, rest, remainder) in enumerate(words, counts["bc"]):
        if not width:
            continue
        rows.characters[code] = (
            entry("nw", width),
            entry("nh", sizes // 16),
            entry("nd", sizes % 16),
            entry("ni", rest // 4),
        )
        steps = program_of(remainder, tables["nl"]) if rest % 4 == 1 else ()
        for following, (op, last) in first_steps(steps).items():
            if op:
                rows.kerns[code, following] = entry("nk", 256 * (op - 128) + last)
            else:
                rows.ligatures[code, following] = last
    return rows


def parsed(text):
    """The properties of a property list: lists of words and of properties."""
    stack = [[]]
    for token in TOKEN.findall(text):
        if token == "(":
            stack.append([])
        elif token == ")":
            its = stack.pop()
            stack[-1].append(its)
        else:
            stack[-1].append(token)
    return stack[0]


@functools.lru_cache(None)
def word_of(text):
    """The word of which a decimal fraction is the text."""
    return round(Fraction(text) * UNIT)


def named(properties, name, otherwise="0"):
    """The number of a property, or of one that is not there."""
    return next((it[2] for it in properties if it[0] == name), otherwise)


def rows_of_text(text):
    """The rows of the property list that tftopl prints of a file, with characters as octal
    numbers."""
    properties = [it for it in parsed(text) if isinstance(it, list)]
    dimensions = next((it[1:] for it in properties if it[0] == "FONTDIMEN"), [])
    # A parameter without a name of its own is (PARAMETER D number R value).
    numbered = {int(it[2]): it[4] for it in dimensions if it[0] == "PARAMETER"}
    given = [
        word_of(named(dimensions, name, numbered.get(at, "0"))) for at, name in enumerate(NAMES, 1)
    ]
    rows = Rows(
        word_of(named(properties, "DESIGNSIZE")), int(named(properties, "CHECKSUM"), 8), given
    )
    for its in (it for it in properties if it[0] == "CHARACTER"):
        code, sizes = int(its[2], 8), its[3:]
        rows.characters[code] = tuple(
            word_of(named(sizes, name)) for name in ("CHARWD", "CHARHT", "CHARDP", "CHARIC")
        )
        steps = [
            it
            for comment in sizes
            if comment[0] == "COMMENT"
            for it in comment[1:]
            if it[0] in ("LIG", "KRN")
        ]
        for following, step in first_steps((int(it[2], 8), it) for it in steps).items():
            if step[0] == "KRN":
                rows.kerns[code, following] = word_of(step[4])
            else:
                rows.ligatures[code, following] = int(step[4], 8)
    return rows


def size_of(word, size):
    """A word that is tested at a size, or Refused if it does not fit."""
    value = scaled(word, size)
    if abs(value) > GREATEST:
        raise Refused("3 DimensionTooLarge")
    return value


def measure(word, size):
    """A word that no rule tests at a size."""
    fits = word >> 24 in (0, -1) and abs(scaled(word, size)) <= GREATEST
    return str(scaled(word, size)) if fits else "unfit"


def lines_of(rows, size):
    """The lines of rows at a size; 0 is the design size."""
    size = size or rows.design_word // 16
    slant, space, stretch, shrink, *others = rows.parameters
    spaces, measures = [size_of(it, size) for it in (space, stretch, shrink)], [
        measure(it, size) for it in others
    ]
    yield f"size {size} {rows.design_word // 16} check {rows.check_sum} slant {slant} space {' '.join(map(str, spaces))} {' '.join(measures)}"
    for code, (width, height, depth, italic) in sorted(rows.characters.items()):
        yield f"glyph {code} {size_of(width, size)} {size_of(height, size)} {size_of(depth, size)} {measure(italic, size)}"
    steps = {
        pair: f"kern {pair[0]} {pair[1]} {size_of(word, size)}" for pair, word in rows.kerns.items()
    }
    steps |= {pair: f"ligature {pair[0]} {pair[1]} {code}" for pair, code in rows.ligatures.items()}
    yield from (steps[pair] for pair in sorted(steps))


def text_of(rows, size):
    """What is printed of rows at a size that is in its range."""
    return "".join(f"{it}\n" for it in ("status 0", *lines_of(rows, size)))


def wanted(data, size):
    """What is printed of a file at a size."""
    if not 0 <= size < 1 << 27:
        return "status 6\n"
    try:
        rows = rows_of(data)
        # A word counts for the font even where no character or step names it.
        for word in read_metrics(data).sized:
            size_of(word, size or rows.design_word // 16)
        return text_of(rows, size)
    except Refused as refusal:
        return f"status 1\nrefused {refusal}\n"
