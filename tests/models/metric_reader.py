"""A reader of metric files, independent of the product: from docs/FORMATS.md, section 9, alone."""
from dataclasses import dataclass

GREATEST = (1 << 30) - 1  # The greatest dimension.
# The names of the twelve numbers at the front, in their order.
COUNTS = ("lf", "lh", "bc", "ec", "nw", "nh", "nd", "ni", "nl", "nk", "ne", "np")
TABLES = ("nw", "nh", "nd", "ni", "nl", "nk", "ne", "np")


class Refused(Exception):
    """A file was refused; the text has what is after the word `refused`."""


@dataclass(frozen=True)
class Metrics:
    """What is needed of a file: the first character, for each character from there the index of its
    width, all widths, and all words that have to fit at a size."""

    first: int
    indices: tuple
    widths: tuple
    sized: tuple


def signed(data):
    """A signed number, the highest byte first."""
    return int.from_bytes(data, "big", signed=True)


def require(holds, cause):
    """Refuses the file where a rule does not hold."""
    if not holds:
        raise Refused(f"5 BadTfm {cause}")


def counts_of(data):
    """The twelve numbers, by their names."""
    require(len(data) >= 24, "TooShort")
    counts = {
        name: int.from_bytes(data[2 * at : 2 * at + 2], "big") for at, name in enumerate(COUNTS)
    }
    require(len(data) >= 4 * counts["lf"], "TooShort")
    parts = 6 + counts["lh"] + counts["ec"] - counts["bc"] + 1 + sum(counts[it] for it in TABLES)
    require(all(it < 32768 for it in counts.values()) and counts["lf"] == parts, "Counts")
    require(
        counts["bc"] <= counts["ec"] + 1 and counts["ec"] <= 255 and counts["lh"] >= 2, "Counts"
    )
    require(all(counts[it] for it in ("nw", "nh", "nd", "ni")), "Counts")
    return counts


def is_there(characters, first, code):
    """Whether there is a character of this code."""
    return 0 <= code - first < len(characters) and characters[code - first][0] != 0


def check_character(word, counts):
    """Refuses a character's word with an index past its table."""
    width, sizes, rest, remainder = word
    inside = (
        width < counts["nw"]
        and sizes // 16 < counts["nh"]
        and sizes % 16 < counts["nd"]
        and rest // 4 < counts["ni"]
    )
    require(inside and (rest % 4 != 1 or remainder < counts["nl"]), "CharInfo")


def check_step(step, at, counts, characters):
    """Refuses a step of a ligature and kern program that leads or points past the end of its
    table."""
    skip, _, op, remainder = step
    if skip > 128:
        require(256 * op + remainder < counts["nl"], "LigKern")
        return
    # Of the operations below 128 a ligature is 0 alone; the others are read over.
    if op >= 128:
        require(256 * (op - 128) + remainder < counts["nk"], "LigKern")
    elif op == 0:
        require(is_there(characters, counts["bc"], remainder), "LigKern")
    require(skip == 128 or at + skip + 1 < counts["nl"], "LigKern")


def tables_of(data, counts):
    """The words of the characters, and by the names of their numbers those of the tables."""
    words = [data[at : at + 4] for at in range(0, 4 * counts["lf"], 4)]
    at = 6 + counts["lh"]
    characters = words[at : at + counts["ec"] - counts["bc"] + 1]
    at, tables = at + len(characters), {}
    for name in TABLES:
        tables[name] = words[at : at + counts[name]]
        at += counts[name]
    return characters, tables


def read_metrics(data):
    """Reads a file, or raises Refused with the first rule that it breaks."""
    counts = counts_of(data)
    design_size = signed(data[28:32])
    require(design_size >= 0 and design_size // 16 >= 65536, "DesignSize")
    characters, tables = tables_of(data, counts)
    for word in characters:
        check_character(word, counts)
    sizes = [tables[it] for it in ("nw", "nh", "nd", "ni")]
    space = tables["np"][1:4]
    require(
        all(word[0] in (0, 255) for table in (*sizes, tables["nk"], space) for word in table),
        "FixWord",
    )
    require(all(table[0] == bytes(4) for table in sizes), "FixWord")
    for number, step in enumerate(tables["nl"]):
        check_step(step, number, counts, characters)
    sized = tuple(signed(word) for table in (*sizes[:3], tables["nk"], space) for word in table)
    return Metrics(
        counts["bc"], tuple(word[0] for word in characters), tuple(map(signed, tables["nw"])), sized
    )


def scaled(word, size):
    """A word of a table at the size of a font."""
    cleared = 0
    while size >= 1 << (23 + cleared):
        cleared += 1
    return word * (size >> cleared << cleared) >> 20


def widths_at(metrics, size):
    """The widths of the characters at a size, by their codes, or raises Refused if a dimension does
    not fit."""
    if any(abs(scaled(word, size)) > GREATEST for word in metrics.sized):
        raise Refused("3 DimensionTooLarge")
    return {
        metrics.first + at: scaled(metrics.widths[index], size)
        for at, index in enumerate(metrics.indices)
        if index
    }
