"""What the lines of pages show, from the bytes of a DVI file, and the rows that
tests/cases/hyphens/lines.txt has of it."""
from models.dvi_reader import CODES

# The settings in which two lists of breaks cost the same, and TeX takes another one than boxglue
# (docs/COMMANDS.md, section 4).
TIES = {"p556 345 200", "p556 345 9999"}
LIGATURES = {11: "ff", 12: "fi", 13: "fl", 14: "ffi", 15: "ffl", 123: "--", 124: "---"}
CHARACTERS = [LIGATURES.get(it, chr(it)) for it in range(256)]
# The movements that go down: each takes a number, or has the one of its register.
DOWN = {"down": None, "y": "y", "y0": "y", "z": "z", "z0": "z"}
MORE = {"fnt_def": (12, 13)}


def shown_lines(dvi):
    """The lines of each page, from above: the characters that stand at one height, with the letters
    of ligatures."""
    pages, at, end = [], 15 + dvi[14], len(dvi)
    lines, v, registers, saved = {}, 0, {"y": 0, "z": 0}, []
    while at < end and dvi[at] != 248:
        code = dvi[at]
        if code < 128:
            lines.setdefault(v, []).append(CHARACTERS[code])
            at += 1
            continue
        name, size, has_sign, more = CODES[code]
        number = int.from_bytes(dvi[at + 1 : at + 1 + size], "big", signed=has_sign)
        rest = at + 1 + size
        if name == "set":
            lines.setdefault(v, []).append(CHARACTERS[number])
        elif name in DOWN:
            register = DOWN[name]
            if register and not name.endswith("0"):
                registers[register] = number
            v += registers[register] if register else number
        elif name == "push":
            saved.append((v, dict(registers)))
        elif name == "pop":
            v, registers = saved.pop()
        elif name == "bop":
            lines, v, registers = {}, 0, {"y": 0, "z": 0}
        elif name == "eop":
            pages.append(["".join(lines[it]) for it in sorted(lines)])
        more += number if name == "xxx" else sum(dvi[rest + it] for it in MORE.get(name, ()))
        at = rest + more
    return pages


def counts_of(lines):
    """The lines as a row has them."""
    return " ".join([f"{len(it)}-" if it.endswith("-") else str(len(it)) for it in lines]).replace(
        "- ", "-"
    )


def row_of(row, before):
    """A row, with an equals sign for each part that is as in the row before."""
    return "\t".join(
        "=" if before and its == old else its
        for its, old in zip(texts_of(row), texts_of(before) if before else [None] * 6)
    )


def texts_of(row):
    """The parts of a row as texts."""
    *parts, lines = row
    return [*map(str, parts), counts_of(lines)]


def rows_of(text):
    """The rows of a text, each a list of six texts."""
    rows, before = [], None
    for line in text.splitlines():
        parts = line.split("\t")
        before = [old if it == "=" else it for it, old in zip(parts, before or parts)]
        rows.append(before)
    return rows


def difference(row, decided, demerits, lines):
    """What differs from a row of TeX, or None. Where no pass of TeX decided, the third one has
    to."""
    found = [str(decided), *([str(demerits), counts_of(lines)] if decided < 3 else ["0", ""])]
    wanted = row[3:]
    if " ".join(row[:3]) in TIES:
        if found[:2] == wanted[:2] and found[2] != wanted[2]:
            return None
        return f"it is no tie: {found}, and TeX has {wanted}"
    return None if found == wanted else f"{found}, and TeX has {wanted}"


def decided_by_tex(rows):
    """How many of the rows a pass of TeX decided."""
    return sum(row[3] != "3" for row in rows)
