"""A reader of DVI files, independent of the product: from docs/FORMATS.md, sections 4 to 7, alone.
It gives the listing of a file, or the line of its refusal; and the fonts that it defines."""
import functools
from dataclasses import dataclass
from typing import Dict, NamedTuple, Optional, Tuple

from models.metric_reader import Refused, read_metrics, signed, widths_at

BOP_SIZE, POST_SIZE, MOST_PUSHES, LARGEST_SIZE = 45, 29, 1024, (1 << 27) - 1
OUTSIDE = {"nop", "fnt_def"}  # The instructions that may stand outside of pages.
LEAST, GREATEST = -(1 << 31), (1 << 31) - 1

# The instructions with a number of one to four bytes: the code of the first, and at which sizes the
# number has a sign.
AT_FOUR, ALWAYS, NEVER = (False, False, False, True), (True,) * 4, (False,) * 4
NUMBERED = {
    "set": (128, AT_FOUR),
    "put": (133, AT_FOUR),
    "fnt": (235, AT_FOUR),
    "fnt_def": (243, AT_FOUR),
    "xxx": (239, NEVER),
    "right": (143, ALWAYS),
    "w": (148, ALWAYS),
    "x": (153, ALWAYS),
    "down": (157, ALWAYS),
    "y": (162, ALWAYS),
    "z": (167, ALWAYS),
}
# The instructions without: the code, and how many bytes follow.
PLAIN = {
    name: (code, 0)
    for name, code in zip(
        "nop eop push pop w0 x0 y0 z0".split(), (138, 140, 141, 142, 147, 152, 161, 166)
    )
}
PLAIN |= {"set_rule": (132, 8), "put_rule": (137, 8), "bop": (139, 44)}
PLAIN |= {"pre": (247, 14), "post": (248, 28), "post_post": (249, 5)}
# Of each code its instruction, the size of the number, whether this has a sign, and the bytes that
# follow.
CODES = (
    [("set_char", 0, False, 0)] * 128
    + [("", 0, False, 0)] * 43
    + [("fnt_num", 0, False, 0)] * 64
    + [("", 0, False, 0)] * 15
)
for NAME, (CODE, SIGNS) in NUMBERED.items():
    CODES[CODE : CODE + 4] = [
        (NAME, at + 1, sign, 14 if NAME == "fnt_def" else 0) for at, sign in enumerate(SIGNS)
    ]
for NAME, (CODE, SIZE) in PLAIN.items():
    CODES[CODE] = (NAME, 0, False, SIZE)
# The instructions of which more bytes follow, and where among the others the lengths of these are;
# that of xxx is its number.
WITH_LENGTHS = {"xxx": (), "fnt_def": (12, 13), "pre": (13,)}
# Each movement: its direction, and the register that it sets or takes.
MOVES: Dict[str, Tuple[str, Optional[str]]] = {"right": ("h", None), "down": ("v", None)}
MOVES |= {
    name + zero: (direction, name)
    for direction, names in (("h", "wx"), ("v", "yz"))
    for name in names
    for zero in ("", "0")
}


def require(holds, place, cause):
    """Refuses the file where a rule does not hold."""
    if not holds:
        raise Refused(f"20 BadDvi {place} {cause}")


class Instruction(NamedTuple):
    """An instruction: its place, its name, its number, the place of the bytes after that, and its
    end."""

    place: int
    name: str
    number: int
    rest: int
    end: int


def instruction_at(data, place, limit):
    """The instruction at a place. Raises Refused if it is cut off by the limit, or begins with no
    code."""
    code = data[place]
    require(code < 250, place, "Opcode")
    name, size, has_sign, more = CODES[code]
    rest = place + 1 + size
    number = int.from_bytes(data[place + 1 : rest], "big", signed=has_sign) if size else code
    if rest + more <= limit and name in WITH_LENGTHS:
        more += number if name == "xxx" else sum(data[rest + it] for it in WITH_LENGTHS[name])
    require(rest + more <= limit, place, "Truncated")
    return Instruction(place, name, number, rest, rest + more)


@dataclass(frozen=True)
class Front:
    """What is known of a file before its pages are read: the places of post, of post_post and of
    the bops, the stack depth, and the numbers that are defined after post."""

    post: int
    end: int
    bops: frozenset
    depth: int
    after: frozenset


def chain_of(data, post):
    """The places of the bops, by the pointers from post back."""
    bops, at, limit = [], post + 1, post
    while (place := signed(data[at : at + 4])) != -1:
        require(
            0 <= place and place + BOP_SIZE <= limit and data[place] == PLAIN["bop"][0],
            at,
            "Pointer",
        )
        bops.append(place)
        at, limit = place + 41, place
    return frozenset(bops)


def numbers_after(data, place, end):
    """The numbers that are defined after post, up to the first instruction that is cut off or no
    definition and no nop."""
    numbers = set()
    while place < end:
        try:
            it = instruction_at(data, place, end)
        except Refused:
            break
        if it.name not in OUTSIDE:
            break
        numbers |= {it.number} if it.name == "fnt_def" else set()
        place = it.end
    return frozenset(numbers)


@functools.lru_cache(None)
def widths_of(metric_file, size):
    """The widths of the characters of a metric file at a size."""
    return widths_at(read_metrics(metric_file), size)


def front_of(data):
    """Makes the checks before the instructions, in their order."""
    last = len(data.rstrip(b"\xdf")) - 1
    require(len(data) - 1 - last >= 4 and last >= 5, len(data), "Trailer")
    require(data[last] == 2, last, "Version")
    end, post = last - 5, signed(data[last - 4 : last])
    require(data[end] == PLAIN["post_post"][0], end, "Opcode")
    require(
        0 <= post and post + POST_SIZE <= end and data[post] == PLAIN["post"][0],
        last - 4,
        "Pointer",
    )
    bops, units = chain_of(data, post), data[post + 5 : post + 17]
    depth, pages = (int.from_bytes(data[post + it : post + it + 2], "big") for it in (25, 27))
    require(len(bops) % 65536 == pages, post, "Count")
    is_pre = data[:2] == b"\xf7\x02" and data[2:14] == units and 15 + data[14] <= post
    require(is_pre and all(signed(units[it : it + 4]) > 0 for it in (0, 4, 8)), 0, "Preamble")
    return Front(post, end, bops, depth, numbers_after(data, post + POST_SIZE, end))


class Reader:
    """A walk over the instructions of a file. `lines` are those of the listing."""

    def __init__(self, data, fonts):
        self.data, self.fonts, self.front = data, fonts, front_of(data)
        self.defined, self.widths, self.lines, self.pages = {}, {}, [], 0
        # The six numbers of the page that is open, what its pushes saved, and its font.
        self.numbers, self.saved, self.font = None, [], None

    def read(self):
        """Walks over the pages, and then over what is after post."""
        front = self.front
        self.walk(15 + self.data[14], front.post, OUTSIDE | {"bop"})
        require(self.numbers is None, front.post, "Opcode")
        require(self.pages == len(front.bops), front.post, "Pointer")
        self.walk(front.post + POST_SIZE, front.end, OUTSIDE)

    def walk(self, place, limit, outside):
        """Takes each instruction up to a place; `outside` are those that may stand there outside of
        pages."""
        while place < limit:
            it = instruction_at(self.data, place, limit)
            require(it.name in (outside if self.numbers is None else INSIDE), place, "Opcode")
            TAKES[it.name](self, it)
            place = it.end

    def move(self, it):
        """A movement by a number, which may be put into a register, or by the number in one."""
        direction, register = MOVES[it.name]
        amount = self.numbers[register] if it.name[-1] == "0" else it.number
        if register:
            self.numbers[register] = amount
        self.add(it, direction, amount)

    def add(self, it, direction, amount):
        """Adds to h or v."""
        self.numbers[direction] += amount
        require(LEAST <= self.numbers[direction] <= GREATEST, it.place, "Range")

    def glyph(self, it):
        """Sets or puts a character."""
        width = self.widths.get(self.font, {}).get(it.number)
        require(width is not None, it.place, "Glyph")
        self.lines.append(f"glyph {self.font} {it.number} {self.numbers['h']} {self.numbers['v']}")
        if it.name != "put":
            self.add(it, "h", width)

    def rule(self, it):
        """Sets or puts a rule."""
        height, width = signed(self.data[it.rest : it.rest + 4]), signed(
            self.data[it.rest + 4 : it.end]
        )
        if height > 0 and width > 0:
            self.lines.append(f"rule {self.numbers['h']} {self.numbers['v']} {height} {width}")
        if it.name == "set_rule":
            self.add(it, "h", width)

    def special(self, it):
        """A special, whose text a listing has in another form."""
        text = "".join(
            chr(byte) if 32 <= byte <= 126 and byte != 92 else f"\\{byte:02x}"
            for byte in self.data[it.rest : it.end]
        )
        self.lines.append(f"special {self.numbers['h']} {self.numbers['v']} {text}")

    def bop(self, it):
        """Begins a page."""
        require(it.place in self.front.bops, it.place, "Pointer")
        counts = (signed(self.data[at : at + 4]) for at in range(it.rest, it.rest + 40, 4))
        self.pages, self.numbers, self.font = self.pages + 1, dict.fromkeys("hvwxyz", 0), None
        self.lines.append(f"page {self.pages} counts {' '.join(map(str, counts))}")

    def eop(self, it):
        """Ends the page."""
        require(not self.saved, it.place, "Stack")
        self.numbers = None

    def push(self, it):
        """Saves the six numbers."""
        require(len(self.saved) < min(MOST_PUSHES, self.front.depth), it.place, "Stack")
        self.saved.append(dict(self.numbers))

    def pop(self, it):
        """Restores them."""
        require(self.saved, it.place, "Stack")
        self.numbers = self.saved.pop()

    def select(self, it):
        """Selects a font. At the first selection of its number its widths are read."""
        number = it.number - 171 if it.name == "fnt_num" else it.number
        require(number in self.defined and number in self.front.after, it.place, "Font")
        if number not in self.widths:
            fields = self.defined[number]
            name = fields[14 + fields[12] :]
            if name not in self.fonts:
                raise Refused("4 NoFont")
            self.widths[number] = widths_of(self.fonts[name], signed(fields[4:8]))
        self.font = number

    def define(self, it):
        """Defines a font, as its number was defined first."""
        fields = self.data[it.rest : it.end]
        is_size = 1 <= signed(fields[4:8]) <= LARGEST_SIZE
        require(is_size and self.defined.setdefault(it.number, fields) == fields, it.place, "Font")


TAKES = {
    **dict.fromkeys(("set_char", "set", "put"), Reader.glyph),
    **dict.fromkeys(("set_rule", "put_rule"), Reader.rule),
    **dict.fromkeys(MOVES, Reader.move),
    **dict.fromkeys(("fnt_num", "fnt"), Reader.select),
    "nop": lambda reader, it: None,
    "bop": Reader.bop,
    "eop": Reader.eop,
    "push": Reader.push,
    "pop": Reader.pop,
    "xxx": Reader.special,
    "fnt_def": Reader.define,
}
INSIDE = {*TAKES} - {"bop"}


def word_of(name):
    """A name or an area as one word of `fonts`."""
    return "".join(
        chr(byte) if 33 <= byte <= 126 and byte != 92 else f"\\{byte:02x}" for byte in name
    )


def definitions_after(data):
    """The definitions after post, in order: the number, and the fields from the check sum on.
    Raises Refused."""
    reader, found = Reader(data, {}), []
    place, end = reader.front.post + POST_SIZE, reader.front.end
    reader.walk(place, end, OUTSIDE)
    while place < end:
        it = instruction_at(data, place, end)
        found += [(it.number, data[it.rest : it.end])] if it.name == "fnt_def" else []
        place = it.end
    return found


def parts_of(fields):
    """The fields of a definition: its area, its name, its size, its design size, and its check
    sum."""
    area = 14 + fields[12]
    return fields[14:area], fields[area:], signed(fields[4:8]), signed(fields[8:12]), fields[:4]


def fonts_of_file(data):
    """Reads the fonts of a file. Returns the text that `fonts` prints, and whether the file is
    accepted."""
    try:
        definitions = definitions_after(data)
    except Refused as refusal:
        return f"refused {refusal}\n".encode(), False
    post = front_of(data).post
    lines = [
        f"units {' '.join(str(signed(data[at:at + 4])) for at in range(post + 5, post + 17, 4))}"
    ]
    for number, fields in definitions:
        area, name, size, design_size, check_sum = parts_of(fields)
        lines.append(
            f"font {number} {word_of(name) or chr(92)} {size} {design_size} {check_sum.hex()} {word_of(area)}".rstrip()
        )
    return "".join(f"{it}\n" for it in lines).encode(), True


def list_file(data, fonts):
    """Reads a file with these metric files, by their names. Returns the text that `list` prints,
    and whether the file is accepted."""
    try:
        reader = Reader(data, fonts)
        reader.read()
    except Refused as refusal:
        return f"refused {refusal}\n".encode(), False
    return "".join(f"{it}\n" for it in reader.lines).encode(), True
