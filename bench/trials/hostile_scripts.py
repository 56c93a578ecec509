"""Hostile scripts."""

import re

import generator
from generator import PARAMETERS

DIMENSIONS = """
    0pt 1sp -1sp 5pt 10pt 1pt -2.5pt 16383.99999pt -16383.99999pt 1073741823sp -1073741823sp
    536870912sp 8191.99999pt 0.00001pt 22.75in 575.8cm 5758.3mm 1276cc 300pt 40pt 65536sp
    16383.99998pt 1000pt .5pt 1.pt -1000pt 134217727sp +0001pt""".split()
BAD_DIMENSIONS = """16384pt -16384pt 1073741824sp pt 1 .pt 1em 1,5pt --1pt 1PT
    99999999999999999999pt 1e3pt * 0.pt. 1fil""".split()
BAD_DIMENSIONS += ["9" * 400 + "sp", "0." + "9" * 400 + "pt"]
ORDERS = "1fil -1fil 1fill 1filll 0fil 16383.99999filll -16383.99999fil .00001fil -.5filll".split()
NUMBERS = """
    0 1 -1 100 10000 -10000 9999 -9999 500000000 -500000000 +003 -0 32 200 10 250000000""".split()
BAD_NUMBERS = """500000001 -500000001 2147483648 -2147483649 99999999999999999999 1pt x 32768 256 10
    0x1 1.0 -""".split()
REGISTERS = "0 0 0 1 1 2 3 7 32767 00 +1".split()
LETTERS = "abcdeabcde zfi-`'"
UNBOXES = "unhbox unhcopy unvbox unvcopy lastbox measure void".split()
ODD_FIELDS = [*"to into plus minus shift at end".split(), "", " ", "\t", "\r"]


def dimension(chance):
    if chance.one_in(3):
        return "%dsp" % (chance.below(2**31 - 1) - 1073741823)
    return chance.pick(DIMENSIONS)


def stretch(chance):
    return chance.pick(ORDERS) if chance.one_in(3) else dimension(chance)


def glue(chance):
    more = lambda: stretch(chance)
    return generator.glue(chance, dimension(chance), more, more)


VALUES = {"dimension": dimension, "glue": glue, "number": lambda it: it.pick(NUMBERS)}


def parameter(chance):
    kind = chance.pick((*VALUES, "firstlines"))
    if kind == "firstlines":
        return f"set firstlines {chance.below(33)}"
    value = VALUES[kind](chance)
    return f"set {chance.pick(PARAMETERS[kind])} {value}"


def opened(chance):
    words = [chance.pick(("hbox", "vbox", "vtop"))]
    if chance.one_in(2):
        words += [chance.pick(("to", "spread")), dimension(chance)]
    if not chance.one_in(3):
        words += ["into", chance.pick(REGISTERS)]
    return " ".join(words)


def text(chance):
    length = 1 + chance.below(12) if not chance.one_in(40) else chance.below(3000)
    return "text " + "".join(chance.pick(LETTERS) for _ in range(length))


def running(chance):
    return "*" if chance.one_in(5) else dimension(chance)


def moved_box(chance):
    words = f"{chance.pick(('box', 'copy'))} {chance.pick(REGISTERS)}"
    return words + (" shift " + dimension(chance) if chance.one_in(3) else "")


def font(chance):
    words = f"font {chance.below(256)} {chance.pick(('tiny', 'plain', 'tiny', 'absent'))}"
    return words + (f" at {1 + chance.below(134217727)}sp" if chance.one_in(2) else "")


# Each kind of command as often as it is here.
COMMANDS = [
    *[opened] * 3,
    *[lambda it: "end"] * 4,
    *[lambda it: "par"] * 2,
    *[text] * 2,
    lambda it: f"rule {running(it)} {running(it)} {running(it)}",
    lambda it: f"rule {dimension(it)} 1pt 0pt",
    lambda it: "kern " + dimension(it),
    *[lambda it: "glue " + glue(it)] * 2,
    lambda it: "penalty " + it.pick(NUMBERS),
    parameter,
    lambda it: f"char {it.below(256)}",
    lambda it: "special " + "".join(it.pick(LETTERS) for _ in range(it.below(30))),
    moved_box,
    lambda it: f"{it.pick(UNBOXES)} {it.pick(REGISTERS)}",
    lambda it: f"vsplit {it.pick(REGISTERS)} to {dimension(it)} into {it.pick(REGISTERS)}",
    *[lambda it: "ship " + it.pick(REGISTERS)] * 2,
    lambda it: f"count {it.below(10)} {it.below(2**32) - 2**31}",
    font,
    lambda it: f"use {it.below(4)}",
]


def command(chance):
    return chance.pick(COMMANDS)(chance)


def random_script(chance):
    """Commands in a random order, in most scripts with an open list around them, and few of them
    wrong in form."""
    lines = ["font 0 tiny", "font 1 plain at 7pt", "use 0"]
    for _ in range(1 + chance.below(8 if chance.one_in(2) else 60)):
        lines.append(command(chance))
        if chance.one_in(4):
            lines += [opened(chance), command(chance), command(chance), "end"]
    if chance.one_in(2):
        lines += ["end"] * chance.below(5) + ["ship 0"]
    if chance.one_in(8):
        lines.insert(chance.below(len(lines) + 1), bad_line(chance, command(chance)))
    return "\n".join(lines).encode() + b"\n"


def bad_line(chance, line):
    """A line with a field that is wrong, one too many, or one too few."""
    fields, way = line.split(" "), chance.below(5)
    place = chance.below(len(fields))
    if way == 0:
        fields[place] = chance.pick(BAD_DIMENSIONS)
    elif way == 1:
        fields[place] = chance.pick(BAD_NUMBERS)
    elif way == 2:
        del fields[place]
    elif way == 3:
        fields.insert(place, chance.pick(ODD_FIELDS))
    else:
        fields.append(chance.pick(("0", "1pt", "end", "*")))
    return " ".join(fields)


def changed_script(chance, good):
    """A good script of which some lines are dropped, repeated, moved, or replaced, or have another
    number."""
    lines = chance.pick(good.scripts).split(b"\n")
    for _ in range(1 + chance.below(6)):
        place, way = chance.below(len(lines)), chance.below(8)
        if way == 0 and len(lines) > 1:
            del lines[place]
        elif way == 1:
            lines[place:place] = [lines[place]] * (1 + chance.below(3))
        elif way == 2:
            lines.insert(chance.below(len(lines) + 1), lines[place])
        elif way == 3:
            lines.insert(place, command(chance).encode())
        elif way == 4:
            amount = lambda _: dimension(chance).encode()
            lines[place] = re.sub(rb"-?[\d.]+(?:pt|sp|mm|in)", amount, lines[place])
        elif way == 5:
            number = lambda _: b" " + chance.pick(NUMBERS).encode()
            lines[place] = re.sub(rb" -?\d+$", number, lines[place])
        elif way == 6:
            lines.append(b"ship %d" % chance.below(3))
        elif chance.one_in(3):
            lines[place] = bad_line(chance, command(chance)).encode()
    return b"\n".join(lines)


def large_script(chance):
    """What is much from few bytes, or near a limit: copies of copies, boxes in boxes, long lists,
    texts and paragraphs."""
    way, many, up_to = chance.below(7), chance.below(9000), chance.below
    rule, last = "hbox into 0\nrule 1sp 1sp %dsp\nend\n", "end\nship 0\n"
    small = "font 0 tiny at 1sp\nuse 0\nhbox into 0\n"
    scripts = (
        rule % 1 + "hbox into 0\ncopy 0\ncopy 0\nend\n" * up_to(17) + "ship 0\n",
        "hbox into 1\nend\n" + "hbox into 1\nbox 1\nend\n" * up_to(210) + "ship 1\n",
        "hbox into 0\n"
        + "kern 1sp\n" * many
        + "end\nhbox into 1\n"
        + "unhcopy 0\n" * up_to(20)
        + "end\nship 1\n",
        "vbox into 0\npar\n"
        + f"rule 1pt 1pt 0pt\npenalty {up_to(3) - 1}\n" * many
        + "end\n"
        + last,
        f"hbox into 0\nspecial {'s' * (65500 + up_to(70))}\n"
        + "hbox\n" * up_to(80)
        + "end\n" * up_to(80)
        + "ship 0",
        small + f"text {'ab c' * (1 + up_to(2000))}\n" * up_to(12) + last,
        rule % 0 + "copy 0\nhbox into 1\ncopy 0\nend\nship 1\n" * up_to(600),
    )
    return scripts[way].strip().encode()
