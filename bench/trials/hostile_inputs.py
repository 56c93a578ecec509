"""Hostile inputs, always the same ones: an input depends on its number, on files of the repository,
and on the DVI files that the program makes of good scripts. So each can be made again by itself.

Most inputs are good ones with a few changes, since random bytes are refused at the first of them.
hostile_scripts.py makes the scripts."""

import glob
import os
import re
from dataclasses import dataclass, field
from typing import Optional

from trial import ROOT
from common.files import content
from common.library_inputs import SHEET, case_script, font_files
from generator import HOSTILE_SEEDS, Chance, changed, changed_metrics, framed, sheet
from hostile_scripts import changed_script, large_script, random_script
from hostile_sessions import ODD_OUTS, WHOLE, Talk
from models.dvi_writer import Font, Page, dvi_file
from models.every_instruction import every_instruction
from models.large_inputs import TINY
from models.plain_font import metric_file

# Twenty inputs have these kinds, and so has each next twenty.
KINDS = ("script",) * 5 + ("session",) * 2 + ("dvi",) * 6 + ("metrics",) * 3 + ("words",) * 4
LONGEST_GOOD = 20_000


@dataclass
class Input:
    """A run: its kind and the way it was made, its words, what standard input gives, and the files
    of its folder. `script` is what it runs, `out` where its file goes; `talk` is how a session is
    written to."""

    kind: str
    way: str
    words: list
    given: bytes = b""
    files: dict = field(default_factory=dict)
    script: Optional[bytes] = None
    out: Optional[str] = None
    talk: Optional[Talk] = None


class Good:
    """The good inputs. `typeset` makes the file of a script."""

    def __init__(self, typeset):
        text = content(ROOT + "/crates/rows_scripts/stdin")
        self.fonts = {name.decode(): data for name, data in font_files(text).items()}
        self.fonts["plain"] = metric_file()
        self.metrics = [*self.fonts.values(), TINY]
        scripts = [content(path) for path in sorted(glob.glob(ROOT + "/examples/*.box"))]
        cases = re.split(rb"^case .*\n", text, flags=re.M)[1:]
        scripts += [case_script(it.split(b"\n")) for it in cases]
        self.scripts = [it for it in scripts if len(it) < LONGEST_GOOD]
        made = [(typeset(it, self.fonts_of(it)), self.fonts_of(it)) for it in self.scripts]
        self.files = [it for it in made if it[0] and len(it[0]) < LONGEST_GOOD]
        paths = sorted(glob.glob(ROOT + "/tests/cases/program/*/files/*.dvi"))
        self.files += [(content(path), {"tiny": TINY}) for path in paths]
        # As many as a twentieth, since it has each instruction in all sizes of its number.
        self.files += [(every_instruction(), {"tiny": TINY})] * (len(self.files) // 20)

    def fonts_of(self, script):
        """The metric files that a script names."""
        names = sorted({*re.findall(rb"(?m)^ *font +\d+ +([\w.-]{1,99})", script)})
        return {it.decode(): self.fonts.get(it.decode(), self.fonts["plain"]) for it in names}

    def usual_fonts(self, script):
        """These, and two that other scripts name."""
        return {"tiny": TINY, "plain": self.fonts["plain"], **self.fonts_of(script)}


def font_words(fonts):
    """The words that give fonts. A name may begin as an option does."""
    is_like_an_option = any(it.startswith("-") for it in fonts)
    return ["--"] * is_like_an_option + [f"{it}={it}.tfm" for it in fonts]


def font_paths(fonts):
    return {name + ".tfm": data for name, data in fonts.items()}


def run_input(kind, way, script, fonts, command="typeset", out="out.dvi", talk=None):
    """A run of a script, whose file goes to `out`."""
    words = [command, out, *font_words(fonts)]
    return Input(kind, way, words, script, font_paths(fonts), script, out, talk)


# Scripts


def any_script(chance, good):
    """A script, and the way it was made."""
    way = chance.pick(("bytes",) + ("changed",) * 6 + ("bytes changed",) + ("commands",) * 7)
    if way == "changed" and chance.one_in(60):
        way = "large"
    if way == "bytes":
        script = chance.bytes(chance.below(600))
        if chance.one_in(2):
            script = bytes(b" \nabdehikoprtux019.-%"[it % 21] for it in script)
    elif way == "bytes changed":
        script = changed(chance, chance.pick(good.scripts), chance.pick(good.scripts))[1]
    elif way == "changed":
        script = changed_script(chance, good)
    else:
        script = (large_script if way == "large" else random_script)(chance)
    return way, script


def script_input(chance, good):
    way, script = any_script(chance, good)
    if chance.one_in(4):
        return Input("script", way, [], script, script=script)
    return run_input("script", way, script, good.usual_fonts(script))


# Sessions


def session_input(chance, good):
    """A session with a script; where all of it is written, its file may be one that cannot be
    made."""
    _, script = any_script(chance, good)
    talk = Talk(chance, script)
    out = chance.pick(ODD_OUTS) if talk.way in WHOLE and chance.one_in(15) else "out.dvi"
    return run_input("session", talk.way, script, good.usual_fonts(script), "session", out, talk)


# DVI files


def reading(chance, kind, way, data, fonts):
    """`list` of a file, `fonts` of it, or `paint` of a page of it."""
    words, files = ["list"], {"f.dvi": data, **font_paths(fonts)}
    if chance.one_in(4):
        words = ["paint", *SHEET]
        words[2::2] = sheet(chance)
    elif chance.one_in(5):
        return Input(kind, way, ["fonts", "f.dvi"], files=files)
    return Input(kind, way, [*words, "f.dvi", *font_words(fonts)], files=files)


def dvi_input(chance, good):
    if chance.one_in(4):
        return reading(chance, "dvi", "framed", framed(chance), {"tiny": TINY})
    if chance.one_in(20):
        data = chance.bytes(chance.below(400)) + b"\xdf" * chance.below(9)
        return reading(chance, "dvi", "bytes", data, {"tiny": TINY})
    data, fonts = chance.pick(good.files)
    way, data = changed(chance, data, chance.pick(good.files)[0])
    return reading(chance, "dvi", way, data, fonts)


# Metric files

USE_ALL = (
    b"font 0 f\nfont 1 f at 134217727sp\nfont 2 f at 1sp\nuse 0\nhbox into 0\ntext abcdeabcde zz aab\n"
    + b"".join(b"char %d\n" % it for it in (0, 97, 98, 200, 201, 255))
    + b"end\nship 0\nuse 2\nhbox into 0\ntext abcde edcba\nend\nship 0\n"
)


def metrics_input(chance, good):
    way, data = changed_metrics(chance, chance.pick(good.metrics), chance.pick(good.metrics))
    if chance.one_in(3):
        glyphs = bytes([171]) + bytes(it for it in chance.bytes(chance.below(6)) if it < 128)
        font = Font(0, b"f", chance.pick((655360, 1, 2**27 - 1, 2**26)))
        made = dvi_file([Page([glyphs], new_fonts=(font,))], 0, 0)
        return reading(chance, "metrics", way, made.data, {"f": data})
    return run_input("metrics", way, USE_ALL, {"f": data})


# Command lines

ODD_PATHS = [
    *"absent absent/page.dvi . folder f.dvi script tiny.tfm f.dvi/x".split(),
    "",
    *"- /dev/null /dev/stdin out.dvi loop no".split(),
]
ODD_NUMBERS = """0 1 2 -1 72 +72 007 10000 10001 4294967295 4294967296 99999999999999999999 1.5 x 1e3
    0x10""".split()
ODD_NUMBERS += ["", " 1", "9" * 5000]
ODD_PAIRS = """
    tiny=tiny.tfm tiny=tiny.tfm a=tiny.tfm tiny=absent tiny=. tiny= =tiny.tfm = tiny tiny==
    tiny=f.dvi tiny=/dev/null tiny=tiny.tfm=x""".split()
ODD_OPTIONS = """--help -h -V --version -- help list paint typeset session fonts --page -p --dpi= -hV
    --- --no lists TYPESET""".split()
OPTIONS = SHEET[::2]


def odd_word(chance):
    way = chance.below(9)
    if way == 0:
        return bytes(1 + it % 255 for it in chance.bytes(chance.below(12)))
    if way == 1:
        piece = chance.pick((b"a", b"=", b"n=", b"-", b"--page="))
        return piece * chance.pick((1, 100, 255, 256, 5000, 18000))
    if way == 2:
        return b"n" * chance.pick((254, 255, 256)) + b"=tiny.tfm"
    if way == 3:
        return chance.pick(ODD_OPTIONS).encode()
    if way == 4:
        return f"{chance.pick(OPTIONS)}={chance.pick(ODD_NUMBERS)}".encode()
    return chance.pick(ODD_PAIRS if way < 7 else ODD_PATHS).encode()


def path_of(chance, runs):
    """The path of the file of pages, which is odd now and then."""
    if chance.one_in(3):
        return chance.pick(ODD_PATHS)
    return "/dev/full" if chance.one_in(100) else "out.dvi" if runs else "f.dvi"


def paint_options(chance):
    """The options of `paint`, some with odd numbers."""
    for option in OPTIONS:
        number = chance.pick(ODD_NUMBERS if chance.one_in(4) else ("1", "2", "30"))
        yield f"{option}={number}".encode()


def words_input(chance, good):
    """Words that are mostly those of a good command line, with odd ones among them."""
    data, fonts = chance.pick(good.files)
    script = chance.pick(good.scripts) if chance.one_in(2) else random_script(chance)
    files = {"f.dvi": data, "script": script, "tiny.tfm": TINY, **font_paths(fonts)}
    way = chance.pick("typeset typeset session list list fonts paint paint any".split())
    runs = way in ("typeset", "session")
    named = good.fonts_of(script) if runs else fonts
    pairs = [] if way == "fonts" else [it.encode() for it in font_words(named)]
    words = [way.encode(), path_of(chance, runs).encode(), *pairs]
    if way == "paint":
        words[1:1] = paint_options(chance)
    if way == "any":
        words = []
    for _ in range(chance.pick((0, 0, 0, 1, 1, 2, 3))):
        words.insert(chance.below(len(words) + 1), odd_word(chance))
    if chance.one_in(8) and words:
        del words[chance.below(len(words))]
    if chance.one_in(200):
        words += [b"n%d=tiny.tfm" % at for at in range(chance.below(2000))]
    if runs:
        files.update(font_paths(named))
    places = [os.fsdecode(it) for it in words[1:] if it != b"--"]
    out = places[0] if places and words[0] in (b"typeset", b"session") else None
    return Input("words", way, words, script, files, script, out)


MAKERS = {
    "script": script_input,
    "session": session_input,
    "dvi": dvi_input,
    "metrics": metrics_input,
    "words": words_input,
}


def input_of(number, good):
    """The input of this number."""
    kind = KINDS[number % len(KINDS)]
    return MAKERS[kind](Chance(number, HOSTILE_SEEDS), good)
