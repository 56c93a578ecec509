"""The DVI and metric files of crates/rows_damaged/stdin: the lines of the file stdout there for
each changed byte and each beginning, made again by the readers of the tests. It runs no program,
and leaves out the script, whose answers need the whole machine."""
import re
from dataclasses import dataclass, field
from functools import partial

from common.case_folder import read
from common.part import in_turn
from common.texts import blocks, first_difference
from models.dvi_reader import list_file
from models.every_instruction import every_instruction
from models.metric_reader import Refused, read_metrics

TITLE = (
    "the damaged files of crates/rows_damaged, by the tests' own readers of DVI and metric files"
)
WEIGHT = 2
TRIES = False
SPLIT = in_turn(4)

# How many places of a file are one case.
PLACES = 64
OFFSET_BASIS, PRIME, MASK = 0xCBF29CE484222325, 0x100000001B3, (1 << 64) - 1


@dataclass
class Sample:
    """A good file: its kind, its bytes, the metric files for it, and the lines that ask for
    changes."""

    kind: str
    data: bytes = b""
    fonts: dict = field(default_factory=dict)
    asked: list = field(default_factory=list)

    def answer(self, data):
        """The text for a copy of the file, and whether this is accepted."""
        if self.kind == "dvi":
            return list_file(data, self.fonts)
        try:
            read_metrics(data)
        except Refused as refusal:
            return f"refused {refusal}\n".encode(), False
        return b"accepted\n", True

    def with_byte(self, place, value):
        """The answer to the file with another byte at a place."""
        return self.answer(self.data[:place] + bytes([value]) + self.data[place + 1 :])


def samples_of(text):
    """The good files, by their names."""
    samples, last = {}, None
    for line in text.decode().splitlines():
        word, _, rest = line.partition(" ")
        if word in ("dvi", "metrics", "script"):
            last = samples[rest] = Sample(word)
        elif word == "bytes":
            last.data += bytes.fromhex(rest)
        elif word == "font":
            last.fonts[rest.encode()] = samples[rest].data
        elif word in ("change", "each"):
            last.asked.append(line)
    return samples


def hashed(texts):
    """The 64-bit FNV-1a hash of texts, one after the other."""
    found = OFFSET_BASIS
    for text in texts:
        for byte in text:
            found = (found ^ byte) * PRIME & MASK
    return f"{found:016x}"


def first_line(text, is_accepted):
    """`accepted`, or the first line of a text."""
    return "accepted" if is_accepted else text.decode().partition("\n")[0]


def changed(sample, line):
    """The line for one changed byte."""
    _, place, value = line.split()
    return f"{line} {first_line(*sample.with_byte(int(place), int(value, 16)))}"


def changed_at(sample, place):
    """The line for all changes of the byte at a place."""
    found = [sample.with_byte(place, value) for value in range(256) if value != sample.data[place]]
    return f"byte {place} {sum(it for _, it in found)} {hashed(text for text, _ in found)}"


def cut(sample, length):
    """The line for a beginning."""
    text, is_accepted = sample.answer(sample.data[:length])
    return f"first {length} {hashed([text])} {first_line(text, is_accepted)}"


def pieces_of(sample):
    """The lines of a file in pieces: names of cases, and calls that make their lines."""
    singles = [it for it in sample.asked if it.startswith("change ")]
    if singles:
        yield "changes", lambda: [changed(sample, it) for it in singles]
    if "each byte" in sample.asked:
        for at in range(0, len(sample.data), PLACES):
            places = range(at, min(at + PLACES, len(sample.data)))
            yield f"bytes_from_{at}", lambda places=places: [
                changed_at(sample, it) for it in places
            ]
    if "each beginning" in sample.asked:
        yield "beginnings", lambda: [cut(sample, it) for it in range(len(sample.data) + 1)]


def lines_of(text, name):
    """The lines of the file stdout that a piece makes."""
    if name == "changes":
        return re.findall(rb"^change .*$", text, re.M)
    if name == "beginnings":
        return re.findall(rb"^first .*$", text, re.M)
    at = int(name.rpartition("_")[2])
    return [
        it for it in re.findall(rb"^byte .*$", text, re.M) if at <= int(it.split()[1]) < at + PLACES
    ]


def outcome(text, name, make):
    """How the lines of a piece differ from those of the readers."""
    return first_difference(
        "the text", b"\n".join(lines_of(text, name)), "\n".join(make()).encode()
    )


def cases(_programs, root):
    """The bytes of the file that is made, and the pieces of each DVI and metric file."""
    folder = f"{root}/crates/rows_damaged"
    printed, samples = blocks(read(folder, "stdout")), samples_of(read(folder, "stdin"))
    yield "every_instruction/file", lambda: first_difference(
        "the file", samples["every_instruction"].data, every_instruction()
    )
    for name, sample in samples.items():
        if sample.kind != "script":
            for piece, make in pieces_of(sample):
                yield f"{name}/{piece}", partial(outcome, printed[name.encode()], piece, make)
