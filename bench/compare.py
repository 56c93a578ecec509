#!/usr/bin/env python3
"""Compares two programs on random inputs: bench/compare.py PROGRAM OTHER [--scripts N] [--hostile
N] [--first N] [--keep FOLDER].

The inputs are documents (compare_documents.py), always the same ones, and with --hostile also those
of bench/trials/hostile.py. Status, answers, messages and files have to be equal, and the listings
of the files that each program makes. Printed are the inputs that differ, and what the documents had
in them; the status is 1 where one differs. What --version prints may differ."""

import argparse
import collections
import os
import re
import sys
import tempfile

sys.path.insert(1, os.path.join(os.path.dirname(os.path.abspath(__file__)), "trials"))
from compare_documents import document_of  # noqa: E402 (after the path)
from common.files import write  # noqa: E402
from hostile import Room, keep  # noqa: E402
from hostile_inputs import Good, input_of  # noqa: E402
from items import CMR10  # noqa: E402

SHOWN = 20
FOUND = {
    "paragraphs of no line": rb"lines 0 pass 0",
    "paragraphs of pass 1": rb"pass 1",
    "paragraphs of pass 2": rb"pass 2",
    "paragraphs of pass 3": rb"pass 3",
    "pages": rb": shipped",
    "splits": rb": split",
    "refusals": rb"refused",
}


def results(room, it):
    """What a program makes of an input, by name."""
    room.fill(it.files)
    ran = room.run(it.words, it.given, it.out)
    listed = None
    if ran.made and it.kind != "words":
        write("made.dvi", ran.made)
        listed = room.run(["list", "made.dvi", *it.words[2:]]).output
    return {
        "status": ran.status,
        "answers": ran.output,
        "messages": ran.errors,
        "file": ran.made,
        "listing": listed,
    }


def differences(rooms, versions, it):
    """The names of the results in which two programs differ, and the results of the first one."""
    first, other = (results(room, it) for room in rooms)
    same_version = first["answers"] == versions[0] and other["answers"] == versions[1]
    return [
        name
        for name in first
        if first[name] != other[name] and not (same_version and name == "answers")
    ], first


def compare(rooms, inputs, kept):
    """Compares two programs on numbered inputs. Returns how many differ, and what was in the
    answers."""
    versions, wrong, found = (
        [room.run(["--version"]).output for room in rooms],
        0,
        collections.Counter(),
    )
    for number, it in inputs:
        names, first = differences(rooms, versions, it)
        found["inputs"] += 1
        for what, pattern in FOUND.items():
            found[what] += (
                len(re.findall(pattern, first["answers"])) if it.kind == "document" else 0
            )
        if names:
            wrong += 1
            if wrong <= SHOWN:
                print("%s %d: other %s" % (it.kind, number, ", ".join(names)), flush=True)
            if kept:
                keep("%s/%s" % (kept, it.kind), number, it)
    return wrong, found


def words_of():
    """Reads the command line."""
    layout = argparse.RawDescriptionHelpFormatter
    parser = argparse.ArgumentParser(description=__doc__, formatter_class=layout)
    parser.add_argument("programs", nargs=2, metavar="PROGRAM", help="the two programs")
    for name, default, about in (
        ("--scripts", 4000, "how many documents (4,000)"),
        ("--hostile", 0, "how many inputs of bench/trials/hostile.py (0)"),
        ("--first", 0, "the number of the first (0)"),
    ):
        parser.add_argument(name, type=int, default=default, metavar="N", help=about)
    parser.add_argument("--keep", metavar="FOLDER", help="where the inputs go that differ")
    return parser.parse_args()


def main():
    words = words_of()
    programs = [os.path.abspath(it) for it in words.programs]
    kept = words.keep and os.path.abspath(words.keep)
    if not os.path.exists(CMR10):
        sys.exit("%s is not there: Debian's package texlive-base" % CMR10)
    with open(CMR10, "rb") as file:
        metrics = file.read()
    memory = "/dev/shm" if os.path.isdir("/dev/shm") else None
    with tempfile.TemporaryDirectory(dir=memory) as folder:
        room = Room(programs[0], folder)
        rooms, good = (room, room.other(programs[1])), Good(room.typeset) if words.hostile else None
        documents = (
            (it, document_of(it, metrics)) for it in range(words.first, words.first + words.scripts)
        )
        hostile = (
            (it, input_of(it, good)) for it in range(words.first, words.first + words.hostile)
        )
        wrong, found = compare(
            rooms, (pair for inputs in (documents, hostile) for pair in inputs), kept
        )
        os.chdir("/")
    print(", ".join("%s %d" % it for it in found.items()))
    print(
        "%d inputs differ" % wrong
        if wrong
        else "status, answers, messages, files and listings are equal"
    )
    sys.exit(bool(wrong))


main()
