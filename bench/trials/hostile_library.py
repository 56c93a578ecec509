#!/usr/bin/env python3
"""Calls the library for C on hostile inputs, and compares it with the program:
bench/trials/hostile_library.py --archive LIBBOXGLUE_C [--boxglue PROGRAM] [--count N] [--first N].

The inputs are the scripts, DVI files and metric files of hostile.py. The caller is that of
bindings/c, with AddressSanitizer where the compiler has it: it makes each call also with no room
and with a byte too little, and fails where a byte outside its buffers is written or memory is not
freed.
A script is run at once and in pieces on a job, each with answers as texts and as numbers; one with
bad lines goes line by line to a job, which refuses these alone. A file is listed, painted, and
asked for its marks and its fonts. The answers and bytes have to be those of the program, the fonts
also those of the reader of the tests."""

import os
import re
import sys
import time
from collections import Counter, defaultdict

from trial import ROOT, fast_folder, in_words, parser_of
from common.files import write
from common.library_build import build_calls
from common.library_inputs import SHEET
from common.outcome import Wrong, require
from hostile import Room
from hostile_inputs import Good, input_of
from hostile_sessions import Wanted
from models.dvi_reader import definitions_after, parts_of
from models.metric_reader import Refused

NO_SUCH_PAGE = 5
WIDTH = re.compile(rb"^(glyph .*) width -?\d+$", re.M)


def called(room, words):
    """What the caller prints: the status, and both outputs."""
    ran = room.run(words)
    line, _, rest = ran.output.partition(b"\n")
    is_right = ran.status == 0 and re.fullmatch(rb"\d+ \d+ \d+", line)
    require(is_right, f"{words[0]}: status {ran.status}, {ran.errors[-500:]!r}")
    status, first, second = map(int, line.split())
    return status, rest[:first], rest[first : first + second]


def same_call(library, words, wanted):
    """Makes a call, which has to give what is wanted."""
    said = f"{words[0]}: not as the program, which ends with {wanted[1][-100:]!r}"
    require(called(library, words) == wanted, said)


def renumbered(refusal, number):
    """The refusal of a bad line under another number."""
    return re.sub(rb"(BadScript )\d+", rb"\g<1>%d" % number, refusal)


def check_bad_lines(program, library, it, words):
    """A script with bad lines, line by line on a job. A bad line does not count, so that the lines
    after it have the numbers that they have without it."""
    wanted, count, answers = Wanted(program, it, it.script, "out.dvi"), 0, []
    lines = it.script.split(b"\n")
    ends = [b"\n"] * (len(lines) - 1) + [b""]
    numbered = enumerate(zip(lines, ends), 1)
    text = b"".join(line + end for at, (line, end) in numbered if at not in wanted.bad)
    program.fill(it.files)
    ran = program.run(["typeset", "out.dvi", *it.words[2:]], text, "out.dvi")
    replies = {int(found[1]): found[0] for found in re.finditer(rb"(?m)^(\d+):.*\n", ran.output)}
    for number in range(1, len(lines) + 1):
        bad = wanted.bad.get(number)
        count += not bad
        answers.append(renumbered(bad, count + 1) if bad else replies.get(count, b""))
    write("script", it.script)
    whole = b"".join([*answers, wanted.end])
    same_call(library, ["job", "1", "script", *words], (1, whole, ran.made or b""))


def check_script(program, library, it):
    """A script: run at once, and in pieces."""
    words = [word for word in it.words[2:] if word != "--"]
    write("script", it.script)
    ran = program.run(["typeset", "out.dvi", *it.words[2:]], it.script, "out.dvi")
    wanted = ran.status, ran.output, ran.made or b""
    for call in ("run", "run_replies"):
        same_call(library, [call, "script", *words], wanted)
    if ran.output.startswith(b"refused 2 BadScript"):
        check_bad_lines(program, library, it, words)
        return "bad"
    for call in (("job", "1"), ("job", "7"), ("job_replies", "3")):
        same_call(library, [*call, "script", *words], wanted)
    return ("accepted", "refused")[ran.status]


def wanted_fonts(data):
    """What the caller prints of the fonts of a DVI file, by the reader of the tests. It prints a
    name up to a byte 0."""
    try:
        rows = [(number, *parts_of(fields)) for number, fields in definitions_after(data)]
    except Refused as refusal:
        line = b"refused %s\n" % str(refusal).encode()
        return b"1 0 %d\n%s" % (len(line), line)
    text = b"0 %d %d\n" % (len(rows), sum(len(name) for _, _, name, *_ in rows))
    for number, _, name, size, design, check_sum in rows:
        its = number, size, name.split(b"\0")[0], design, int.from_bytes(check_sum, "big")
        text += b"%d %d %s %d %d\n" % its
    return text


def check_fonts(library, data):
    """The fonts of a DVI file, beside those of the reader of the tests."""
    ran, wanted = library.run(["fonts", "f.dvi"]), wanted_fonts(data)
    found = ran.output[:200] or ran.errors[-500:]
    said = f"fonts: status {ran.status}, {found!r}, and not {wanted[:200]!r}"
    require(ran.status == 0 and ran.output == wanted, said)


def check_marks(library, words, wanted):
    """The marks of a DVI file, which are those of its listing."""
    ran = library.run(["marks", "f.dvi", *words])
    line, _, listing = ran.output.partition(b"\n")
    is_right = ran.status == 0 and re.fullmatch(rb"%d \d+ \d+ \d+" % wanted.status, line)
    require(is_right, f"marks: status {ran.status}, {line or ran.errors[-500:]!r}")
    require(WIDTH.sub(rb"\1", listing) == wanted.output, "marks: not as the listing of the program")


def check_file(program, library, it):
    """A DVI file: listed, painted, and asked for its marks and its fonts."""
    after = it.words[it.words.index("f.dvi") + 1 :]
    words = [word for word in after if word != "--"]
    for call, options in (("list", []), ("paint", SHEET)):
        ran = program.run([call, *options, "f.dvi", *after])
        wanted = (NO_SUCH_PAGE, b"") if ran.status == 2 else (ran.status, ran.output)
        found = called(library, [call, *options[1::2], "f.dvi", *words])
        require(found == (*wanted, b""), f"{call}: status {found[0]}, not as the program")
        if call == "list":
            check_marks(library, words, ran)
    check_fonts(library, it.files["f.dvi"])
    return ("accepted", "refused", "no such page")[ran.status]


def main():
    parser = parser_of(__doc__, True)
    parser.add_argument("--archive", required=True, type=os.path.abspath)
    words = parser.parse_args()
    caller, came = build_calls(ROOT, words.archive), defaultdict(Counter)
    wrong, start = 0, time.monotonic()
    with fast_folder() as folder:
        room = Room(words.boxglue, folder)
        good, library = Good(room.typeset), room.other(caller)
        for number in range(words.first, words.first + words.count):
            it = input_of(number, good)
            if it.kind == "words":
                continue
            room.fill(it.files)
            try:
                check = check_file if it.script is None else check_script
                came[it.kind][check(room, library, it)] += 1
            except Wrong as why:
                wrong += 1
                print(f"input {number}, {it.kind}, {it.way}: {why}", flush=True)
            if (number + 1) % 5000 == 0:
                print(f"{number + 1} after {time.monotonic() - start:.0f} s", flush=True)
        os.chdir("/")
    for kind, found in came.items():
        print(f"{kind}: {in_words(found)}")
    print(f"{wrong} inputs are wrong")
    sys.exit(bool(wrong))


main()
