"""A program that makes the calls of bindings/python on inputs that are files, with the words and
the output of bindings/c/library_calls.c: the calls on standard input, a list of words in JSON for
each, one after the other."""
import json
import sys

import boxglue

SHEET = ("page", "dpi", "width", "height")


def data_of(path):
    """The bytes of a file."""
    with open(path, "rb") as it:
        return it.read()


def fonts_of(words):
    """The fonts of words NAME=PATH."""
    return [(name, data_of(path)) for name, path in (it.split("=", 1) for it in words)]


def pieces_of(script, most):
    """The pieces of a script, as bindings/c/job_calls.c cuts it."""
    if not most:
        yield script
        return
    lines, number = script.splitlines(keepends=True), 0
    while lines:
        count = (7 * number + 3) % (most + 1)
        yield b"".join(lines[:count])
        del lines[:count]
        number += 1


def run_pieces(script, fonts, most):
    """The run of a script in pieces on a job."""
    answers, dvi = [], []
    with boxglue.Job(fonts) as job:
        for piece in pieces_of(script, most):
            answers.append(job.commands(piece))
            dvi.append(job.take())
        answers.append(job.finish())
        dvi.append(job.take())
    return (
        int(not all(it.accepted for it in answers)),
        "".join(it.answers_text for it in answers),
        b"".join(dvi),
    )


def fault_line(fault):
    """The status and the line of a file's fault, which has a place, if there is one."""
    return (
        (1, f"refused {fault.number} {fault.name} {fault.place} {fault.cause}\n", b"")
        if fault
        else (0, "", b"")
    )


def answer(call, words):
    """The status, the text and the bytes of a call."""
    sheet = {name: int(words.pop(0)) for name in SHEET} if call == "paint" else {}
    most = int(words.pop(0)) if call == "job" else 0
    data, fonts = data_of(words[0]), fonts_of(words[1:])
    if call in ("run", "job"):
        if call == "job":
            return run_pieces(data, fonts, most)
        ran = boxglue.run(data, fonts)
        return int(not ran.accepted), ran.answers_text, ran.dvi
    if call == "fonts":
        return (
            0,
            "".join(
                f"{it.number} {it.size} {it.name} {it.design_size} {it.check_sum}\n"
                for it in boxglue.fonts(data)
            ),
            b"",
        )
    if call == "check":
        return fault_line(boxglue.check(data, fonts))
    if call == "marks":
        from tests.samples import listing_of  # beside the package, not this folder

        return 0, listing_of(boxglue.marks(data, fonts)), b""
    return (
        0,
        boxglue.listing(data, fonts) if call == "list" else boxglue.paint(data, fonts, **sheet).pbm,
        b"",
    )


def main(call, *words):
    """Makes a call, and prints what comes of it."""
    try:
        status, text, dvi = answer(call, [*words])
    except boxglue.Refused as refused:
        status, text, dvi = 1, f"{refused}\n", b""
    sys.stdout.buffer.write(
        b"%d %d %d\n" % (status, len(text), len(dvi)) + text.encode("ascii") + dvi
    )


if __name__ == "__main__":
    for call in json.load(sys.stdin):
        main(*call)
