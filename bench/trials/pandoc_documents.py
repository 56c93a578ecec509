#!/usr/bin/env python3
"""Sets all documents of folders through pandoc and examples/pandoc, and prints a table of what came
of it by format. With --beside it sets documents by pandoc's LaTeX and one run of pdflatex, too,
whose text has the same width, and prints a table of both.

    bench/trials/pandoc_documents.py OUT FOLDER.. [--hyphens FILE] [--most BYTES] [--beside FILE]..

It needs BOXGLUE_LIBRARY and Debian's packages pandoc, lmodern and texlive-binaries, and --beside
texlive-latex-recommended. OUT gets the PDF files, and documents.tsv with a row for each document. A
document whose text is above --most bytes is left out. It uses one process at a time, so `nice -n 15
taskset -c 0` keeps it out of the way."""
import argparse
import gzip
import os
import re
import subprocess
import sys
import time
from collections import defaultdict

from trial import ROOT
from common.files import content, write
from common.running import finished

# Pandoc's readers by the ends of names. A page of the manual ends with its section.
READERS = {"md": "gfm", "xml": "docbook", **dict.fromkeys("1578", "man")}
READERS |= {it: it for it in "markdown rst org docbook html".split()}
FIELDS = "document format pages overfull loose seconds MB pandoc boxglue dvipdfmx".split()
LIMIT = 900
HEAD = "format documents pages".split() + ["not read by pandoc", "refused", "faults of dvipdfmx"]
HEAD += ["overfull lines", "lines with a badness above 1000", "seconds", "most MB"]
BESIDE = [
    "document",
    "pages",
    "overfull lines",
    "LaTeX's pages",
    "its overfull lines",
    "its errors",
]
SAID = re.compile(r"^(\d+) pages, .*?(\d+) of them overfull, (\d+) with", re.M)


def reader_of(name):
    """Pandoc's reader for a file; None if there is none."""
    name = name.removesuffix(".gz")
    return READERS.get(name.rpartition(".")[2]) if "." in name else None


def documents(folders, most):
    """The files of folders that pandoc can read, with their readers."""
    for folder in folders:
        for place, _, names in sorted(os.walk(folder)):
            for name in sorted(names):
                path = f"{place}/{name}"
                if reader_of(name) and os.path.isfile(path) and 0 < os.path.getsize(path) <= most:
                    yield path, reader_of(name)


def text_of(path):
    """The bytes of a file, which may be compressed."""
    with (gzip.open if path.endswith(".gz") else open)(path, "rb") as it:
        return it.read()


def run(words, given=b""):
    """Runs a program. Returns its status, its output and its errors; a status of its own where it
    takes too long."""
    try:
        ran = finished(words, input=given, timeout=LIMIT)
    except subprocess.TimeoutExpired as late:
        return -1, late.stdout, "it took too long"
    return ran.returncode, ran.stdout, ran.stderr.decode(errors="replace")


def measured(words, source):
    """Runs a program over a text. Returns its status, its errors, its seconds of processor and its
    most memory in MB."""
    with open(f"{source}.said", "wb") as said:
        how = {"stdin": subprocess.DEVNULL, "stdout": subprocess.DEVNULL, "stderr": said}
        how["env"] = {**os.environ, "PYTHONPATH": f"{ROOT}/bindings/python"}
        _, status, used = os.wait4(subprocess.Popen(words, **how).pid, 0)
    text = content(f"{source}.said").decode(errors="replace")
    seconds, memory = used.ru_utime + used.ru_stime, used.ru_maxrss / 1024
    return os.waitstatus_to_exitcode(status), text, seconds, memory


def set_document(path, reader, words, number):
    """Sets a document, and returns its row."""
    row = dict.fromkeys(FIELDS, "") | {"document": path, "format": reader}
    source = f"{words.out}/{number}"
    status, made, errors = run(["pandoc", "-f", reader, "-t", "json"], text_of(path))
    if status:
        return {**row, "pandoc": errors.strip()[:200] or str(status)}
    write(f"{source}.json", made)
    command = [sys.executable, f"{ROOT}/examples/pandoc/pandoc_pages.py", f"{source}.dvi"]
    command += [f"{source}.json", "--pictures", os.path.dirname(path)]
    command += ["--hyphens", words.hyphens] * bool(words.hyphens)
    status, said, seconds, memory = measured(command, source)
    row |= {"seconds": f"{seconds:.2f}", "MB": f"{memory:.0f}"}
    found = SAID.search(said)
    if status or not found:
        return {**row, "boxglue": (said.strip().splitlines() or [str(status)])[-1][:200]}
    row |= dict(zip(["pages", "overfull", "loose"], found.groups()))
    status, _, errors = run(["dvipdfmx", "-q", "-o", f"{source}.pdf", f"{source}.dvi"])
    wrong = [it for it in errors.splitlines() if it.strip()]
    return {**row, "dvipdfmx": f"{status} {' '.join(wrong)}"[:200] if status or wrong else ""}


def beside(path, words, number):
    """A row of the second table: a document by both."""
    source = f"{words.out}/beside{number}"
    row = set_document(path, reader_of(path), words, f"beside{number}")
    run(["pandoc", "-s", "-t", "latex", "-f", "json", f"{source}.json", "-o", f"{source}.tex"])
    run(["pdflatex", "-interaction=nonstopmode", f"-output-directory={words.out}", f"{source}.tex"])
    log = content(f"{source}.log").decode(errors="replace")
    lines, errors = (len(re.findall(form, log, re.M)) for form in (r"^Overfull .hbox", "^!"))
    pages = re.findall(r"Output written.*\((\d+) pages?", log.replace("\n", ""))
    cells = os.path.basename(path), row["pages"], row["overfull"], "".join(pages), lines, errors
    return row_of(cells)


def row_of(cells):
    """A row of a table."""
    return f"| {' | '.join(map(str, cells))} |"


def table(rows):
    """The table of formats."""
    yield row_of(HEAD)
    yield "|---" * len(HEAD) + "|"
    by_format = defaultdict(list)
    for it in rows:
        by_format[it["format"]].append(it)
        by_format["all"].append(it)
    for name, its in sorted(by_format.items(), key=lambda it: (it[0] == "all", it[0])):
        wrong = [sum(bool(it[field]) for it in its) for field in ("pandoc", "boxglue", "dvipdfmx")]
        pages, *lines = (
            f"{sum(float(it[field] or 0) for it in its):,.0f}"
            for field in ("pages", "overfull", "loose", "seconds")
        )
        most = max(float(it["MB"] or 0) for it in its)
        yield row_of([name, len(its), pages, *wrong, *lines, f"{most:.0f}"])


def main():
    """Runs the command line."""
    layout = argparse.RawDescriptionHelpFormatter
    parser = argparse.ArgumentParser(description=__doc__, formatter_class=layout)
    parser.add_argument("out", metavar="OUT")
    parser.add_argument("folders", metavar="FOLDER", nargs="*")
    parser.add_argument("--hyphens", metavar="FILE", help="TeX's patterns")
    parser.add_argument("--most", metavar="BYTES", type=int, default=10_000_000)
    about = {"default": [], "help": "a document to be set by LaTeX, too"}
    parser.add_argument("--beside", metavar="FILE", action="append", **about)
    words = parser.parse_args()
    os.makedirs(words.out, exist_ok=True)
    rows, began = [], time.monotonic()
    with open(f"{words.out}/documents.tsv", "w", encoding="utf-8") as out:
        print(*FIELDS, sep="\t", file=out)
        for number, (path, reader) in enumerate(documents(words.folders, words.most)):
            rows.append(set_document(path, reader, words, number))
            cells = (re.sub(r"\s", " ", rows[-1][it]) for it in FIELDS)
            print(*cells, sep="\t", file=out, flush=True)
            said = f"\r{number + 1} {time.monotonic() - began:.0f} s {path[-60:]:60}"
            print(said, end="", file=sys.stderr)
    if rows:
        print(*table(rows), sep="\n")
    if words.beside:
        print(row_of(BESIDE), "|---" * len(BESIDE) + "|", sep="\n")
        print(*(beside(path, words, number) for number, path in enumerate(words.beside)), sep="\n")


if __name__ == "__main__":
    main()
