"""tests/claims.tsv: each sentence that boxglue promises, and the contracts, definitions, tests and
edits that carry it, in the order of the crates: `tests/claims` sorts it. A case for each crate: its
lines have their columns, and what they refer to is in the tree. Only texts are compared, and no
program is run."""
import functools
import glob
import os
import re
from collections import Counter
from functools import partial

from common.files import read, write

TITLE = "tests/claims.tsv: what carries each claim is in the tree"
TRIES = False
FILE = "tests/claims.tsv"
HEAD = "subject\tclause\tcarried by\tnote"
MOST = 4
# Crates of tests, and the name for lines without a crate.
BESIDE = re.compile(r"(?:rows|tests|examples)_")
OTHERS = "beside the crates"
# The marks by which an outside text numbers its sentences. The table has to be readable without
# that text.
FOREIGN = re.compile(r"\b(?:[DTWR]\d{1,2}|[Pp]apers?|[Tt]heorems?)\b")
# Where the clauses of a function end: at its body, at the end of its declaration, or before the
# next function.
BODY = re.compile(r"\n[ ]*\{|;[ ]*\n[ ]*(?:\n|\})|\bfn \w")
CLAUSE = r"\b(?:requires|ensures|invariant) {0} \{{"


@functools.lru_cache(None)
def texts(pattern):
    """The texts of the files of a pattern."""
    found = []
    for path in sorted(glob.glob(pattern, recursive=True)):
        found.append(read(path))
    return found


def sources(root, crate):
    """The texts of the sources of a crate."""
    return texts(f"{root}/crates/{crate}/src/**/*.rt")


def contracts(root, crate, name):
    """What is between the name and the body of each function with this name; a type before it, as
    in Type::name, chooses the files that have it."""
    *kinds, last = name.split("::")
    for text in sources(root, crate):
        if all(re.search(rf"\b{kind}\b", text) for kind in kinds):
            for match in re.finditer(rf"\bfn {last}\b", text):
                rest = text[match.end() :]
                body = BODY.search(rest)
                yield rest[: body.start() + 1] if body else rest


def declared(root, given):
    """Whether the definitions of a crate declare a name."""
    crate, _, name = given.partition("::")
    line = re.compile(
        rf"(?m)^(?:(?:unfoldable|abbrev|pub|total|record|data) )*{re.escape(name)}\b[^\n]*:"
    )
    return any(line.search(it) for it in texts(f"{root}/crates/{crate}/specs/**/*.antt"))


def function(root, given):
    """Whether there is a function, and its clause if one is named."""
    match = re.fullmatch(r"(\w+)::((?:\w+::)*\w+)(?:\.(\w+))?", given)
    if not match:
        return False
    crate, name, clause = match.groups()
    found = list(contracts(root, crate, name))
    if clause:
        return any(re.search(CLAUSE.format(clause), it) for it in found)
    return bool(found) or declared(root, given)


def kind(root, given):
    """Whether there is a type or trait."""
    crate, _, name = given.partition("::")
    return any(
        re.search(rf"\b(?:struct|enum|trait|type) {name}\b", it) for it in sources(root, crate)
    )


def test(root, given):
    """Whether there is a test."""
    crate, _, name = given.partition("::")
    return any(re.search(rf"#\[test\][^{{}}]*?\bfn {name}\b", it) for it in sources(root, crate))


@functools.lru_cache(None)
def by_name(root):
    """The parts of tests/run. They are asked for here, as this module is one of them."""
    from common.part import all_parts

    return {it.name: it for it in all_parts(root)}


@functools.lru_cache(None)
def names_of(root, part):
    """The names of the cases of a part."""
    return (
        {name for name, _ in by_name(root)[part].cases([], root)}
        if part in by_name(root)
        else set()
    )


def case(root, given):
    """Whether there is a case of a part."""
    part, _, name = given.partition("/")
    return name in names_of(root, part)


def edit(root, given):
    """Whether there is an edit that has to fail."""
    crate, _, name = given.partition("/")
    return any(
        os.path.exists(f"{root}/crates/{crate}/{folder}/{name}.edit")
        for folder in ("must-fail", "wrong-bodies", "refused-by-tests")
    )


FORMS = {
    "spec": declared,
    "type": kind,
    "test": test,
    "case": case,
    "edit": edit,
    "run": lambda root, given: given in by_name(root),
    "file": lambda root, given: os.path.exists(f"{root}/{given}"),
}


def is_there(root, reference):
    """Whether the tree has what a reference names."""
    form, _, given = reference.partition(" ")
    return FORMS[form](root, given) if given and form in FORMS else function(root, reference)


def wrong_in(root, number, line):
    """What is wrong with a line."""
    columns = line.split("\t")
    if (
        len(columns) != 4
        or not all(it.strip() for it in columns[:3])
        or any(it != it.strip() for it in columns)
    ):
        yield f"line {number}: not four columns, the first three not empty, without spaces at their ends"
        return
    carried = columns[2].split("; ")
    if carried == ["none"]:
        yield from [] if columns[3] else [
            f"line {number}: nothing carries it, and no note says why"
        ]
    else:
        yield from (f"line {number}: no {it}" for it in carried if not is_there(root, it))
    if len(carried) > MOST:
        yield f"line {number}: more than {MOST} references"
    if FOREIGN.search(f"{columns[0]} {columns[1]} {columns[3]}"):
        yield f"line {number}: a mark of another text"


@functools.lru_cache(None)
def crates(root):
    """The crates in the order of crates.txt, and the tests, cases and examples after them."""
    names = [
        it.split(":")[0].split()[0]
        for it in texts(f"{root}/crates.txt")[0].splitlines()
        if ":" in it and not it.startswith("#")
    ]
    return [it for it in names if not BESIDE.match(it)] + [it for it in names if BESIDE.match(it)]


def crate_of(root, line):
    """The crate of a line: that of its first reference into a crate of the program, else into one
    of tests; else none."""
    found = [
        re.match(r"(?:\w+ )?(\w+)(?:::|/)", it)
        for it in (line.split("\t") + ["", ""])[2].split("; ")
    ]
    named = [it[1] for it in found if it and it[1] in crates(root)]
    return min(named, key=lambda it: bool(BESIDE.match(it)), default=OTHERS)


def in_order(root, lines):
    """The lines by their crates, and there by subject and sentence."""
    place = {name: at for at, name in enumerate(crates(root))}
    return sorted(
        lines, key=lambda it: (place.get(crate_of(root, it), len(place)), *it.split("\t")[:2])
    )


def outcome(root, lines):
    """What is wrong with the lines of one crate."""
    twice = {
        " ".join(key)
        for key, count in Counter(tuple(line.split("\t")[:2]) for _, line in lines).items()
        if count > 1
    }
    wrong = [it for number, line in lines for it in wrong_in(root, number, line)] + [
        f"two lines say: {it}" for it in sorted(twice)
    ]
    return "; ".join(wrong) or None


def table(root):
    """The lines of the table."""
    return read(f"{root}/{FILE}").splitlines()


def sort(root):
    """Writes the table in its order."""
    head, *lines = table(root)
    write(f"{root}/{FILE}", "\n".join([head, *in_order(root, lines)]) + "\n")


def cases(_programs, root):
    """A case for the head of the table, one for its order, and one for each crate."""
    head, *lines = table(root)
    yield "the head", lambda: None if head == HEAD else f"{FILE} does not begin with its head"
    yield "the order", lambda: None if lines == in_order(
        root, lines
    ) else f"{FILE} is not sorted: run tests/claims"
    by_crate = {}
    for number, line in enumerate(lines, 2):
        by_crate.setdefault(crate_of(root, line), []).append((number, line))
    for crate, its in by_crate.items():
        yield crate, partial(outcome, root, its)
