"""The names that documents, as docs/PROVED.md and the README.md of each crate, write as code:
functions, clauses, laws, definitions, crates, edits. Each has to be in the sources. Only texts are
compared, and no program is run."""
import functools
import glob
import os
import re
from functools import partial

from common.files import source as read
from lint.reached import DECLARED

TITLE = (
    "the names of code in documents and in each crate's README.md are in the sources, as the clauses that PROVED.md and these name, and "
    "definitions where documents place them; no comment writes the test attribute, no code has floating-point numbers; the job knows no crate of "
    "DVI; no export has a premise; no line of code is above 150 columns; no definition, no function and no type is named by a bare participle, "
    "and none has a word for which another is in use"
)
TRIES = False
DOCUMENTS = """
    docs/PROVED.md docs/TOUR.md docs/ARCHITECTURE.md docs/internal/*.md docs/DECISIONS.md
    docs/LIBRARY.md CHANGELOG.md bench/trials/README.md crates/README.md crates/*/README.md""".split()
SOURCES = """
    crates/*/src/**/*.rt crates/*/specs/**/*.antt crates/*/proofs/**/*.antt
    crates/rows_scripts/stdin tests/*/*.py tests/models/tests/*.py
    bindings/python/boxglue/*.py bindings/rust/*/src/*.rs include/*.h crates.txt
    bench/items.py""".split()
CASES = """
    crates/*/must-fail/* crates/*/wrong-bodies/* crates/*/refused-by-tests/*
    crates/*/needed-premises/* tests/cases/program/*""".split()
CODE, SPECS = "crates/*/src/**/*.rt", "crates/*/specs/**/*.antt"
# These crates know pages, and no crate of DVI.
BEFORE_DVI = ("page_core", "job_machine", "job_lists", "job_state")
WORD = re.compile(r"[A-Za-z_][A-Za-z_0-9]*")
TYPE = re.compile(r"\s*(?:pub(?:\(crate\))? )?(?:struct|enum|trait|type) (\w+)")
FUNCTION = re.compile(r"\s*(?:pub(?:\(crate\))? )?(?:(?:const|unsafe|extern \"C\") )*fn (\w+)")
MOST_COLUMNS = 150
# A definition, and the file or folder where a document places it.
PLACED = re.compile(r"`(\w+)` \(`(crates/\w+/specs[\w/.]*)`\)")
# A participle tells not what a thing is. Those that are also an infinitive, as read, set and cut,
# are left out, since a function may be called so.
IRREGULAR = "broken built chosen drawn found given held hidden kept left lost made met said seen sent shown sought spoken struck taken thrown told woven written".split()
PARTICIPLE = re.compile(
    rf"[A-Z]?[a-z]*[^e]ed|[Uu]n(?:read|set|split)|{'|'.join(f'[{it[0].upper()}{it[0]}]{it[1:]}' for it in IRREGULAR)}"
)
# Words that stood for several things, or for what has a term: each with what is written now.
GONE = dict(
    re.findall(
        r"(\w+): ([^;]+)(?:; )?",
        """
    room: a layer, a buffer, space or capacity; ahead: after_post, what is left, or before; sight: an item that is seen; told: what is reported, or its name;
    stand: to be at a place, or a state; ink: a mark or its kind; stroke: a mark; picture: a drawn page, a bitmap or a grid; sheet: the options of paint;
    stop: a postamble, a fault, or to end""",
    )
)
FORMS = {it: word for word in GONE for it in (word, f"{word}s", f"{word}ing", f"{word}ed")}
FORMS |= {"stood": "stand", "stopped": "stop", "stopping": "stop"}
PARTS = re.compile(r"[A-Z]+(?![a-z])|[A-Z]?[a-z]+")
# Where a stop is one: trying lines from a place stops; a session or a machine stops before its end;
# `stop_flag` is TFtoPL's.
STOPS = ("break_lines", "break_core", "vert_core", "boxglue_program", "job_machine", "tfm_core")
# What is no code: comments and texts.
NO_CODE = re.compile(r"(?m)\"(?:\\.|[^\"\\])*\"|//.*$|(?:^|(?<=\s))--(?:\s.*)?$")
# Adjectives of numbers: which of two is meant. TeX says `scaled`.
NUMBER_WORDS = ("rounded", "scaled", "signed")
# What no source of some files may have, by case: what is said of a file that has it, and the
# pattern. `rt ci` knows a crate with tests by the test attribute, wherever it is; all arithmetic is
# over integers; a caller in C proves no premise; and pages stand before there is DVI.
ABSENT = {
    "test_attributes": (
        "a comment writes the test attribute",
        r"(?m)//.*#\s*\[[^]]*\btest\b",
        CODE,
    ),
    "float_types": ("floating-point numbers", r"\bf(32|64)\b", CODE),
    "exports_without_premises": (
        "an export has a premise",
        r"(?m)^\s*requires\b",
        "crates/boxglue_c/src/**/*.rt",
    ),
    "job_before_dvi": (
        "a crate of DVI is named",
        r"\b(dvi_\w+|ship_core|move_core)(::|\.)",
        *[f"crates/{it}/*/**/*.{end}" for it in BEFORE_DVI for end in ("rt", "antt", "edit")],
    ),
}


def paths(root, *patterns):
    """The files of patterns, in order."""
    return sorted(it for each in patterns for it in glob.glob(f"{root}/{each}", recursive=True))


@functools.lru_cache(None)
def known_words(root):
    """The words of the sources, and the names of edits, of cases and of modules."""
    words = set()
    for path in paths(root, *SOURCES):
        words.update(WORD.findall(read(path)))
        words.add(os.path.basename(path).split(".")[0])
    for path in paths(root, *CASES):
        words.add(os.path.basename(path).removesuffix(".edit"))
    return words


def named(text):
    """The names in code spans of a document that have an underscore, a path or a capital letter
    inside."""
    text = re.sub(r"^(```.*?^```|    .*?)$", "", text, flags=re.M | re.S)
    for code in re.findall(r"`([A-Za-z_0-9:]+)`", text):
        yield from (it for it in WORD.findall(code) if re.search(r"_\w|[a-z][A-Z]", it))


def documents(root, pattern):
    """The paths of the documents of a pattern."""
    return sorted(os.path.relpath(it, root) for it in glob.glob(f"{root}/{pattern}"))


def outcome(root, pattern):
    """What is wrong with the documents of a pattern."""
    words, wrong, found = known_words(root), [], documents(root, pattern)
    for path in found:
        absent = sorted({*named(read(f"{root}/{path}"))} - words)
        wrong += [f"{path} names what is not in the sources: {', '.join(absent)}"] if absent else []
    return "; ".join(wrong) or (None if found else f"no {pattern}")


def misplaced(root):
    """Definitions that are not in the file or folder of definitions where a document places
    them."""
    wrong = []
    for path in sorted({it for pattern in DOCUMENTS for it in documents(root, pattern)}):
        for name, place in PLACED.findall(read(f"{root}/{path}")):
            lines = [
                line
                for it in paths(root, place, f"{place}/**/*.antt")
                if os.path.isfile(it)
                for line in read(it).split("\n")
            ]
            declared = {found[1] for found in map(DECLARED.match, lines) if found}
            wrong += [] if name in declared else [f"{path}: no {name} in {place}"]
    return "; ".join(wrong) or None


def nowhere(root, what, pattern, *places):
    """Files that have what none of them may have."""
    wrong = [
        os.path.relpath(it, root) for it in paths(root, *places) if re.search(pattern, read(it))
    ]
    return f"{what} in {', '.join(wrong)}" if wrong else None


def long_lines(root):
    """Lines of code and of definitions above 150 columns. An attribute may be longer, since `rt
    fmt` writes it on one line, and a line with a text of more than 100 columns."""
    wrong = []
    for path in paths(root, CODE, SPECS):
        for number, line in enumerate(read(path).split("\n"), 1):
            may_be = line.lstrip().startswith("#[") or re.search(r'"[^"]{100,}"', line)
            if len(line) > MOST_COLUMNS and not may_be:
                wrong.append(f"{os.path.relpath(path, root)}:{number}")
    return f"lines above {MOST_COLUMNS} columns: {', '.join(wrong)}" if wrong else None


def gone(root):
    """Names in sources and definitions that have a word for which another one is in use."""
    found = {}
    for path in paths(root, CODE, SPECS):
        crate = os.path.relpath(path, root).split("/")[1]
        for name in set(WORD.findall(NO_CODE.sub("", read(path)))):
            words = {FORMS[it.lower()] for it in PARTS.findall(name) if it.lower() in FORMS}
            for word in words - ({"stop"} if crate in STOPS else set()):
                found.setdefault((crate, name), word)
    wrong = [
        f"{crate}: {name}, in place of {word} write {GONE[word]}"
        for (crate, name), word in sorted(found.items())
    ]
    return "; ".join(wrong) or None


def participles(root):
    """Definitions, functions and types that a single word names, and this is a participle. Fields
    of records, cases of data and labels of clauses are none of them."""
    found = []
    for path in paths(root, CODE, SPECS):
        lines = read(path).split("\n")
        patterns = (DECLARED,) if path.endswith(".antt") else (FUNCTION, TYPE)
        names = [it[1] for pattern in patterns for it in map(pattern.match, lines) if it]
        wrong = [it for it in names if PARTICIPLE.fullmatch(it) and it not in NUMBER_WORDS]
        found += [f"{os.path.relpath(path, root)}: {it}" for it in wrong]
    return f"bare participles: {', '.join(found)}" if found else None


@functools.lru_cache(None)
def contracts(root, crate):
    """The names of clauses of each function of a crate, or of all crates together."""
    found = {}
    for path in paths(root, f"crates/{crate}/src/**/*.rt"):
        for name, contract in re.findall(r"\bfn (\w+)\b(.*?)(?=\bfn \w|\Z)", read(path), re.S):
            clauses_of = re.findall(r"\b(?:requires|ensures) (\w+) \{", contract)
            found.setdefault(name, set()).update(clauses_of)
    return found


def lacking_clauses(known, line):
    """Clauses that a line gives to functions of which none has them, and names with no function. A
    line has groups with `;` between them, each of functions, then a space and clauses with `/`
    between them."""
    functions, after = [], ""
    for token, after_token in re.findall(r"`([^`]+)`([^`]*)", line):
        name = token.split("::")[-1]
        if after in (" ", "/") and re.fullmatch(r"\w+", token):
            if functions and not any(token in known[it] for it in functions):
                yield f"{functions[-1]} {token}"
        else:
            goes_on = after and after.strip() in (",", "")
            functions = (functions if goes_on else []) + ([name] if name in known else [])
        after = after_token


def clauses(root):
    """What PROVED.md gives to functions that lack it, and the README.md of a crate to functions of
    this crate."""
    wrong = []
    for path in ("docs/PROVED.md", *documents(root, "crates/*/README.md")):
        known = contracts(root, path.split("/")[1] if path.startswith("crates/") else "*")
        # Where a line has "` of `", the clauses come first.
        lines = re.findall(r"(?m)^  (`(?:(?!` of `).)*)$", read(f"{root}/{path}"))
        wrong += [f"{path}: {it}" for line in lines for it in lacking_clauses(known, line)]
        if path.startswith("crates/"):
            pairs = [it for line in lines for it in re.findall(r"`([^`]+)`([^`]*)", line)]
            names = {token.split("::")[-1] for token, after in pairs if after[:1] in (";", ".")}
            absent_ones = names - {*known, *(it for clauses in known.values() for it in clauses)}
            wrong += [f"{path}: {it}" for it in sorted(absent_ones)]
    return f"functions that are not there or lack a clause: {', '.join(wrong)}" if wrong else None


def cases(_programs, root):
    """A case for each document, one for those of all crates, and some for the sources."""
    for pattern in DOCUMENTS:
        yield pattern, partial(outcome, root, pattern)
    yield "clauses", partial(clauses, root)
    yield "places_of_definitions", partial(misplaced, root)
    for name, given in ABSENT.items():
        yield name, partial(nowhere, root, *given)
    yield "long_lines", partial(long_lines, root)
    yield "participles", partial(participles, root)
    yield "words_that_are_gone", partial(gone, root)
