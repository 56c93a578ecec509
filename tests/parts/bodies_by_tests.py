"""Wrong bodies that every contract lets through, and a test has to refuse:
crates/NAME/refused-by-tests/*.edit. Such an edit has the lines of those in must-fail/, and either a
line `test: CRATE::MODULE::NAME`, or the lines `case: PART/NAME` and `says: TEXT`. It is made in a
copy of the crates. There its test is run by `rt try --test`, or its case over the program or the
library without proofs; and it has to fail, a case with this text.

A build takes a minute or two, so edits share one. No two edits of a build replace the same line, or
have the same test or case. A case has to fail over its own edit: its input must not reach what the
other edits change, and TEXT is what only its own edit makes it say."""
import functools
import glob
import itertools
import re
import shutil
import sys
from dataclasses import dataclass

from common.files import read, write
from common.outcome import Skipped, attempt
from common.part import all_parts
from common.shared import own_folder
from common.texts import last_lines
from common.trying import rt_try, run_tried
from parts.crate_tests import LIMIT, outcomes, tests_in, tree_without

TITLE = "wrong bodies that only a test refuses: the test fails over each of them"
TRIES = False
WEIGHT = 3


@dataclass(frozen=True)
class Edit:
    """An edit: its crate, its file there, the lines that it replaces, and those that it puts there;
    and the names of its tests or cases, with what these say."""

    crate: str
    name: str
    file: str
    old: tuple
    new: tuple
    tests: tuple
    cases: tuple
    says: tuple

    def stands_beside(self, other):
        """Whether a build may have both: they replace no line of each other, and no test or case is
        for both."""
        is_one_file = (self.crate, self.file) == (other.crate, other.file)
        return not (is_one_file and {*self.old} & {*other.old}) and not {
            *self.tests,
            *self.cases,
        } & {*other.tests, *other.cases}


def read_edit(path):
    """Reads an edit."""
    crate, _, name = path.split("/")[-3:]
    lines = re.findall(r"(?m)^(file|old|new|test|case|says): (.*)$", read(path))
    file, *found = (
        tuple(text for word, text in lines if word == its)
        for its in ("file", "old", "new", "test", "case", "says")
    )
    return Edit(crate, name.removesuffix(".edit"), file[0], *found)


def wrong_words(edit):
    """What is wrong with the lines of an edit, or None."""
    if len(edit.old) != len(edit.new) or not edit.old or len(edit.tests + edit.cases) != 1:
        return "it has not a line `new` for each line `old`, or not one test or case"
    return "it has no line `says`" if edit.cases and not edit.says else None


def made(edit, tree):
    """Makes an edit in a copy of the crates. Returns what is wrong with it, or None."""
    source = f"{tree}/crates/{edit.crate}/{edit.file}"
    text = read(source)
    for old, new in zip(edit.old, edit.new):
        if text.count(old) != 1:
            return f"its old text stands {text.count(old)} times in the file: {old}"
        text = text.replace(old, new)
    write(source, text)
    return None


class Tests:
    """The tests of a crate that edits of one build have."""

    def __init__(self, root, crate, edits):
        self.root, self.crate, self.edits = root, crate, edits

    @functools.cached_property
    def found(self):
        """What is wrong with each edit that cannot be made; the results of the tests by their
        names; and the end of what was printed."""
        names = {it.tests[0].partition("::")[2] for it in self.edits}
        others = [it for it in tests_in(f"{self.root}/crates/{self.crate}/src") if it not in names]
        with tree_without(others, self.crate, self.root) as tree:
            wrong = {it: made(it, tree) for it in self.edits}
            _, output, errors = rt_try(tree, self.crate, ["--test", "--seconds", str(LIMIT)])
        return wrong, outcomes((output + errors).decode(errors="replace")), last_lines(errors)

    def outcome(self, edit):
        """What is wrong with an edit: it cannot be made, or its test is not run, or does not
        fail."""
        wrong, found, end = self.found
        name = edit.tests[0].partition("::")[2]
        if wrong[edit] or name not in found:
            return wrong[edit] or f"the test {name} was not run: {end}"
        return None if found[name] else f"the test {name} does not fail"


class Cases:
    """The program or the library with the edits of one build, for their cases."""

    def __init__(self, root, program, edits):
        self.root, self.program, self.edits = root, program, edits

    @functools.cached_property
    def built(self):
        """What is wrong with each edit that cannot be made; the path of what is built; and why it
        is not built, or None."""
        out = f"{own_folder()}/{self.program}-{self.edits[0].crate}-{self.edits[0].name}"
        with tree_without([], "boxglue", self.root) as tree:
            wrong = {it: made(it, tree) for it in self.edits}
            for folder in ("tools", "include"):
                shutil.copytree(f"{self.root}/{folder}", f"{tree}/{folder}")
            words = ["--library"] if self.program == "library" else []
            status, _, errors = run_tried(
                [sys.executable, f"{tree}/tools/unproved.py", *words, out], tree
            )
        return wrong, out, last_lines(errors) if status else None

    def outcome(self, edit):
        """What is wrong with an edit: it cannot be made or built, or its case does not fail as it
        says. A case that is skipped is skipped here."""
        wrong, out, unbuilt = self.built
        if wrong[edit] or unbuilt:
            return wrong[edit] or f"the {self.program} is not built: {unbuilt}"
        part, _, name = edit.cases[0].partition("/")
        found = attempt(dict(part_named(part, self.root).cases([out], self.root))[name])
        if found is None or isinstance(found, Skipped):
            return found or f"the case {edit.cases[0]} does not fail"
        missing = [it for it in edit.says if it not in found]
        return (
            f"the case {edit.cases[0]} does not say {missing[0]}, but: {found}" if missing else None
        )


@functools.lru_cache(None)
def part_named(name, root):
    """A part of the tests."""
    return next(it for it in all_parts(root) if it.name == name)


def key_of(edit, root):
    """What is built for an edit: the tests of a crate; or a program, or the library."""
    if edit.tests:
        return Tests, edit.tests[0].partition("::")[0]
    return Cases, part_named(edit.cases[0].partition("/")[0], root).program


def builds(root, edits):
    """The edits with their builds: each edit goes into the first one where it may stand beside the
    others."""
    found = {}
    for edit in edits:
        groups = found.setdefault(key_of(edit, root), [])
        group = next((it for it in groups if all(map(edit.stands_beside, it))), None)
        if group is None:
            groups.append([edit])
        else:
            group.append(edit)
    made_together = [
        (kind(root, its, group), group) for (kind, its), groups in found.items() for group in groups
    ]
    return [(edit, build) for build, group in made_together for edit in group]


def split(pairs):
    """The cases of each build."""
    return [
        [*its]
        for _, its in itertools.groupby(
            pairs, lambda it: getattr(getattr(it[1], "func", None), "__self__", None)
        )
    ]


def cases(_programs, root):
    """The edits of all crates, those of a build one after the other."""
    edits = [read_edit(it) for it in sorted(glob.glob(f"{root}/crates/*/refused-by-tests/*.edit"))]
    wrong = [(it, wrong_words(it)) for it in edits]
    for edit, why in wrong:
        if why:
            yield f"{edit.crate}/{edit.name}", lambda why=why: why
    for edit, build in builds(root, [it for it, why in wrong if not why]):
        yield f"{edit.crate}/{edit.name}", functools.partial(build.outcome, edit)


SPLIT = split
