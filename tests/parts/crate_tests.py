"""The #[test] functions of each crate that has some, built and run by `rt try --test`: a part for
each crate."""
import functools
import glob
import os
import re
import shutil
import tempfile
from contextlib import contextmanager, nullcontext

from common.files import read
from common.outcome import Skipped
from common.part import Part
from common.texts import last_lines
from common.trying import rt_try

TITLE = "the #[test] functions of a crate, by rt try --test"

# Tests that end only if the code is compiled without run-time checks.
LEFT_OUT = {
    "tests_jobs_and_sessions": ["many_pages::a_job_ships_256_boxes_of_65536_nodes_and_no_more"]
}
WHY = "no answer within five minutes as rt try compiles it; rt ci runs it"

# Seconds for each test: the longest takes half a minute on a quiet machine, and much more beside
# other work.
LIMIT = 300


def tests_in(folder):
    """The names of the tests below a folder of sources, each with its module."""
    names = []
    for path in sorted(glob.glob(f"{folder}/**/*.rt", recursive=True)):
        found = re.findall(r"^#\[test\]\s+(?:#\[[^\n]*\]\s+)*fn (\w+)", read(path), re.M)
        module = os.path.relpath(path, folder).removesuffix(".rt").split("/")
        names += ["::".join([*module, name]) for name in found]
    return names


def outcomes(printed):
    """The result of each test by `rt try --test`: None if it is ok, otherwise the lines about
    it."""
    found = {}
    for name, how, more in re.findall(r"^test (\S+) \.\.\. (\w+)\n((?: .*\n)*)", printed, re.M):
        found[name] = (
            None if how == "ok" else " / ".join(it.strip() for it in more.splitlines()) or how
        )
    return found


@contextmanager
def tree_without(names, crate, root):
    """Makes a copy of the crates without these tests of one crate."""
    with tempfile.TemporaryDirectory(prefix="boxglue-tests-") as room:
        shutil.copy(f"{root}/crates.txt", room)
        shutil.copytree(
            f"{root}/crates",
            f"{room}/crates",
            ignore=shutil.ignore_patterns(
                "out", "must-fail", "wrong-bodies", "refused-by-tests", "needed-premises"
            ),
        )
        for name in names:
            *module, function = name.split("::")
            path = f"{room}/crates/{crate}/src/{'/'.join(module)}.rt"
            text = read(path)
            with open(path, "w", encoding="utf-8") as it:
                it.write(
                    re.sub(rf"^#\[test\]\nfn {function}\(.*?^}}\n", "", text, flags=re.M | re.S)
                )
        yield room


def run_tests(root, crate, names, left_out):
    """Runs these tests of a crate, once for all of its cases. Returns the results by their
    names."""
    with tree_without(left_out, crate, root) if left_out else nullcontext(root) as tree:
        _, output, errors = rt_try(tree, crate, ["--test", "--seconds", str(LIMIT)])
    found = outcomes((output + errors).decode(errors="replace"))
    if found and {*found} - {*names}:
        return dict.fromkeys(
            names,
            f"other tests ran than those found in the sources: {' '.join(sorted({*found} - {*names}))}",
        )
    return {name: found.get(name, f"it was not run: {last_lines(errors)}") for name in names}


def cases(crate, _programs, root):
    """The tests of one crate."""
    every = tests_in(f"{root}/crates/{crate}/src")
    left_out = [it for it in every if it in LEFT_OUT.get(crate, [])]
    names = [it for it in every if it not in left_out]
    results = functools.lru_cache(None)(lambda: run_tests(root, crate, names, left_out))
    calls = {name: lambda name=name: results()[name] for name in names} | {
        name: lambda: Skipped(WHY) for name in left_out
    }
    return [(name, calls[name]) for name in every]


def parts(root):
    """A part for each crate with tests."""
    names = [
        it for it in sorted(os.listdir(f"{root}/crates")) if tests_in(f"{root}/crates/{it}/src")
    ]
    return [
        Part(
            it,
            f"the #[test] functions of crates/{it}",
            functools.partial(cases, it),
            None,
            weight=1,
        )
        for it in names
    ]
