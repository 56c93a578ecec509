"""The program and the archive of the library that a release is of: those that `rt ci` proved, or
those that are built without proofs."""
import os
import re
import shutil
import sys
import time
from dataclasses import dataclass
from typing import IO

from tools import side_by_side
from tools.commands import Failed, done, end_running, run, say, text_of
from tools.unproved import SAYS

NAMES = ["boxglue", "boxglue_c"]
ARCHIVE = "crates/boxglue_c/out/libboxglue_c.a"
# What `rt ci` says of a crate that it has proved before, and at its end.
KEPT, END = re.compile(r"(?m)^rt: (\w+) is kept: "), re.compile(
    r"(?m)^rt: ok; .*\bdone in this run: (\d+) of the (\d+) proofs\b"
)
# A crate that it takes longer for, in seconds, is one that it proves.
LONGEST = 120
# What makes no difference to a proof.
NOT_PROVED = shutil.ignore_patterns(
    "out", "must-fail", "wrong-bodies", "refused-by-tests", "needed-premises", "*.md"
)


@dataclass(frozen=True)
class Build:
    """A program and an archive, and what is to be said of their proofs."""

    program: str
    archive: str
    proofs: list[str]


def says_unproved(path: str) -> bool:
    """Whether a file was built without proofs."""
    with open(path, "rb") as it:
        return SAYS.encode() in it.read()


def unproved(root: str, room: str, program: str | None, archive: str | None) -> Build:
    """A build without proofs. What is given was built already."""
    paths = {"boxglue": program, "boxglue_c": archive}
    for name in (it for it, given in paths.items() if not given):
        paths[name] = f"{room}/{name}"
        say(f"{name}, without proofs: a minute or two where a processor is free")
        done(
            [
                sys.executable,
                f"{root}/tools/unproved.py",
                *["--library"] * (name == "boxglue_c"),
                f"{room}/{name}",
            ],
            root,
            name,
            "built",
            f"{name} is not built",
        )
    made = [os.path.abspath(it) for it in paths.values() if it]
    others = [it for it in made if not says_unproved(it)]
    if others:
        raise Failed(f"{others[0]} was not built without proofs")
    return Build(
        made[0], made[1], ["Nothing is proved: run-time checks are in place of the proofs."]
    )


def make_tree(root: str, tree: str) -> list[str]:
    """Makes a tree of the program, the library and what they are built of, as `rt ci` takes it, and
    returns the names of its crates."""
    names = [*side_by_side.uses_of(root, NAMES)]
    for name in names:
        shutil.copytree(f"{root}/crates/{name}", f"{tree}/crates/{name}", ignore=NOT_PROVED)
    side_by_side.write_lists(root, tree, names)
    os.makedirs(f"{tree}/.ci")
    shutil.copy(f"{root}/.ci/archive", f"{tree}/.ci")
    return names


class Question:
    """Asks `rt ci` whether it has nothing left to prove. It ends it where it begins a proof: there
    it is silent for long, or says that it has proved something."""

    def __init__(self, tree: str, names: list[str], log: IO[bytes]) -> None:
        self.tree, self.names, self.log = tree, names, log
        self.kept: list[str] = []
        self.since = time.monotonic()

    def look(self) -> None:
        """Looks at what it has said so far."""
        said = text_of(self.log)
        found = KEPT.findall(said)
        if len(found) > len(self.kept):
            self.kept, self.since = found, time.monotonic()
        is_proving = len(found) < len(self.names) and time.monotonic() - self.since > LONGEST
        if is_proving or re.search(r"(?m)^== |PROVED$|proved$", said):
            end_running()

    def answer(self) -> str:
        """The line of its end, where it had nothing to prove."""
        status = run(["rt", "ci"], self.tree, self.log, self.look)
        self.look()
        said = text_of(self.log)
        end = END.search(said)
        if status == 0 and end and end[1] == "0" and {*self.kept} == {*self.names}:
            return end[0].removeprefix("rt: ")
        left = [it for it in self.names if it not in self.kept]
        why = f"these crates are left to prove: {' '.join(left)}" if left else said[-500:]
        raise Failed(
            f"`rt` does not find all proved; run .ci/run first, with a kit that remembers proofs: {why}"
        )


def proved(root: str, room: str) -> Build:
    """What `rt ci` has proved, where it has nothing left to prove. It gives the program itself; the
    archive is that of .ci/archive, which is built again if it does not fit."""
    tree = f"{room}/proved"
    names = make_tree(root, tree)
    say(f"asks `rt ci` for {len(names)} crates, which have to be proved")
    with open(f"{room}/ci.log", "wb+") as log:
        end = Question(tree, names, log).answer()
    say(f"nothing is left to prove: {end}")
    for made in (it for it in (ARCHIVE, f"{ARCHIVE}.stamp") if os.path.exists(f"{root}/{it}")):
        os.makedirs(os.path.dirname(f"{tree}/{made}"), exist_ok=True)
        shutil.copy(f"{root}/{made}", f"{tree}/{made}")
    done(
        [sys.executable, f"{tree}/.ci/archive"],
        tree,
        "the archive for C",
        "built",
        "the archive is not built",
    )
    build = Build(
        f"{tree}/crates/boxglue/out/boxglue",
        f"{tree}/{ARCHIVE}",
        [f"`rt ci` said: {end}", f"Proved crates: {' '.join(names)}"],
    )
    if says_unproved(build.program) or says_unproved(build.archive):
        raise Failed("what `rt ci` left was built without proofs")
    return build
