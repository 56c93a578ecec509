"""What a release is of: its version in the spelling of each kind of package, its date, and what it
was built of."""
import os
import re
import subprocess
from dataclasses import dataclass

from tools.commands import Failed
from tools.version import dotted


@dataclass(frozen=True)
class Edition:
    """The version, whether it is proved, the commit, and the seconds since 1970 that all files have
    as their time."""

    number: str
    is_proved: bool
    commit: str
    seconds: int

    @property
    def python(self) -> str:
        """The version as Python has it. One without proofs sorts below the proved one, here and
        below."""
        return self.number + ("" if self.is_proved else ".dev0+unproved")

    @property
    def cargo(self) -> str:
        """The version as Rust's packages have it."""
        return self.number + ("" if self.is_proved else "-dev.0+unproved")

    @property
    def debian(self) -> str:
        """The version as Debian's packages have it."""
        return self.number + ("" if self.is_proved else "~dev0+unproved")

    @property
    def top(self) -> str:
        """The folder in the tarball, which has its name. Python's version must not stand in it:
        `+unproved-x86_64-linux` is a legal end of one, and pip 23 would take the tarball for a
        source distribution, before the wheel."""
        return f"boxglue-{self.number}{'' if self.is_proved else '-unproved'}-x86_64-linux"


def answer_of(words: list[str], folder: str) -> str:
    """What a command prints; it has to succeed."""
    try:
        return subprocess.run(
            words, cwd=folder, stdin=subprocess.DEVNULL, capture_output=True, text=True, check=True
        ).stdout.strip()
    except (OSError, subprocess.CalledProcessError) as error:
        raise Failed(f"{' '.join(words)}: {getattr(error, 'stderr', '') or error}") from error


def edition_of(root: str, is_proved: bool) -> Edition:
    """The edition of a clone in which nothing is changed."""
    changed = answer_of(["git", "status", "--porcelain", "--untracked-files=all"], root)
    if changed:
        raise Failed(
            f"a release is made of a commit, and this clone has other files: {changed.splitlines()[0]}"
        )
    commit, committed = answer_of(["git", "log", "-1", "--format=%H %ct"], root).split()
    seconds = os.environ.get("SOURCE_DATE_EPOCH", committed)
    if not re.fullmatch(r"\d+", seconds):
        raise Failed(f"SOURCE_DATE_EPOCH has to be a number of seconds, and is {seconds!r}")
    number = dotted(root)
    with open(f"{root}/CHANGELOG.md", encoding="utf-8") as it:
        is_dated = re.search(rf"(?m)^## {re.escape(number)}, \d+ \w+ \d{{4}}$", it.read())
    if is_proved and not is_dated:
        raise Failed(
            f"CHANGELOG.md has no line `## {number}, DAY MONTH YEAR`: a proved release is of a version with a date"
        )
    return Edition(number, is_proved, commit, int(seconds))
