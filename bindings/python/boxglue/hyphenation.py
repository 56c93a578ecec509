"""Hyphens in paragraphs: the places of words, by TeX's patterns or by a rule of yours, for
`Job.paragraph`.

    from boxglue import hyphenation

    english = hyphenation.Patterns.read("hyphen.tex")  # kpsewhich hyphen.tex prints its path
    with job.vbox(into=0):
        done = job.paragraph("A text of some lines.", hyphens=english)
    print(done.lines, done.demerits, done.places)

A rule is any function that takes a word and returns places: place 2 of "hyphen" is after "hy".
`Patterns` is one, with the words of TeX's files, and so is what `by_pyphen` returns for the
dictionaries of pyphen.

Paths, names of programs and long words get no hyphens. `without_hyphens` finds them, and
`breakable`
says where a line may end in them.
"""

from __future__ import annotations

import re
from collections.abc import Callable, Iterable, Iterator
from dataclasses import dataclass
from typing import TYPE_CHECKING, Any, TypeAlias

if TYPE_CHECKING:
    from ._batches import Batch
    from ._lists import LoadedFont
    from ._scripts import Glue

__all__ = [
    "Discretionary",
    "HyphenPlace",
    "HyphenatedParagraph",
    "Patterns",
    "Piece",
    "Rule",
    "breakable",
    "by_pyphen",
    "without_hyphens",
]

# TeX looks only at the first letters of a word.
MOST_LETTERS = 63
_COMMENT = re.compile(r"%.*")
_GROUP = re.compile(r"\\(patterns|hyphenation)\s*\{([^{}]*)\}")
_LEAST = re.compile(r"typesetting:[%\s]*left:\s*(\d+)[%\s]*right:\s*(\d+)")
_DIGIT = re.compile(r"\d")
# Words without hyphens: those with characters that a font joins, options, paths, and long ones.
_AS_IS = re.compile(
    r"([^ ]*(?:--|<<|>>|,,|``|''|[!?]`|[/@_\xa0—–]|[^ ]{40})[^ ]*|(?<![^ ])[(\[]?-[^ ]+)"
)
# Where a long word may be divided, and where another one may.
_IN_LONG = re.compile(
    r"(?<=[/._=&?#:,;+)\]}>|\\@-])(?=[^/._=&?#:,;+)\]}>|\\@-])|(?<=[a-z])(?=[A-Z])|(?=\xa0)"
    r"|(?<=[^ ]{40})"
)
_IN_OTHERS = re.compile(r"(?<=[A-Za-z0-9)][-/])(?=[A-Za-z(])|(?<=[—–])(?=\w)|(?=\xa0)")
# From how many letters on a word is long: an address, code, a name of a program, a path, others.
_LONG_ADDRESS, _LONG_CODE, _LONG_NAME, _LONG_PATH, _LONG_WORD = 25, 8, 12, 25, 40
# The penalties of a break within a word, where it is worse, and that forbid one.
_OTHER_COST, _LONG_COST, _WORSE_COST, _NO_BREAK = 50, 150, 1000, 10_000

# A rule for hyphens: a function from a word to places, each the number of letters before it.
# `Patterns` has this form.
Rule: TypeAlias = Callable[[str], Iterable[int]]


@dataclass(frozen=True, slots=True)
class Discretionary:
    """A place of your own for a break, as TeX's \\discretionary, such as Discretionary("k-", "k",
    "ck") in the German word Drucker.

    Attributes:
        before: What ends the line if it is broken here.
        after: What begins the next line then.
        unbroken: What is here if the line is not broken.
        penalty: The penalty of a break; None is hyphenpenalty, or exhyphenpenalty if `before` is
            empty.
    """

    before: str = "-"
    after: str = ""
    unbroken: str = ""
    penalty: int | None = None


# A piece of a paragraph: a text, a font for what follows, glue, a discretionary, or a function that
# adds other items by the typed calls of the batch that it is given.
Piece: TypeAlias = "str | LoadedFont | Glue | Discretionary | Callable[[Batch], object]"


@dataclass(frozen=True, slots=True)
class HyphenPlace:
    """A place within a word at which a line was broken.

    Attributes:
        line: The number of the line that ends here, from 1.
        before: The part of the word before the break, with its hyphen.
        after: The part of the word after the break.
    """

    line: int
    before: str
    after: str


@dataclass(frozen=True, slots=True)
class HyphenatedParagraph:
    """The result of a paragraph that may have hyphens. An empty one has 0 four times.

    Attributes:
        lines: The number of its lines.
        deciding_pass: The pass that decided, 1 to 3. The first pass tries no hyphens that a rule
            finds.
        overhang: By how much its lines are overfull, in scaled points.
        demerits: Its demerits, in which each place that was taken has the square of its penalty.
        places: The places within words at which lines were broken, in order.
    """

    lines: int
    deciding_pass: int
    overhang: int
    demerits: int
    places: tuple[HyphenPlace, ...]


class Patterns:
    """TeX's patterns, with exceptions: called with a word, it returns the places at which TeX would
    hyphenate it (F. M. Liang's rule; TeX: The Program, §919 to 931).

    Attributes:
        letters: The characters beside the letters of Unicode that a word may have, such as the
            apostrophe of French patterns.

    Args:
        patterns: The patterns, such as "hy3ph" and ".ach4".
        exceptions: Words with all their hyphens, such as "ta-ble" and "project".
        left: How many letters of a word at least stand before a hyphen, TeX's \\lefthyphenmin.
        right: How many letters of a word at least follow a hyphen, TeX's \\righthyphenmin.

    Raises:
        ValueError: A pattern has no letters.
    """

    def __init__(
        self,
        patterns: Iterable[str],
        exceptions: Iterable[str] = (),
        *,
        left: int = 2,
        right: int = 3,
    ) -> None:
        self.left, self.right = (max(1, min(it, MOST_LETTERS)) for it in (left, right))
        # For each letter the values of the pattern that ends with it, and the letters that may
        # follow. `_keys` counts the letters.
        self._tree: dict[str, list[Any]] = {}
        self._keys = 0
        given = [*patterns]
        for it in given:
            self._add(it)
        self._exceptions = {lowered(it.replace("-", "")): _places_of(it) for it in exceptions}
        known = {*"".join([*given, *self._exceptions])}
        self.letters = frozenset(
            it for it in known if not it.isalpha() and not it.isdecimal() and it not in ".-"
        )

    @classmethod
    def read(
        cls,
        *paths: str,
        exceptions: Iterable[str] = (),
        left: int | None = None,
        right: int | None = None,
    ) -> Patterns:
        """Reads files of TeX, such as hyphen.tex and hyph-de-1996.tex: their \\patterns and
        \\hyphenation.

        Args:
            paths: The files, in UTF-8.
            exceptions: Words with all their hyphens. They override the files' exceptions.
            left: As for Patterns; None is the number in the comments of the file, as in
                hyph-de-1996.tex, or 2.
            right: The same, or 3.

        Returns:
            The rule.

        Raises:
            OSError: A file cannot be read.
            ValueError: A file has neither \\patterns nor \\hyphenation, or is not UTF-8.
        """
        found: dict[str, list[str]] = {"patterns": [], "hyphenation": []}
        least = [2, 3]
        for path in paths:
            with open(path, encoding="utf-8") as it:
                text = it.read()
            said = _LEAST.search(text)
            least = [int(it) for it in said.groups()] if said else least
            groups = _GROUP.findall(_COMMENT.sub("", text))
            if not groups:
                raise ValueError(f"{path} has no \\patterns and no \\hyphenation")
            for name, words in groups:
                found[name] += words.split()
        given = least[0] if left is None else left, least[1] if right is None else right
        return cls(
            found["patterns"], [*found["hyphenation"], *exceptions], left=given[0], right=given[1]
        )

    def _add(self, pattern: str) -> None:
        """Adds a pattern: its letters, and the values between them."""
        if not _DIGIT.sub("", pattern).strip("."):
            raise ValueError(f"the pattern {pattern!r} has no letters")
        nodes, values, at = self._tree, list[tuple[int, int]](), 0
        for it in pattern:
            if it.isdigit():
                values.append((at, int(it)))
                continue
            if it not in nodes:
                nodes[it] = [(), {}]
                self._keys += 1
            last, at = nodes[it], at + 1
            nodes = last[1]
        last[0] = values

    def __call__(self, word: str) -> tuple[int, ...]:
        """The places of a word."""
        lower = lowered(word)
        found = self._exceptions.get(lower)
        if found is None:
            found = self._by_patterns(f".{lower}.")
        last = len(word) - self.right
        return tuple([it for it in found if self.left <= it <= last])

    def _by_patterns(self, dotted: str) -> list[int]:
        """The places of a word between two periods: those whose greatest value is odd."""
        size = len(dotted)
        values = [0] * (size + 1)
        for start in range(size):
            nodes = self._tree
            for letter in dotted[start:]:
                if letter not in nodes:
                    break
                pattern, nodes = nodes[letter]
                for at, value in pattern:
                    if values[start + at] < value:
                        values[start + at] = value
        return [it - 1 for it in range(2, size - 1) if values[it] & 1]

    def __repr__(self) -> str:
        return f"<boxglue.hyphenation.Patterns: {self._keys} keys, {len(self._exceptions)} exceptions, {self.left} and {self.right} letters>"


def lowered(word: str) -> str:
    """A word in lower case, letter for letter: what becomes more than one character stays."""
    lower = word.lower()
    if len(lower) == len(word):
        return lower
    return "".join([its if len(its := it.lower()) == 1 else it for it in word])


def _places_of(exception: str) -> list[int]:
    """The places of a word with all its hyphens."""
    ends, at = list[int](), 0
    for part in exception.split("-")[:-1]:
        at += len(part)
        ends.append(at)
    return ends


def by_pyphen(language: str, *, left: int = 2, right: int = 2) -> Rule:
    """Makes a rule of a dictionary of the package pyphen, such as "de_DE". It leaves out hyphens
    that change the letters of a word: these are a `Discretionary`.

    Args:
        language: The name of the dictionary.
        left: How many letters of a word at least stand before a hyphen.
        right: How many letters of a word at least follow a hyphen.

    Returns:
        The rule.

    Raises:
        ImportError: pyphen is not installed (Debian's package python3-pyphen).
        KeyError: pyphen has no such dictionary.
    """
    from importlib import import_module

    dictionary: Any = import_module("pyphen").Pyphen(lang=language, left=left, right=right)
    return lambda word: [
        int(it) for it in dictionary.positions(word) if not getattr(it, "data", None)
    ]


def without_hyphens(text: str) -> list[str]:
    """Divides a text at the words that get no hyphens, such as paths, options and long words, and
    those with characters that a font would join.

    Args:
        text: The text.

    Returns:
        Its parts. Those at odd places are such words, whose breaks `breakable` has.
    """
    return _AS_IS.split(text)


def breakable(text: str, *, code: bool = False) -> Iterator[tuple[str, int]]:
    """Yields the parts of a text behind which a line may end without a hyphen: after the slashes of
    a path, between the words of a name, and after dashes.

    Args:
        text: The text.
        code: Whether it is code, in which words may be divided that are not so long.

    Returns:
        Each part with the penalty of a break after it; 0 after the last one, where there is no
        place. Before a space that forbids a break the penalty is 10,000.
    """
    begin = 0
    for word in re.finditer("[^ ]+", text):
        is_long = len(word[0]) > _most_letters(word[0], code)
        for cut in (_IN_LONG if is_long else _IN_OTHERS).finditer(word[0][:-1]):
            end = word.start() + cut.start()
            left, right = text[end - 1], text[end]
            is_within = left == right or left.isalnum() and right.islower()
            cost = _WORSE_COST if is_within else _LONG_COST if is_long else _OTHER_COST
            yield text[begin:end], _NO_BREAK if right == "\xa0" else cost
            begin = end
    yield text[begin:], 0


def _most_letters(word: str, is_code: bool) -> int:
    """How many letters a word of its kind has at most that is not long."""
    by_kind = _LONG_NAME if "_" in word else _LONG_PATH if "/" in word else _LONG_WORD
    most = _LONG_CODE if is_code else by_kind
    return min(most, _LONG_ADDRESS) if "@" in word else most
