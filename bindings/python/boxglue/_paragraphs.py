"""The lists of a paragraph that may have hyphens (docs/AUTHORS.md, section 4): how words are cut,
and how the list is set."""

from __future__ import annotations

import sys
import warnings
from itertools import accumulate, chain
from typing import TYPE_CHECKING, Any, NamedTuple, TypeAlias, TypeVar

from ._batches import Batch, caller
from ._boxes import ItemKind, levels_of
from ._encoded import codes_of, encoded, shaped
from ._encodings import ASCII
from ._lists import LoadedFont
from ._replies import Paragraph
from ._scripts import MOST_PENALTY, Glue, glue, number, quote
from ._status import BoxglueError, Refused
from .hyphenation import MOST_LETTERS, Discretionary, HyphenatedParagraph, HyphenPlace

if TYPE_CHECKING:
    from collections.abc import Callable, Iterable, Sequence

    from ._boxes import Box
    from ._encodings import Encoding
    from ._job import Job
    from ._lists import OpenList
    from ._metrics import Metrics
    from .hyphenation import Piece, Rule

KeyT = TypeVar("KeyT")
ValueT = TypeVar("ValueT")
# The most legal places of a paragraph (docs/COMMANDS.md, section 8).
MOST_PLACES = 8192
# So many fonts with a style are kept with the words that were cut in them.
KEPT_WORDS = 16
# What the special before a place begins with; the number of the place follows.
MARK = "boxglue place "
# The first words of commands that TeX lets follow a word that it hyphenates: glue, kerns, penalties
# and whatsits (TeX: The Program, §899).
_AFTER_WORDS = {"glue", "kern", "penalty", "special"}


# Commands that add nothing to the list.
_NO_ITEMS = {"use", "set", "count", "measure", "void"}


class Kept(dict[KeyT, ValueT]):
    """Values that a function makes when they are first asked for."""

    def __init__(self, make: Callable[[KeyT], ValueT]) -> None:
        super().__init__()
        self._make = make

    def __missing__(self, key: KeyT) -> ValueT:
        made = self[key] = self._make(key)
        return made


class Place(NamedTuple):
    """A place for a break within a word. What stands for it in a list is ready: the lines of
    commands, or a text, which joins the texts beside it.

    Attributes:
        is_automatic: Whether a rule found it.
        trial: The lines that let the line be broken here or not, after the special that marks them.
        before: The text before a break here, or the lines of commands if this is a discretionary.
        after: The lines of commands after a break here.
        unbroken: The lines of a discretionary that is not broken; None for other places, whose
            texts on both sides join.
        word: The word; of a discretionary and a place after a hyphen, the part before it.
        rest: The place of a rule in the word; else the part after it.
    """

    is_automatic: bool
    trial: str
    before: str
    after: str
    unbroken: str | None
    word: str
    rest: str | int


class Commands(NamedTuple):
    """Commands between the texts, each a line."""

    lines: str
    first: str = ""
    last: str = ""
    # The words of the font that these commands choose.
    words: Words | None = None


class Style(NamedTuple):
    """How the words of a paragraph are hyphenated."""

    rule: Rule | None
    letters: frozenset[str]
    encoding: Encoding | None
    penalty: int
    explicit_penalty: int
    hyphen: str = "-"


class Cut(NamedTuple):
    """A word that is cut at places.

    Attributes:
        parts: Its parts.
        places: The places, each after one of the parts.
        automatic: How many of the places a rule found.
    """

    parts: list[str]
    places: list[Place]
    automatic: int = 0


def cut(word: str, places: dict[int, Place]) -> Cut:
    """A word with its places between its parts."""
    parts, start, automatic = list[str](), 0, 0
    for at, place in places.items():
        parts.append(word[start:at])
        start = at
        automatic += place.is_automatic
    return Cut([*parts, word[start:]], [*places.values()], automatic)


def width_of(codes: Sequence[int], metrics: Metrics) -> int:
    """The width of a word."""
    return (
        sum([metrics.width(code) + kern for _, code, kern in shaped(codes, metrics)])
        if codes
        else 0
    )


class Words:
    """The words of one font and style, cut where they may be broken. Each is looked at once.

    Attributes:
        cuts: Words between two spaces, cut where they may be broken, with the second space; None
            for a word that is one text.
    """

    def __init__(self, style: Style, metrics: Metrics) -> None:
        self.style, self.metrics = style, metrics
        self._encoding = ASCII if style.encoding is None else style.encoding
        self._codes: dict[str, int] = {}
        # The codes that the font is known to have, the kerns of pairs of them, None for a ligature,
        # and the trials of places by their two kerns.
        self._there: set[int] = set()
        self._kerns = Kept(self._kern)
        self._trials = Kept(self._trial)
        # For two codes what the second adds to the width before the last glyph, and this glyph; and
        # the widths of glyphs.
        self.steps = Kept(self._step)
        self.widths = Kept(metrics.width)
        self.cuts = Kept(self._cut)
        self.hyphen = self.codes(style.hyphen)[0]

    def codes(self, text: str) -> list[int]:
        """The codes of a text."""
        known = self._codes
        try:
            return [*map(known.__getitem__, text)]
        except KeyError:
            pass  # so that no other exception is shown as one within the handling of this one
        codes = codes_of(text, self._encoding)
        known.update(zip(text, codes))
        return codes

    def has_letters(self, text: str) -> bool:
        """Whether a text has letters."""
        return any(map(self._is_letter, text))

    def lines(self, text: str) -> str:
        """The commands of a text."""
        if self.style.encoding is None:
            return f"text {text}\n"
        return "".join(encoded(self.codes(text), self.metrics))

    def width(self, text: str) -> int:
        """The width of a text without spaces."""
        return width_of(self.codes(text), self.metrics)

    def _cut(self, word: str) -> Cut | None:
        """A word between two spaces, cut where it may be broken, with the second space; None if it
        is one text."""
        if len(word) < 2:
            return None
        places = (self.explicit if self.style.hyphen in word else self.automatic)(word)
        return cut(f"{word} ", places) if places else None

    def explicit(self, word: str) -> dict[int, Place]:
        """The places after hyphens and dashes, but for one at the end. The kern after a hyphen
        stays at the beginning of a line, as in TeX, so it is a rule."""
        if self.style.hyphen not in word:
            return {}
        found, at, glyphs = {}, 0, list(shaped(self.codes(word), self.metrics))
        for sources, _, kern in glyphs[:-1]:
            at += len(sources)
            if sources[-1] == self.hyphen:
                found[at] = self.after_hyphen(word[:at], word[at:], kern)
        return found

    def after_hyphen(self, word: str, rest: str, kern: int) -> Place:
        """The place after a hyphen of the text, which ends a part of a word."""
        after = f"rule {kern}sp 0sp 0sp\n" if kern else ""
        return Place(
            False, f"penalty {self.style.explicit_penalty}\n{after}", "", after, None, word, rest
        )

    def letters(self, word: str) -> tuple[int, int]:
        """Where the first letters of a word are (TeX: The Program, §896 and 897)."""
        if word.isalpha():
            return 0, min(len(word), MOST_LETTERS)
        start = next((at for at, it in enumerate(word) if self._is_letter(it)), len(word))
        most = min(len(word), start + MOST_LETTERS)
        return start, next((at for at in range(start, most) if not self._is_letter(word[at])), most)

    def _is_letter(self, it: str) -> bool:
        return it.isalpha() or it in self.style.letters

    def automatic(self, word: str) -> dict[int, Place]:
        """The places that the rule gives for a word without hyphens."""
        start, stop = self.letters(word)
        cuts = self._cuts(word, start, stop)
        if not cuts:
            return {}
        codes = self.codes(word)
        if not self._has(codes):
            return {}
        kerns: list[Any] = [*map(self._kerns.__getitem__, zip(codes, codes[1:]))]
        at_ends: list[Any] = [self._kerns[codes[it - 1], self.hyphen] for it in cuts]
        if None in kerns or None in at_ends:
            found = self._ligated(word, codes, cuts, (start, stop))
        else:
            width = self.widths[self.hyphen]
            found = {at: (width + more, kerns[at - 1]) for at, more in zip(cuts, at_ends)}
        return {
            at: Place(True, self._trials[its], self.style.hyphen, "", None, word, at)
            for at, its in found.items()
        }

    def _cuts(self, word: str, start: int, stop: int) -> list[int]:
        """The places of the rule for these letters of a word."""
        if self.style.rule is None or stop - start < 2:
            return []
        places = self.style.rule(word[start:stop])
        return sorted({start + it for it in places if 0 < it < stop - start}) if places else []

    def _has(self, codes: Sequence[int]) -> bool:
        """Whether the font has all characters of a word."""
        if self._there.issuperset(codes):
            return True
        self._there.update(filter(self.metrics.has, codes))
        return self._there.issuperset(codes)

    def _kern(self, pair: tuple[int, int]) -> int | None:
        """The kern of two characters; None if they have a ligature."""
        step = self.metrics.step(*pair)
        return (None if step.is_ligature else step.value) if step else 0

    def _step(self, pair: tuple[int, int]) -> tuple[int, int]:
        """What a character after a glyph adds to the width before the last glyph, and this
        glyph."""
        step = self.metrics.step(*pair)
        if step and step.is_ligature:
            return 0, step.value
        return self.widths[pair[0]] + (step.value if step else 0), pair[1]

    def _ligated(
        self, word: str, codes: Sequence[int], cuts: Sequence[int], letters: tuple[int, int]
    ) -> dict[int, tuple[int, int]]:
        """The two kerns of each place of a word with ligatures. A ligature of a letter and another
        character does not count as a letter (TeX: The Program, §898)."""
        glyphs = list(shaped(codes, self.metrics))
        ends = [0, *accumulate(len(sources) for sources, _, _ in glyphs)]
        start, stop = letters
        whole = max([it for it in ends if it <= stop])
        if start not in ends:
            return {}
        if whole < stop:
            cuts = self._cuts(word, start, whole)
        return Ligated(self, codes, glyphs).kerns(cuts)

    def _trial(self, kerns: tuple[int, int]) -> str:
        """The lines of a place of the rule, by what the hyphen adds to the line, and what joining
        the parts adds to their widths."""
        hyphen, joined = kerns
        back = f"kern {joined - hyphen}sp\n" if joined != hyphen else ""
        return f"kern {hyphen}sp\npenalty {self.style.penalty}\n{back}"


class Ligated:
    """A word with ligatures. Of the places within one ligature the first is offered, and a place is
    left out if the width of a line would depend on another break."""

    def __init__(
        self, words: Words, codes: Sequence[int], glyphs: Sequence[tuple[Sequence[int], int, int]]
    ) -> None:
        self._codes, self._words = codes, words
        self._glyph_at = [at for at, (sources, _, _) in enumerate(glyphs) for _ in sources]
        self._widths = Kept(self._widths_from)

    def _widths_from(self, start: int) -> list[tuple[int, int]]:
        """The widths of the parts that begin at a place, by their ends, each without a hyphen after
        it and with one."""
        steps, widths, hyphen = self._words.steps, self._words.widths, self._words.hyphen
        code, done, found = self._codes[start], 0, [(0, 0)] * (start + 1)
        for following in [*self._codes[start + 1 :], hyphen]:
            more, last = steps[code, hyphen]
            found.append((done + widths[code], done + more + widths[last]))
            more, code = steps[code, following]
            done += more
        return found

    def _kerns_at(self, at: int, ends: Sequence[int]) -> tuple[set[int], set[int]]:
        """What a hyphen at a place adds to its line, and what joining the parts on both sides adds
        to their widths, for all parts between two of these ends."""
        widths = self._widths
        before, after = [it for it in ends if it < at], [it for it in ends if it > at]
        added = {hyphenated - plain for plain, hyphenated in [widths[it][at] for it in before]}
        return added, {
            widths[a][b][0] - widths[a][at][0] - widths[at][b][0] for a in before for b in after
        }

    def kerns(self, cuts: Sequence[int]) -> dict[int, tuple[int, int]]:
        """The two kerns of each place that is offered."""
        taken, kerns = list[int](), dict[int, tuple[int, int]]()
        for it in cuts:
            if taken and {self._glyph_at[at] for at in (taken[-1] - 1, taken[-1], it - 1, it)} == {
                self._glyph_at[it]
            }:
                continue
            ends = [0, *taken, it, len(self._codes)]
            found = {at: self._kerns_at(at, ends) for at in ends[1:-1]}
            if all(len(values) == 1 for both in found.values() for values in both):
                taken.append(it)
                kerns = {at: (added.pop(), joined.pop()) for at, (added, joined) in found.items()}
        return kerns


def words_of(job: Job, font: LoadedFont | None, style: Style) -> Words:
    """The words of a font in a style, which the job keeps."""
    key = (
        font and (font.name, font.size),
        id(style.rule),
        id(style.encoding),
        style.penalty,
        style.explicit_penalty,
    )
    kept = job._state.words
    found = kept.pop(key, None)
    if found is None:
        metrics = job._metrics_at(font)
        if metrics is None:
            raise BoxglueError(
                "a paragraph needs fonts whose metrics are known: choose one by job.use(job.load(..)) before it, or give it as the first piece"
            )
        found = Words(style, metrics)
        if len(kept) == KEPT_WORDS:
            del kept[next(iter(kept))]
    kept[key] = found
    return found


def recorded(job: Job, piece: Callable[[Batch], object]) -> tuple[list[str], LoadedFont | None]:
    """The commands that a function sends, and the current font after them. They are not run."""
    state, batch = job._state, Batch(job)
    lists = [*state.lists]
    with batch.recorded():
        piece(batch)
        found = batch.lines(), state.current
        is_whole = state.lists == lists
    if not is_whole:
        raise BoxglueError(f"{piece!r} leaves a list open, or ends one")
    return found


class Text(NamedTuple):
    """A text within a group, in the style of its font."""

    text: str
    words: Words


# What stands between two glues.
Atom: TypeAlias = "Text | Commands | Discretionary"


class Source:
    """The list of a paragraph, from its pieces.

    Attributes:
        texts: Its texts, of which neighbours join.
        stops: The commands and places between them, each with the number of the texts before it.
        places: How many legal places the paragraph has at most, without those that a rule found.
        automatic: How many places a rule found.
        first_words, first_slot: The words of the font at the beginning, and its slot.
        font: The current font at the end.
        changes_font: Whether a piece chooses a font.
    """

    def __init__(self, job: Job, style: Style, first_word: bool, font: LoadedFont | None) -> None:
        self.texts: list[str] = []
        self.stops: list[tuple[int, Commands | Place]] = []
        self.places, self.automatic = 1, 0
        self._job, self._style, self._follows_glue = job, style, first_word
        self._group: list[Atom] = []
        self.font = font
        self.changes_font = False
        self._words = self.first_words = words_of(job, self.font, style)
        self.first_slot = self.font.slot if self.font else 0

    def add(self, piece: Piece) -> None:
        """Adds a piece."""
        if isinstance(piece, str):
            self._text(piece)
        elif isinstance(piece, LoadedFont):
            self._font(piece, Commands(f"use {self._job._state.own(piece).slot}\n"))
        elif isinstance(piece, Glue):
            self._glue(f"glue {glue(*piece)}\n")
        elif isinstance(piece, Discretionary):
            self._group.append(piece)
        elif callable(piece):
            self._recorded(piece)
        else:
            raise TypeError(
                f"a piece of a paragraph must be a text, a font of load(), a Glue, a Discretionary or a function, not {piece!r:.40}"
            )

    def _font(self, font: LoadedFont | None, commands: Commands) -> None:
        """Adds commands after which another font is the current one."""
        self._words = words_of(self._job, font, self._style)
        self._group.append(commands._replace(words=self._words))
        self.font, self.changes_font = font, True

    def end(self) -> None:
        """Ends the last group."""
        self._close()

    def _text(self, text: str) -> None:
        """Adds a text: its words and the spaces between them."""
        if self._style.encoding is None:
            quote(text)
        else:
            self._words.codes(text)
        first, *others = text.split(" ")
        if first:
            self._join(first)
        if not others:
            return
        self._close()
        *inner, last = others
        texts, cuts, words = self.texts, self._words.cuts, [*filter(None, inner)]
        texts.append(" ")
        for word in words:
            found = cuts[word]
            if found:
                self._add(found)
            else:
                texts.append(f"{word} ")
        self.places += 1 + len(words)
        self._follows_glue = True
        if last:
            self._join(last)

    def _join(self, word: str) -> None:
        """Adds a word to the group; it joins a text of its font before it."""
        last = self._group[-1] if self._group else None
        if isinstance(last, Text) and last.words is self._words:
            self._group[-1] = Text(last.text + word, self._words)
        else:
            self._group.append(Text(word, self._words))

    def _glue(self, lines: str) -> None:
        """Adds glue."""
        self._close()
        self._stop(Commands(lines, "glue", "glue"))
        self.places += 1
        self._follows_glue = True

    def _recorded(self, piece: Any) -> None:
        """Adds what a function of the client sends. It is sent as often as the list is set."""
        lines, font = recorded(self._job, piece)
        items = [
            it for it in (line.split(None, 1)[0] for line in lines) if it not in _NO_ITEMS
        ] or [""]
        first, last = items[0], items[-1]
        self.places += sum(it.startswith(("glue ", "penalty ")) for it in lines)
        found = Commands("".join(lines), first, last)
        if first == "glue":
            self._close()
        if font is self.font:
            self._group.append(found)
        else:
            self._font(font, found)
        if last == "glue":
            self._close()
            self._follows_glue = True

    def _add(self, word: Cut) -> None:
        """Adds a word that is cut."""
        parts, places, automatic = word
        self.stops += enumerate(places, len(self.texts) + 1)
        self.texts += parts
        self.automatic += automatic
        self.places += len(places) - automatic

    def _stop(self, commands: Commands) -> None:
        """Adds commands."""
        self.stops.append((len(self.texts), commands))

    def _close(self) -> None:
        """Ends a group."""
        group, self._group = self._group, []
        if not group:
            return
        for at in range(len(group)):
            self._atom(group, at)
        self._follows_glue = False

    def _atom(self, group: list[Atom], at: int) -> None:
        """Adds an atom of a group."""
        atom, is_last = group[at], at == len(group) - 1
        if isinstance(atom, Commands):
            self._stop(atom)
        elif isinstance(atom, Discretionary):
            self._discretionary(atom, is_last)
        else:
            self._word(
                atom,
                is_last,
                self._follows_glue
                and self._style.rule is not None
                and self._hyphenated(group) == at,
            )

    def _word(self, atom: Text, is_last: bool, is_hyphenated: bool) -> None:
        """Adds a text of a group."""
        text, words = atom
        self._add(cut(text, words.automatic(text) if is_hyphenated else words.explicit(text)))
        if not is_last and text.endswith(self._style.hyphen):
            self._add(Cut([""], [words.after_hyphen(text, "", 0)]))

    def _discretionary(self, it: Discretionary, is_last: bool) -> None:
        """Adds a discretionary. If it has no part for the next line and stands before glue, the
        glue is the place, and not the discretionary."""
        words, style = self._words, self._style
        before, after, unbroken = (
            words.lines(text) if text else "" for text in (it.before, it.after, it.unbroken)
        )
        if is_last and not after:
            self._stop(Commands(unbroken))
            return
        widths = [words.width(text) for text in (it.before, it.after, it.unbroken)]
        penalty = (
            (style.penalty if it.before else style.explicit_penalty)
            if it.penalty is None
            else number(it.penalty, -MOST_PENALTY, MOST_PENALTY, "a penalty")
        )
        back = widths[2] - widths[0] - widths[1]
        trial = "".join(
            [
                f"kern {widths[0]}sp\n" if before else "",
                f"penalty {penalty}\n",
                f"kern {back}sp\n" if back else "",
                f"rule {widths[1]}sp 0sp 0sp\n" if after else "",
            ]
        )
        place = Place(False, trial, before, after, unbroken, it.before, it.after)
        self._add(Cut([""], [place]))

    def _hyphenated(self, group: list[Atom]) -> int | None:
        """Which atom of a group has the letters that TeX would hyphenate (TeX: The Program, §894 to
        899)."""
        for at, atom in enumerate(group):
            if isinstance(atom, Text):
                if self._style.hyphen in atom.text:
                    return None
                if atom.words.has_letters(atom.text):
                    return at if self._may_follow(group[at + 1 :]) else None
            elif not isinstance(atom, Commands) or atom.first not in ("", "special"):
                return None
        return None

    def _may_follow(self, atoms: list[Atom]) -> bool:
        """Whether these atoms let the word before them be hyphenated."""
        for atom in atoms:
            if (
                isinstance(atom, Discretionary)
                or isinstance(atom, Text)
                and self._style.hyphen in atom.text
            ):
                return False
            if isinstance(atom, Commands) and atom.first:
                return atom.first in _AFTER_WORDS
        return True


# What stands for a place in a list: the end of the text before it, and lines; None if the texts on
# both sides join.
Shown: TypeAlias = "tuple[str, str] | None"


def lines_of(source: Source, shown: Callable[[Place, int], Shown]) -> str:
    """The lines of a list. A function says what stands for each place, by its number."""
    texts, words, lines, start = source.texts, source.first_words, list[str](), 0
    for at, (end, it) in enumerate([*source.stops, (len(texts), Commands(""))]):
        found = shown(it, at) if isinstance(it, Place) else ("", it.lines)
        if found:
            text = "".join(texts[start:end]) + found[0]
            lines += [words.lines(text) if text else "", found[1]]
            start = end
            if isinstance(it, Commands) and it.words:
                words = it.words
    return "".join(lines)


def any_place(place: Place, number: int) -> Shown:
    """A place that may be taken, after a special that has its number."""
    return "", f"special {MARK}{number}\n{place.trial}"


def own_place(place: Place, number: int) -> Shown:
    """A place that may be taken, unless a rule found it."""
    return None if place.is_automatic else any_place(place, number)


def ends_at_places(box: Box | None) -> dict[int, int]:
    """The lines of a vbox that end at a marked place, by the number of the place: the last item of
    such a line is its penalty."""
    if box is None:
        return {}
    rows, texts = box._table.rows, box._table.texts
    levels = levels_of(rows)
    heads = [*[at for at, level in enumerate(levels) if level == 1], len(levels)]
    found, line = dict[int, int](), 0
    for head, following in zip(heads, heads[1:]):
        line += rows[head].kind == ItemKind.HBOX
        if (
            following - head > 2
            and levels[following - 1] == 2
            and rows[following - 1].kind == ItemKind.PENALTY
        ):
            mark = rows[following - 2]
            if mark.kind == ItemKind.KERN:
                mark = rows[following - 3]
            text = texts[mark.text_start : mark.text_start + mark.text_size].decode("latin-1")
            if mark.kind == ItemKind.SPECIAL and text.startswith(MARK):
                found[int(text[len(MARK) :])] = line
    return found


class Setting:
    """The settings of one paragraph: trials in a box of their own, and the last one in the list
    that is open."""

    def __init__(self, job: Job, source: Source) -> None:
        self._job, self._source = job, source
        self.reply = Paragraph(0, 0, 0, 0, 0)
        # The lines that end at places, by the numbers of these; and the pretolerance by which this
        # was found.
        self._ends: dict[int, int] = {}
        self._pretolerance = job._state.pretolerance
        self._shown: list[HyphenPlace] = []

    def trial(self, is_automatic: bool, is_first: bool) -> None:
        """Sets the paragraph to find its breaks. A trial with the places of a rule has no first
        pass; a trial before it counts only if its first pass decides."""
        self._pretolerance = -1 if is_automatic else self._job._state.pretolerance
        lines = lines_of(self._source, any_place if is_automatic else own_place)
        with self._job.register() as box:
            self.reply = self._set(lines, [self._job.vbox(into=box)])
            if not is_first or self.reply.deciding_pass == 1:
                self._ends = ends_at_places(self._job.inspect(box))

    @property
    def is_left(self) -> bool:
        """Whether a refusal left a list open."""
        return self._job._state.is_left

    def last(self) -> HyphenatedParagraph:
        """Sets the paragraph with these breaks."""
        self._set(lines_of(self._source, self._last_place), [])
        self._job._state.current = self._source.font
        reply, shown = self.reply, tuple(self._shown)
        return HyphenatedParagraph(
            reply.lines, reply.deciding_pass, reply.overhang, reply.demerits, shown
        )

    def _last_place(self, place: Place, number: int) -> Shown:
        """A place in the last setting: a line ends there, or cannot."""
        if number not in self._ends:
            return None if place.unbroken is None else ("", place.unbroken)
        word, rest = place.word, place.rest
        parts = (word, rest) if isinstance(rest, str) else (word[:rest] + place.before, word[rest:])
        self._shown.append(HyphenPlace(self._ends[number], *parts))
        lines = f"penalty -10000\n{place.after}"
        return (place.before, lines) if place.unbroken is None else ("", place.before + lines)

    def _set(self, lines: str, lists: list[OpenList[Any]]) -> Paragraph:
        """Sets a list as a paragraph within these lists, which end after it."""
        job, state = self._job, self._job._state
        lists = [*lists, job.par()]
        font = f"use {self._source.first_slot}\n" if self._source.changes_font else ""
        ends = "end\n" * len(lists)
        script = f"{font}set pretolerance {self._pretolerance}\n{lines}{ends}set pretolerance {state.pretolerance}\n"
        state.is_left = True
        answers = job.commands(script)
        ended = answers.replies[-1 - len(lists) : -1]
        if not any(isinstance(it, Refused) for it in ended):
            for it in lists:
                it.is_open = False
                state.lists.remove(it)
            state.is_left = False
        if not answers.accepted:
            commands, replies = script.splitlines(), answers.replies
            raise next(
                it.of_command(command, caller())
                for command, it in zip(commands, replies)
                if isinstance(it, Refused)
            )
        found = ended[0]
        assert isinstance(found, Paragraph)
        return found


def set_paragraph(
    job: Job, pieces: str | Iterable[Piece], style: Style, first_word: bool
) -> HyphenatedParagraph:
    """Sets a paragraph as TeX does: first with only its own places, at pretolerance; if no breaks
    are that good, with all places."""
    given = iter([pieces] if isinstance(pieces, str) else pieces)
    first = next(given, "")
    font = job._state.own(first) if isinstance(first, LoadedFont) else job._state.current
    source = Source(job, style, first_word, font)
    for it in chain([first], given):
        source.add(it)
    source.end()
    setting, is_automatic = Setting(job, source), source.automatic > 0
    if is_automatic and source.places + source.automatic > MOST_PLACES:
        is_automatic = False
        warn(
            f"{source.places + source.automatic:,} places for breaks, of which {MOST_PLACES:,} are allowed"
        )
    if not is_automatic or job._state.pretolerance >= 0:
        setting.trial(False, is_automatic)
    if is_automatic and setting.reply.deciding_pass != 1:
        try_automatic(setting)
    return setting.last()


def try_automatic(setting: Setting) -> None:
    """Sets a paragraph with the places of the rule, or, where these make the list too long, without
    them."""
    try:
        setting.trial(True, False)
    except Refused as refused:
        if refused.name != "ListTooLong" or setting.is_left:
            raise
        warn("too many items with its hyphens")
        setting.trial(False, False)


def warn(why: str) -> None:
    """Warns the caller of the package."""
    frame, level = sys._getframe(1), 2
    while frame.f_back and frame.f_globals.get("__package__") == "boxglue":
        frame, level = frame.f_back, level + 1
    warnings.warn(f"a paragraph is set without hyphens: it would have {why}", stacklevel=level)
