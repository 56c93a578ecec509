"""The English of the documents: no sentence has one of the bad habits that a test can find.

The test cannot find all habits, so read a text even if it finds none.
Each rule has a sentence that breaks it, and the same in good English, which breaks no rule: the
case "rules" tries both."""
import functools
import os
import re
from dataclasses import dataclass
from functools import partial
from typing import Callable

from common.files import read
from lint.documents import documents
from lint.sentences import sentences

TITLE = "the English of the documents: no sentence has one of the habits that a test can find"
TRIES = False
# "alone" says with these verbs how something is done, as it does with participles and with forms in
# -ing.
VERBS = {
    *"act acts am are be come comes do does go goes is live lives run runs ran sit sits stand stands stood swim swims walk walks was were work works".split()
}
LEFT = {*"leave leaves leaving left let lets".split()}
# "so" does not mean "like this" at the end of a sentence after these words.
SAID = {*"do does did doing done or if even more not like say says said think thinks".split()}


def says_so(text):
    """Finds a "so" that means "like this": at the end of a sentence or before a colon."""
    return next(
        (it for it in re.finditer(r"([\w◇]+),? so(?=[.:;]|$)", text) if it[1].lower() not in SAID),
        None,
    )


def has_alone(text):
    """Finds an "alone" behind a noun. Behind a verb it says how, and a sentence may tell to leave
    something alone."""
    for found in re.finditer(r" alone\b", text):
        words = re.findall(r"[\w◇]+", text[: found.start()].lower())
        if (
            words
            and words[-1] not in VERBS
            and not re.search(r"(?:ed|ing|self|selves)$", words[-1])
            and not {*words[-6:]} & LEFT
        ):
            return found
    return None


@dataclass(frozen=True)
class Rule:
    """A rule: its message, a call that finds where a text breaks it, a sentence that breaks it, the
    same in good English, and whether it is about the beginning of a sentence."""

    message: str
    find: Callable
    bad: str
    good: str
    is_on_beginning: bool = False

    def broken(self, sentence):
        """The words by which a sentence breaks the rule, with some around them. A cell that is not
        a sentence has no beginning."""
        found = (
            self.find(sentence.text) if sentence.is_whole() or not self.is_on_beginning else None
        )
        return (
            found
            and sentence.text[max(found.start() - 25, 0) : max(found.end(), found.start() + 40)]
        )


# Rules that a pattern does not find.
CALLS = {"=says_so": says_so, "=has_alone": has_alone}


@functools.lru_cache(None)
def data(root, name):
    """A text of the folder of cases: sentences with a habit and in good English, some of which look
    like a habit; a text that has habits only in code, headings, links, pictures and quoted words,
    and one with a habit in each of its odd lines."""
    return read(f"{root}/tests/cases/english/{name}")


@functools.lru_cache(None)
def rules_of(root):
    """The rules."""
    rows = (line.split("\t") for line in data(root, "rules.tsv").splitlines())
    return [
        Rule(message, CALLS.get(find) or re.compile(find).search, bad, good, where == "beginning")
        for message, find, bad, good, where in rows
    ]


def told(root, text):
    """Each rule that a text breaks: the line, the message, and the words."""
    return [
        (it.line, rule.message, words)
        for it in sentences(text)
        for rule in rules_of(root)
        if (words := rule.broken(it))
    ]


def rules(root):
    """What is wrong with the rules."""
    lost = [
        it.bad
        for it in rules_of(root)
        if it.message not in {message for _, message, _ in told(root, it.bad)}
    ]
    lost += [it for it in data(root, "bad.txt").splitlines() if not told(root, it)]
    more = [
        it
        for it in (*data(root, "good.txt").splitlines(), *(rule.good for rule in rules_of(root)))
        if told(root, it)
    ]
    return (
        "; ".join(
            [*(f"no rule finds {it!r}" for it in lost), *(f"a rule finds {it!r}" for it in more)]
        )
        or None
    )


def layout(root):
    """What is wrong with the lines of a text."""
    left_out, lines = told(root, data(root, "left_out.txt")), [
        line for line, _, _ in told(root, data(root, "found.txt"))
    ]
    return (
        f"finds {left_out}, and then lines {lines}" if left_out or lines != [1, 3, 5, 7] else None
    )


def outcome(root, path):
    """The habits of a document."""
    if not os.path.exists(f"{root}/{path}"):
        return f"no {path}"
    return (
        "; ".join(
            f"{path}:{line}: {message}: {words!r}"
            for line, message, words in told(root, read(f"{root}/{path}"))
        )
        or None
    )


def cases(_programs, root):
    """The rules, and a case for each document."""
    yield "rules", partial(rules, root)
    yield "layout", partial(layout, root)
    for path in documents(root):
        yield path, partial(outcome, root, path)
