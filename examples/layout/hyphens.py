#!/usr/bin/env python3
"""Sets each line of a text as a paragraph, without hyphens on the left and with TeX's on the right:

    examples/layout/hyphens.py out/hyphens.dvi cmr10=$cmr10 examples/layout/patterns.tex < TEXT

The patterns are as in TeX's hyphen.tex, and the rule is in docs/AUTHORS.md, section 4. {k-|k|ck} is
a discretionary. In a trial a rule of no width, n scaled points deeper than any letter, is behind
the n-th gap, so the depth of a line says which gaps it has; the line ends at the next one."""
import functools
import re
import sys

sys.path.append(f"{sys.path[0]}/../session")
from asking import POINT, Session, scaled  # noqa: E402 (after the path)

SCRATCH, LINE, PAGE, WIDTH, MARK, LEFT, RIGHT = 1, 2, 3, 150, 100 * POINT, 2, 3
# A gap: whether the patterns found it, and what follows its text in a trial, within and at an end.
SPACE, END = (False, " ", " ", ""), "\npenalty -10000{}\ntext "


class Hyphens:
    """Paragraphs with hyphens, by a text of TeX with patterns and exceptions."""

    def __init__(self, session, text):
        self.session, text = session, re.sub("%.*", "", text)
        self.width = functools.cache(lambda it: session.pack(LINE, "hbox", f"text {it}")[0])
        words = lambda name: " ".join(re.findall(rf"\\{name}\s*{{(.*?)}}", text, re.S)).split()
        values = lambda it: [int(n or 0) for n in re.split(r"\D", it)]
        self.values = {re.sub(r"\d", "", it): values(it) for it in words("patterns")}
        places = lambda it: [at.start() - n for n, at in enumerate(re.finditer("-", it))]
        self.exceptions = {it.replace("-", ""): places(it) for it in words("hyphenation")}

    def places(self, word):
        """How many letters stand before each place of a word."""
        values, dots = [0] * (len(word) + 3), f".{word.lower()}."
        for start in range(len(dots)):
            for end in range(start + 1, len(dots) + 1):
                for n, value in enumerate(self.values.get(dots[start:end], ()), start):
                    values[n] = max(values[n], value)
        found = self.exceptions.get(dots[1:-1], [n - 1 for n, it in enumerate(values) if it % 2])
        return [it for it in found if LEFT <= it <= len(word) - RIGHT]

    def automatic(self, word):
        """The texts and gaps of a word by the patterns: by gaps that add the same in all lines."""
        (before, letters), kerns = re.match("([^A-Za-z]*)([A-Za-z]{,63})", word).groups(), {}
        width = lambda start, end, more="": self.width(word[start:end] + more)
        for place in self.places(letters):
            ends, more = [0, *kerns, place + len(before), len(word)], {}
            for n, at in enumerate(ends[1:-1], 1):
                pairs = [(a, b) for a in ends[:n] for b in ends[n + 1 :]]
                joined = {width(a, b) - width(a, at) - width(at, b) for a, b in pairs}
                more[at] = {width(a, at, "-") - width(a, at) for a in ends[:n]}, joined
            if all(len(values) == 1 for both in more.values() for values in both):
                kerns = more
        for start, (at, ((hyphen,), (joined,))) in zip([0, *kerns], kerns.items()):
            trial = f"\nkern {hyphen}sp\npenalty 50\nkern {joined - hyphen}sp"
            yield word[start:at], (True, trial, "", "-" + END.format(""))
        yield word[max(kerns, default=0) :], SPACE

    def own(self, mark, following):
        """What a hyphen or a discretionary of the text puts before its gap, and the gap."""
        if mark[0] != "{":  # as in TeX, a kern after a hyphen begins a line: it is a rule
            kern = self.width(mark + following) - self.width(mark) - self.width(following)
            rule = f"\nrule {kern}sp 0pt 0pt" if kern else ""
            return mark, (False, f"\npenalty 50{rule}", "", END.format(rule))
        (a, pre), (b, post), (n, whole) = [(self.width(it), it) for it in mark[1:-1].split("|")]
        trial = f"\nkern {a}sp\npenalty 50\nkern {n - a - b}sp\nrule {b}sp 0pt 0pt"
        end = f"\ntext {pre}{END.format('')}{post}\ntext "
        return "", (False, trial, f"\ntext {whole}\ntext ", end)

    def word(self, word, is_first):
        """The texts of a word, each with the gap after it."""
        *found, last = re.split("({.*?}|-+(?=[^-{]))", word)
        for text, mark, following in zip(found[::2], found[1::2], [*found[2::2], last]):
            end, gap = self.own(mark, following[:1])
            yield text + end, gap
        is_whole = is_first or found or "-" in word
        yield from [(last, SPACE)] if is_whole else self.automatic(word)

    def trial(self, its, pretolerance):
        """Sets a paragraph for its breaks. Returns the answer, and the taken gaps within words."""
        marks = [f"\nrule 0pt 0pt {MARK + number}sp\n" for number in range(1, len(its))] + [""]
        commands = "".join(f"text {it}{gap[1]}{mark}" for (it, gap), mark in zip(its, marks))
        head = f"set pretolerance {pretolerance}", f"vbox into {SCRATCH}", "par"
        *_, answer, _ = self.session.ask(*head, *commands.split("\n"), "end", "end")
        lines = self.session.ask(*[f"vsplit {SCRATCH} to 0pt into {LINE}"] * int(answer[2]))
        taken = {max(scaled(it[3]) - MARK, 0) for it in lines[:-1]}
        return answer, {at for at in taken if its[at][1] is not SPACE}

    def paragraph(self, text, is_after_glue=False):
        """The answer to the trial that counts, and the paragraph for the list that is open."""
        words, joined = enumerate(text.split()), []
        its = [it for n, one in words for it in self.word(one, n == 0 and not is_after_glue)]
        for text, gap in its:  # joined where the patterns found a gap
            joined.append(((joined.pop()[0] if joined and joined[-1][1][0] else "") + text, gap))
        for counted, pretolerance in ((joined, 100), (its, -1)):
            answer, taken = self.trial(counted, pretolerance)
            if answer[4] == "1" or len(joined) == len(its):
                break
        lines = "".join(text + gap[3 if n in taken else 2] for n, (text, gap) in enumerate(counted))
        commands = f"par\ntext {lines.rstrip()}\nend\nset pretolerance 100".split("\n")
        return answer, [f"set pretolerance {pretolerance}", *commands]


def main(out, font, path):
    session = Session(out, [font])
    hyphens, name = Hyphens(session, open(path, encoding="utf-8").read()), font.split("=")[0]
    session.ask(f"font 0 {name}", "use 0", f"set hsize {WIDTH}pt", "set tolerance 400")
    session.ask(f"vbox into {PAGE}")
    for text in sys.stdin:
        answer, commands = hyphens.paragraph(text)
        print(*answer)
        session.ask("hbox", "vtop", "par", f"text {text.strip()}", "end", "end", "kern 20pt")
        session.ask("vtop", *commands, "end", "end", "glue 12pt")
    session.ask("end", f"ship {PAGE}")
    return session.end()


if __name__ == "__main__":
    sys.exit(main(*sys.argv[1:]))
