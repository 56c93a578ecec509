"""Random boxes, splits, paragraphs and pages, by boxglue and by TeX: answers, demerits, and the
places of all marks."""

import re
import sys
from collections import Counter
from functools import partial
from typing import NamedTuple

import outside_inputs
from outside_pages import Tally, by_dvitype

# TeX takes no list of breaks of more demerits.
MOST_DEMERITS = 2**30 - 1


# TeX: The Program, 837, takes off from a line what is dropped after its first place, up to the next
# box, also where the line ends before that.
LOOSE = (
    "paragraphs with a line without items, which TeX measures by the glue that is dropped after it"
)


OTHER_BREAKS = "paragraphs with equal demerits and other breaks"
OTHER_PAGES = "pages with a paragraph of equal demerits and other breaks"


class Compared:
    """What came out of pairs of a script and a text of TeX."""

    def __init__(self):
        self.answers = Counter()
        self.unequal, self.ours, self.listed = [], Tally(), Tally()
        self.causes, self.ties = Counter(), []

    def tie(self, cause, where):
        """Breaks that are others than those of TeX, and as good."""
        self.causes[cause] += 1
        self.ties.append(where + ": equal demerits, other breaks")


class Both:
    """What boxglue and TeX made of a pair: boxglue's answers, those that are unequal, with the
    paragraphs on which they depend, and the pages of both files by count 0."""

    def __init__(self, work, name, pair, found):
        script, text = pair.script()
        fonts = work.fonts(["cmr10", "cmbx12", "cmti10"])
        self.name, self.unequal = name, []
        self.answers, theirs = work.typeset(name, script, fonts), work.tex(name, text)
        if len(theirs) != len(pair.expected):
            counts = len(theirs), len(pair.expected)
            log = work.path(name + ".log")
            sys.exit("%s: TeX gave %d answers, not %d; see %s" % (name, *counts, log))
        for (line, paragraph), answer in zip(pair.expected, theirs):
            found.answers[answer.split()[0]] += 1
            if self.answers[line] != answer:
                both = "%s, line %d: %s and %s" % (name, line, self.answers[line], answer)
                self.unequal.append((paragraph, both))
        read = [by_dvitype(name + end, work.folder) for end in (".ours.dvi", ".dvi")]
        found.unequal += ["%s: dvitype: %s" % (name, it) for it in read[0].complaints]
        listing = work.listing(name + ".ours.dvi", fonts)
        found.listed.pages(name, listing.pages or [], read[0].pages)
        self.ours, self.theirs = ({it.counts[0]: it for it in its.named()} for its in read)

    def others(self, without=()):
        """The counts of the pages that are not alike."""
        counts = {*self.ours} & {*self.theirs} - {*without}
        return [it for it in counts if not Tally().page("", self.ours[it], self.theirs[it])]

    def compare(self, found, pages=(), paragraphs=()):
        """Compares pages and answers, without those of some pages and paragraphs."""
        found.unequal += [text for paragraph, text in self.unequal if paragraph not in paragraphs]
        alone = sorted({*self.ours} ^ {*self.theirs})
        if alone:
            found.unequal.append("%s: pages %s of one file only" % (self.name, alone[:9]))
        for count in sorted({*self.ours} & {*self.theirs} - {*pages}):
            where = "%s, page with count %d" % (self.name, count)
            found.ours.page(where, self.ours[count], self.theirs[count])


def said(work, part, found):
    """Prints what came out of a part."""
    answers = ", ".join("%d %s" % (count, word) for word, count in sorted(found.answers.items()))
    pages = found.ours.shown(), found.listed.shown()
    form = "%s: answers %s, unequal %d; TeX's pages: %s; `list` beside dvitype: %s"
    notes = found.unequal + found.ours.notes + found.listed.notes + found.ties
    work.show(form % (part, answers, len(found.unequal), *pages), found.causes, notes)


def alike(part, make, seeds, count, work):
    """Random work of which all is compared: sizes, badness, places of all marks."""
    found = Compared()
    for seed in work.seeds(seeds):
        name = "%s%d" % (part, seed)
        Both(work, name, make(seed, count), found).compare(found)
    said(work, part, found)


boxes = partial(alike, "boxes", outside_inputs.boxes, 20, 100)
splits = partial(alike, "splits", outside_inputs.splits, 10, 60)


def long_script(work):
    """The same in one script, which is read in many blocks."""
    found, pair = Compared(), outside_inputs.splits(11, 1500)
    Both(work, "long_script", pair, found).compare(found)
    said(work, "long_script (%d lines)" % len(pair.box), found)


VIA = re.compile(r"@\S* ?via @@(\d+) b=(\*|\d+) p=(-?\d+) d=(\*|-?\d+)")
NODE = re.compile(r"@@(\d+): line (\d+)\.\d-? t=(-?\d+) -> @@(\d+)")
ENDED = re.compile(r"@paragraph (\d+) (\d+)")


class Trace(NamedTuple):
    """What TeX's trace says of a paragraph: its lines, the pass, the demerits of the list it takes,
    and badness and demerits of each line, from the last."""

    lines: int
    attempt: int
    total: int
    chain: list


def traces(log):
    """The traces of a log, by the numbers of the paragraphs."""
    # TeX does not say that it begins with its second pass.
    found, nodes, ends, via, attempt, at_end = {}, {}, [], {}, 2, False
    for line in log.split("\n"):
        if not line.startswith("@"):
            continue
        if line.startswith(("@firstpass", "@secondpass")):
            nodes, ends, via, attempt, at_end = {}, [], {}, 1 if "first" in line else 2, False
        node, way, ended = NODE.match(line), VIA.match(line), ENDED.match(line)
        if way:
            via[int(way[1])], at_end = (way[2], way[4]), line.startswith("@\\par")
        elif node:
            number, _, total, before = map(int, node.groups())
            nodes[number] = (total, before, via[before])
            ends += [number] if at_end else []
        elif ended:
            number = min(ends, key=lambda it: nodes[it][0])
            total, chain = nodes[number][0], []
            while number:
                chain.append(nodes[number][2])
                number = nodes[number][1]
            found[int(ended[1])] = Trace(int(ended[2]), attempt, total, chain)
            nodes, ends, via, attempt, at_end = {}, [], {}, 2, False
    return found


PARAGRAPH = re.compile(r"paragraph lines (\d+) pass (\d) overhang (-?\d+) demerits (-?\d+)")
FORCED = (
    "totals without the demerits of a line to a forced place, which TeX leaves out in its last "
    "pass where one list reaches it"
)


def judged(answer, trace, used, found, where):
    """Compares the answer to a paragraph with TeX's trace; says whether its lines are
    comparable."""
    lines, decided, overhang, total = map(int, PARAGRAPH.fullmatch(answer).groups())
    # Without demerits, a line is one that TeX takes for want of a better one, or the only one that
    # reaches a forced place (TeX: The Program, 854).
    free = [badness for badness, demerits in trace.chain if demerits == "*"]
    forced = [int(it) for it in free if it != "*" and int(it) <= used["tolerance"]]
    attempt = 3 if len(forced) < len(free) else trace.attempt
    if total > MOST_DEMERITS:
        found.causes["paragraphs above 2^30 - 1 demerits, which TeX does not take"] += 1
        return False
    if used["loose"] and decided > attempt:
        found.causes[LOOSE] += 1
        return False
    if decided != attempt:
        found.unequal.append("%s: %s; TeX: pass %d" % (where, answer, attempt))
        return False
    if decided == 3:
        found.causes["paragraphs in pass 3, which is boxglue's own, not compared"] += 1
        return False
    found.answers["paragraphs in pass %d" % decided] += 1
    missing = sum(min((used["linepenalty"] + badness) ** 2, 10**8) for badness in forced)
    adjusted = [used["adjdemerits"] * count for count in range(len(forced) + 1)]
    if total != trace.total and forced and (total - trace.total - missing) in adjusted:
        found.causes[FORCED] += 1
    elif total > trace.total and used["loose"]:
        found.causes[LOOSE] += 1
        return False
    elif total != trace.total or lines != len(trace.chain) or lines != trace.lines:
        both = where, answer, trace.lines, trace.total
        found.unequal.append("%s: %s; TeX: lines %d, demerits %d" % both)
    return True


def not_comparable(work, name, pair, both, found):
    """The lines of the answers to the paragraphs whose lines are not comparable, by the numbers of
    these."""
    traced, others = traces(work.text(name + ".log")), {}
    for number, line, used in pair.paragraphs:
        where = "%s, paragraph %d" % (name, number)
        if not judged(both.answers[line], traced[number], used, found, where):
            others[number] = line
    return others


def broken(part, make, seeds, count, work):
    """What came out of paragraphs that are pages of their own: the pass, the demerits, and the
    places of all marks."""
    found = Compared()
    for seed in work.seeds(seeds):
        name, pair = "%s%d" % (part, seed), make(seed, count)
        both = Both(work, name, pair, found)
        without = [*not_comparable(work, name, pair, both, found)]
        # Where boxglue's list has the demerits of TeX's, but other lines, both are the least.
        ties = both.others(without)
        for number in ties:
            found.tie(OTHER_BREAKS, "%s, paragraph %d" % (name, number))
        both.compare(found, without + ties, without + ties)
    said(work, part, found)


paragraphs = partial(broken, "paragraphs", outside_inputs.paragraphs, 40, 100)
long_paragraphs = partial(broken, "long_paragraphs", outside_inputs.long_paragraphs, 6, 10)


def pages(work):
    """Pages of text with specials, split from lists of thirty paragraphs, some with first lines of
    their own width."""
    found = Compared()
    for seed in work.seeds(8):
        name, pair = "pages%d" % seed, outside_inputs.pages(seed, 8)
        both, before = Both(work, name, pair, found), len(found.unequal)
        lines = not_comparable(work, name, pair, both, found).values()
        found.unequal += ["%s, line %d: pass 3" % (name, line) for line in lines]
        # Where all demerits are those of TeX, lines with other breaks are as good.
        ties = both.others() if len(found.unequal) == before else []
        for count in ties:
            found.tie(OTHER_PAGES, "%s, page with count %d" % (name, count))
        # The answers about a list with such a paragraph may differ too.
        both.compare(found, ties, {count // 10 for count in ties})
    said(work, "pages", found)
