"""The sentences of a Markdown text, with their lines, for rules about words.

It leaves out blocks of code, headings and pictures. Code inside of a sentence and quoted words
become a sign for a noun, and a link becomes its text. List items and cells of tables are sentences
too."""
import re
from bisect import bisect_right
from dataclasses import dataclass
from itertools import accumulate

# What stands in place of code and of quoted words: a noun, which may begin a sentence.
NOUN = "◇"
FENCE, CODE, LEFT_OUT = (
    re.compile(r"\s*(?:```|~~~)"),
    re.compile(r" {4}|\t"),
    re.compile(r"\s*#+ |\s*<!--|\s*\[[^]]+\]: |\s*\|?[-:| ]+$"),
)
ITEM, CELLS = re.compile(r"\s*(?:> ?)*(?:[-*+]|\d+[.)])\s+"), re.compile(r"\s*\|")
# A sentence ends before a capital letter, a number or a noun. The text after a colon is a sentence
# only if it begins with a capital letter.
END = re.compile(
    r"(?<!e\.g\.)(?<!i\.e\.)(?<!cf\.)(?<!vs\.)(?:(?<=[.!?])|(?<=[.!?]\)))\s+(?=[(\[]*[A-Z\d◇])|(?<=:)\s+(?=[A-Z])"
)


@dataclass(frozen=True)
class Sentence:
    """A sentence, the number of its line, and its place: a "paragraph", an "item" of a list, or a
    "cell"."""

    line: int
    text: str
    kind: str

    def is_whole(self):
        """Whether it is a sentence or an item. A cell is one if it ends as one, or begins with a
        capital letter and has four words."""
        return (
            self.kind != "cell"
            or self.text[-1] in ".!"
            or self.text[0].isupper()
            and len(self.text.split()) >= 4
        )


def plain(line):
    """A line without markup."""
    line = re.sub(r"(`+)(?!`).*?(?<!`)\1(?!`)", NOUN, line)
    line = re.sub(r"!\[[^]]*\]\([^)]*\)|<[^>]+>", " ", line)
    line = re.sub(r"\[([^]]*)\](?:\([^)]*\)|\[[^]]*\])", r"\1", line)
    line = re.sub(r'"[^"]*"|“[^”]*”', NOUN, line)
    return " ".join(re.sub(r"\*+|(?<!\w)_+|_+(?!\w)|\\(?=\W)", "", line).split())


def blocks(text):
    """The paragraphs, items and cells of a text, each with its kind, and its lines with their
    numbers."""
    found, is_open, is_fenced = [], False, False
    for number, line in enumerate(text.splitlines(), 1):
        is_fence, is_code = bool(FENCE.match(line)), bool(CODE.match(line)) and not is_open
        if is_fence:
            is_fenced = not is_fenced
        if is_fence or is_fenced or is_code or not line.strip() or LEFT_OUT.match(line):
            is_open = False
        elif CELLS.match(line):
            found += [("cell", [(number, it.strip())]) for it in plain(line).strip("|").split("|")]
            is_open = False
        elif item := ITEM.match(line):
            found.append(("item", [(number, plain(line[item.end() :]))]))
            is_open = True
        elif not is_open:
            found.append(("paragraph", [(number, plain(line))]))
            is_open = True
        else:
            found[-1][1].append((number, plain(line)))
    return found


def parts(text):
    """The parts of a text that END cuts, each with its place."""
    begin = 0
    for found in END.finditer(text):
        yield begin, text[begin : found.start()]
        begin = found.end()
    yield begin, text[begin:]


def sentences(text):
    """The sentences of a text."""
    for kind, lines in blocks(text):
        ends = [*accumulate(len(line) + 1 for _, line in lines)]
        for begin, part in parts(" ".join(line for _, line in lines)):
            if re.search(r"[\w◇]", part):
                yield Sentence(lines[bisect_right(ends, begin)][0], part.strip().lstrip("(["), kind)
