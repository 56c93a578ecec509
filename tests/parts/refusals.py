"""docs/REFUSALS.md has a heading for each refusal and each cause of the sources, and the manual
page a row for each refusal with the same sentence. Each mistake that the page shows gives the
answer that stands beside it, and what it tells to write instead is a script. Links to its headings
lead somewhere."""
import glob
import os
import re
import shutil
import subprocess
import tempfile
from functools import partial

from common.files import read, write
from models.plain_font import metric_file

TITLE = "docs/REFUSALS.md: its headings, the manual page's table of refusals, and the mistakes with their answers"
NEEDS_PROGRAM = True
LIMIT = 60
PAGE = "docs/REFUSALS.md"
NUMBERS = "crates/boxglue_program/src/refusals.rt"
# Those that no command answers, with the source that prints them.
OTHER_NUMBERS = {
    "BadScript": "crates/boxglue_program/src/texts.rt",
    "BadDvi": "crates/boxglue_print/src/faults.rt",
}
CAUSES = {
    "BadScript": ("crates/boxglue_script/src/cause.rt", "Cause"),
    "BadTfm": ("crates/tfm_core/src/fault.rt", "TfmCause"),
    "BadDvi": ("crates/dvi_scan/src/fault.rt", "DviCause"),
}
# Where docs/FORMATS.md has their tables: after the first text, and before the second.
IN_FORMATS = {
    "BadScript": ("### Bad scripts", "Only a keyword"),
    "BadTfm": ("A file is refused with the first", "The file `tiny`"),
    "BadDvi": ("### The reader", "## 8."),
}
# How a byte is shown that a table cannot show.
SHOWN = {"<tab>": "\t", "<space>": " "}
DOCUMENTS = (
    "README.md CHANGELOG.md docs/*.md crates/*/README.md examples/**/*.md bindings/**/*.md".split()
)
# The script of page.dvi.
TEXT_PAGE = "font 0 cmr10\nuse 0\nhbox into 0\ntext A page\nend\nship 0\n"


def sections(root):
    """The headings of the page, and what stands below each up to the next."""
    parts = re.split(r"^#{2,3} (.*)\n", read(f"{root}/{PAGE}"), flags=re.M)
    return dict(zip(parts[1::2], parts[2::2]))


def refusals(root):
    """The refusals of the page: number, name, and the first sentence below the heading."""
    return [
        (*heading.split(), body.strip().split("\n")[0])
        for heading, body in sections(root).items()
        if re.fullmatch(r"\d+ \w+", heading)
    ]


def causes(root, name):
    """The causes of a refusal that the page has."""
    return [
        heading.split()[1] for heading in sections(root) if re.fullmatch(rf"{name} \w+", heading)
    ]


def apart(here, there, least):
    """What is in one of two lists and not in the other; each has to have so many."""
    if sorted(here) == sorted(there) and len(here) >= least:
        return None
    return (
        f"these are not in both: {sorted({*here} ^ {*there})}"
        if here and there
        else "nothing was found"
    )


def numbers(root):
    """The numbers and names, compared with the sources."""
    there = re.findall(
        r'Refusal::\w+(?:\(\w+\))? => \((\d+), (?:"(\w+)"|metric)', read(f"{root}/{NUMBERS}")
    )
    there = [(number, name or "BadTfm") for number, name in there]
    there += [
        (re.search(rf'"refused (\d+) {name} "', read(f"{root}/{path}"))[1], name)
        for name, path in OTHER_NUMBERS.items()
    ]
    here = [(number, name) for number, name, _ in refusals(root)]
    rising = here == sorted(here, key=lambda it: int(it[0]))
    return apart(here, there, 22) or (None if rising else "the numbers do not rise")


def causes_of_sources(root, name):
    """The causes of a refusal, compared with the variants of the sources."""
    path, enum = CAUSES[name]
    body = re.search(rf"pub enum {enum} \{{(.*?)\n\}}", read(f"{root}/{path}"), re.S)[1]
    return apart(causes(root, name), re.findall(r"^    (\w+),$", body, re.M), 6)


def causes_of_formats(root, name):
    """The same causes are those of docs/FORMATS.md: the first word of a row's first cell, and in a
    table of checks that of the second."""
    begins, ends = IN_FORMATS[name]
    text = read(f"{root}/docs/FORMATS.md").partition(begins)[2].partition(ends)[0]
    found = re.findall(r"^\| ([A-Z]\w+) \|", text, re.M) + re.findall(
        r"^\| [^|]* \| ([A-Z]\w+), [^|]*\|$", text, re.M
    )
    return apart(causes(root, name), {*found}, 6)


def form(root):
    """Each entry has a sentence, a usual cause and what to do."""
    wrong = []
    for heading, body in sections(root).items():
        if re.fullmatch(r"\d+ \w+|Bad\w+ \w+", heading):
            sentence, *_ = body.strip().split("\n")
            asked = re.findall(r"^\*\*(Usual cause|What to do):\*\* \S", body, re.M)
            if asked != ["Usual cause", "What to do"] or not re.fullmatch(r"[A-Z].*\.", sentence):
                wrong.append(heading)
    return f"without a sentence, a usual cause or what to do: {', '.join(wrong)}" if wrong else None


def manual(root):
    """The table of the manual page has the same numbers, names and sentences."""
    part = re.search(
        r"^\.SS Refusals\n(.*?)^\.S[HS] ", read(f"{root}/docs/boxglue.1"), re.M | re.S
    )[1]
    rows = re.findall(r"^(\d+);(\w+);T\{\n(.*?)\nT\}$", part, re.M | re.S)
    here = [
        (number, name, line.replace("\n", " ").replace("\\-", "-")) for number, name, line in rows
    ]
    return apart(here, refusals(root), 22)


def headings_of(text):
    """The names by which links mean the headings of a document."""
    plain = [re.sub(r"[^\w\- ]", "", it.lower()) for it in re.findall(r"^#+ (.*)$", text, re.M)]
    return {it.replace(" ", "-") for it in plain}


def links(root):
    """Links to headings of the page, from itself and from other documents."""
    known, found = headings_of(read(f"{root}/{PAGE}")), []
    for path in sorted(
        {
            os.path.relpath(it, root)
            for pattern in DOCUMENTS
            for it in glob.glob(f"{root}/{pattern}", recursive=True)
        }
    ):
        own = r"(?:REFUSALS\.md)?" if path == PAGE else r"(?:[\w./]*/)?REFUSALS\.md"
        found += [(path, it) for it in re.findall(rf"\]\({own}#([^)]*)\)", read(f"{root}/{path}"))]
    wrong = [f"{path}: {it}" for path, it in found if it not in known]
    return (
        f"no heading for {', '.join(wrong)}"
        if wrong
        else None
        if len(found) > 15
        else "few links are found"
    )


def rows(text, first):
    """The rows of the tables whose first heading this is, each as its cells."""
    for table in re.findall(rf"^\| {first} \|.*\n\|[-|]+\n((?:\|.*\n)+)", text, re.M):
        for line in table.splitlines():
            yield [it.strip() for it in line.strip("|").split(" | ")]


def spans(cell):
    """The texts that are shown as code at the beginning of a cell: what comes after them tells
    more."""
    found = re.findall(r"`([^`]+)`", re.match(r"(?:`[^`]+`(?:, (?=`))?)*", cell)[0])
    for shown, meant in SHOWN.items():
        found = [it.replace(shown, meant) for it in found]
    return found


class Folder:
    """A folder with a script, a metric file, a DVI file that needs it, and the program on the
    path."""

    def __init__(self, root, program, path):
        self.path = path
        os.mkdir(f"{path}/bin")
        os.symlink(program, f"{path}/bin/boxglue")
        shutil.copy(f"{root}/examples/one_rule_page.box", f"{path}/page.box")
        write(f"{path}/cmr10.tfm", metric_file())
        if "refused" in "".join(self.typeset(TEXT_PAGE, "page.dvi")):
            raise ValueError("page.dvi is refused")

    def shell(self, line, given=b""):
        """The lines that a command of the shell prints, on both streams."""
        env = {"PATH": f"{self.path}/bin:{os.environ['PATH']}"}
        ran = subprocess.run(
            ["sh", "-c", line],
            input=given,
            cwd=self.path,
            env=env,
            stdout=subprocess.PIPE,
            stderr=subprocess.STDOUT,
            timeout=LIMIT,
        )
        return ran.stdout.decode().splitlines()

    def typeset(self, script, output="script.dvi"):
        """The answers to a script that has the font cmr10."""
        return self.shell(f"boxglue typeset {output} cmr10=cmr10.tfm", script.encode())


def over(programs, root, check):
    """Runs a check in a folder of each program."""
    for program in programs:
        with tempfile.TemporaryDirectory(prefix="boxglue-refusals-") as path:
            why = check(Folder(root, program, path))
        if why:
            return f"{os.path.basename(program)}: {why}"
    return None


def shown_answers(root, folder):
    """Each mistake of the first table has exactly the refusals and messages that are shown; one
    without any has the answer that is shown."""
    found = [*rows(read(f"{root}/{PAGE}"), "you wrote \\| you see")]
    for wrote, see, _ in found:
        lines, wanted = spans(wrote), spans(see)
        answers = (
            folder.shell(lines[0])
            if lines[0].startswith("boxglue ")
            else folder.typeset("".join(f"{it}\n" for it in lines))
        )
        told = [it for it in answers if "refused" in it or it.startswith(("boxglue: ", "error: "))]
        if told != wanted and (told or not wanted or not {*wanted} <= {*answers}):
            return f"{wrote} is answered {answers}"
    return None if len(found) > 15 else "few rows are found"


def bad_lines(root, folder):
    """The last line of each mistake is refused for the cause of its heading, and what stands beside
    it is a script."""
    found = 0
    for heading, body in sections(root).items():
        for wrote, right_ones in rows(body, "you wrote \\| write"):
            found += 1
            lines, right = spans(wrote), spans(right_ones)
            answers = folder.typeset("".join(f"{it}\n" for it in lines))
            if answers != [f"refused 2 BadScript {len(lines)} {heading.split()[1]}"]:
                return f"{wrote} is answered {answers}"
            answers = folder.typeset("".join(f"{it}\n" for it in right))
            if not right or not answers or "BadScript" in answers[0]:
                return f"{right_ones} is answered {answers}"
    return None if found > 25 else "few rows are found"


def cases(programs, root):
    """The cases, by name."""
    yield "numbers and names", partial(numbers, root)
    for name in CAUSES:
        yield f"causes of {name}", partial(causes_of_sources, root, name)
        yield f"causes of {name} in docs/FORMATS.md", partial(causes_of_formats, root, name)
    yield "form of the entries", partial(form, root)
    yield "table of the manual page", partial(manual, root)
    yield "links to headings", partial(links, root)
    yield "what was written, and seen", partial(over, programs, root, partial(shown_answers, root))
    yield "what to write in place of bad lines", partial(
        over, programs, root, partial(bad_lines, root)
    )
