"""The commands of docs/FAQ.md, run in their order in a copy of examples/: they print what the
document shows, and write only the files that it names. Without its penalty the word sticks out as
far as the document says. The limits and figures are those of the other documents; the glossary is
in order, its entries are short, and other documents use its words."""
import glob
import os
import re
from functools import partial

from common.files import read, write
from common.outcome import require
from common.running import finished
from parts.authors import in_rooms

TITLE = "docs/FAQ.md: its commands, figures and glossary"
NEEDS_PROGRAM = True
# A file to save, what the commands before it print, and commands.
BLOCK = re.compile(
    r"(?m)^Save this as `(?P<path>\S+)`:\n\n```text\n(?P<saved>(?:.*\n)*?)```$|^```text\n(?P<output>(?:.*\n)*?)```$|"
    r"(?P<commands>(?:^    .*\n)+)"
)
FONT = "cmtt10=examples/plain.tfm"
WORD, PENALTY = "out/word.box", "penalty 50\n"
LEAST_WORDS, MOST_WORDS_OF_ONE = 30, 25
# Where users meet the words of the glossary.
READ_BY_USERS = ("README.md", "docs/*.md", "docs/boxglue.1")


def section(text, title):
    """The section with this title."""
    return text.partition(f"\n## {title}\n")[2].partition("\n## ")[0]


def shell(room, text):
    """What commands print. A limit ends a program by a signal, of which the shell tells."""
    env = {"PATH": f"{room.folder}/bin:{os.environ['PATH']}"}
    ran = finished(["bash", "-uc", text], cwd=room.folder, env=env, text=True)
    errors = [line for line in ran.stderr.splitlines() if " Killed " not in line]
    require(not errors, f"{text!r}: standard error has {errors[-1:]}")
    return ran.stdout


def files_below(folder):
    """The paths of all files of a folder."""
    return {
        os.path.relpath(f"{path}/{name}", folder)
        for path, _, names in os.walk(folder)
        for name in names
    }


def follow(room, text):
    """Runs the commands of the document, and compares what they print."""
    printed, before = "", files_below(room.folder)
    for block in BLOCK.finditer(text):
        if block["output"] is not None:
            require(
                printed == block["output"], f"the output is {printed!r} and not {block['output']!r}"
            )
            printed = ""
            continue
        require(not printed, f"the document does not show {printed!r}")
        if block["path"]:
            write(f"{room.folder}/{block['path']}", block["saved"])
        else:
            printed = shell(room, re.sub(r"(?m)^    ", "", block["commands"]))
    require(not printed, f"the document does not show {printed!r}")
    others = files_below(room.folder) - before - {it for it in re.findall(r"out/\w+\.\w+", text)}
    require(not others, f"the commands made {sorted(others)}")


def without_penalty(room, text):
    """The word of the document without its penalty, as the document tells it."""
    script = read(f"{room.folder}/{WORD}")
    require(PENALTY in script, f"{WORD} has no {PENALTY!r}")
    answers = answers_to(room, script.replace(PENALTY, ""))
    told = re.search(
        r"^If you leave the penalty out, .*: `(lines \d+)` and `(overhang (\d+))`\.$", text, re.M
    )
    require(
        told and all(re.search(rf" {it}\b", answers) for it in told.groups()[:2]),
        f"without the penalty the answers are {answers!r}",
    )
    points = re.search(r"sticks out by ([\d.]+)pt", text)[1]
    require(round(int(told[3]) / 65536, 1) == float(points), f"{told[2]} is not {points}pt")


def answers_to(room, script):
    """The answers to a script in the font of the examples."""
    words = [room.program, "typeset", "out/tried.dvi", FONT]
    return finished(words, input=script.encode(), cwd=room.folder, env={}).stdout.decode()


def document(room):
    """Runs the document."""
    text = read(f"{room.root}/docs/FAQ.md")
    follow(room, text)
    without_penalty(room, text)


def figures(root):
    """The limits are those of the rules, the figures of time and memory those of docs/SPEED.md, and
    the number of pages follows from a limit."""
    text = section(read(f"{root}/docs/FAQ.md"), "How large can a document be?")
    high, most = (
        re.search(r"at most ([\d.]+pt) high", text)[1],
        re.search(r"the limit of ([\d,]+) nodes", text)[1],
    )
    rules = read(f"{root}/docs/COMMANDS.md") + read(f"{root}/docs/FORMATS.md")
    lost = [it for it in (high, most) if it not in rules]
    measured = re.findall(r"\d+ bytes|[\d,]+ lines|[\d.]+ s\b|[\d.]+ MB", text)
    lost += [it for it in measured if it not in read(f"{root}/docs/SPEED.md")]
    counted = re.search(r"Pages of ([\d,]+) nodes .* after some ([\d,]+) pages", text).groups()
    nodes, pages, most = (int(it.replace(",", "")) for it in (*counted, most))
    if len(measured) < 5 or lost:
        return (
            f"docs/FAQ.md has figures that no other document has: {lost}"
            if lost
            else "docs/FAQ.md has lost figures"
        )
    if round(most / nodes, -1) == pages:
        return None
    return f"{most:,} nodes are {most // nodes:,} pages of {nodes:,}"


def glossary(root):
    """The entries are in order, short and enough, and each word stands in a document that users
    read."""
    entries = re.findall(
        r"(?m)^- \*\*(.*?)\*\*: (.*)$", section(read(f"{root}/docs/FAQ.md"), "Glossary")
    )
    names = [name for name, _ in entries]
    others = " ".join(
        read(it)
        for pattern in READ_BY_USERS
        for it in glob.glob(f"{root}/{pattern}")
        if not it.endswith("/FAQ.md")
    ).lower()
    forms = {
        name: [name, *re.findall(r"\((\w+)\)", name), re.sub(r" \(.*\)|ping$", "", name)]
        for name in names
    }
    wrong = [
        f"{name} has {len(meaning.split())} words"
        for name, meaning in entries
        if len(meaning.split()) > MOST_WORDS_OF_ONE
    ]
    wrong += [
        f"no document has {name}"
        for name in names
        if not any(it.lower() in others for it in forms[name])
    ]
    if names != sorted(names, key=str.lower):
        wrong.append("the words are not in order")
    if len(names) < LEAST_WORDS:
        wrong.append(f"there are {len(names)} words")
    return "; ".join(wrong) or None


def cases(programs, root):
    """The commands, the figures and the glossary."""
    yield "commands", partial(in_rooms, document, root, None, programs)
    yield "figures", partial(figures, root)
    yield "glossary", partial(glossary, root)
