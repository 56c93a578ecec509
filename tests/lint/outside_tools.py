"""The tools outside of the repository that a case may need: docs/internal/GATE.md lists them, and
in the gate a case is skipped only where one of them is missing."""
import glob
import re
from functools import partial

from common.files import read

TITLE = "the list of outside tools in docs/internal/GATE.md: it has each tool that a case names, and no other"
TRIES = False
HEAD = "| outside tool | what is skipped without it |"


def listed(root):
    """The tools of the list."""
    table = read(f"{root}/docs/internal/GATE.md").partition(f"\n{HEAD}\n")[2].partition("\n\n")[0]
    return re.findall(r"^\| ([\w+.-]+) \|", table, re.M)


def others(skipped, root):
    """The skipped cases, each with its reason, for which no listed tool is the reason."""
    reasons = {f"no {it}" for it in listed(root)}
    return [(name, why) for name, why in skipped if why not in reasons]


def note(skipped, root):
    """A line about the tools of the list: those that these skipped cases lacked, and the others."""
    missing = [it for it in listed(root) if any(why == f"no {it}" for _, why in skipped)]
    there = [it for it in listed(root) if it not in missing]
    return f"Of the outside tools these were there: {' '.join(there) or 'none'}; these were missing: {' '.join(missing) or 'none'}."


def sources(root):
    """The text of all modules of the parts."""
    texts = []
    for path in sorted(glob.glob(f"{root}/tests/*/*.py")):
        texts.append(read(path))
    return "\n".join(texts)


def not_listed(root):
    """Tools that a case names, and the list does not have."""
    missing = (
        {
            it
            for names in re.findall(r"\b(?:lacks|without|need)\(([^()]*)\)", sources(root))
            for it in re.findall(r"\"([^\"]+)\"", names)
        }
        - {*listed(root)}
        - {"TOOL"}
    )
    return f"docs/internal/GATE.md does not list {', '.join(sorted(missing))}" if missing else None


def not_named(root):
    """Tools of the list that stand in no part."""
    more = [it for it in listed(root) if f'"{it}"' not in sources(root)]
    if more or not listed(root):
        return f"docs/internal/GATE.md lists {', '.join(more)}, which no case needs"
    return None


def held(root):
    """A skip by a listed tool passes in the gate, and every other one is a failure."""
    tool = listed(root)[0]
    right, wrong = ("a", f"no {tool}"), [
        ("b", "no cc"),
        ("c", "it needs an archive: --library"),
        ("d", f"{tool} is not there"),
        ("e", "no"),
    ]
    if others([right, *wrong], root) == wrong:
        return None
    return "the gate takes a skip for another reason"


def cases(_programs, root):
    """The cases, by name."""
    yield "each tool that a case names", partial(not_listed, root)
    yield "each tool of the list", partial(not_named, root)
    yield "other reasons", partial(held, root)
