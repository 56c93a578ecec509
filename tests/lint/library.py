"""The examples of docs/LIBRARY.md: each block of Rust is the text of an example of a crate
`examples_..`, which `rt ci` proves and runs. Only texts are compared, and no program is run."""
import glob
import re
import textwrap
from functools import partial

from common.files import read

TITLE = "the examples of docs/LIBRARY.md, against the crates examples_.."


def blocks_of(text):
    """The blocks of Rust of a document, each with the number of its first line."""
    for found in re.finditer(r"^( *)```rust\n(.*?)^\1```$", text, re.M | re.S):
        yield text.count("\n", 0, found.start(2)) + 1, textwrap.dedent(found[2])


def has_lines(text, lines):
    """Whether a text has these lines, one after the other."""
    return f"\n{lines}" in f"\n{text}"


def outcome(line, block, sources):
    """What is wrong with one block."""
    if not block.strip() or not any(has_lines(it, block) for it in sources):
        return f"docs/LIBRARY.md, line {line}: this block is in no file of crates/examples_*/src"
    return None


def cases(_programs, root):
    """The blocks of the document, by their order."""
    sources = [read(it) for it in sorted(glob.glob(f"{root}/crates/examples_*/src/*.rt"))]
    for number, (line, block) in enumerate(blocks_of(read(f"{root}/docs/LIBRARY.md")), 1):
        yield f"block {number}", partial(outcome, line, block, sources)
