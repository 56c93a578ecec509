"""A source without its comments and texts, and the ends of its brackets."""
import re

PASSED = re.compile(
    r"""//[^\n]*|/\*.*?\*/|b?"(?:\\.|[^"\\])*"|b?'(?:\\[^']+|[^\\'\n])'|[^\W\d][\w']*""", re.S
)

BRACKET = re.compile(r"[][{}()]")


def blanked(text):
    """The text with blanks in place of comments, of strings and of characters, so that each bracket
    is one of the code."""
    return PASSED.sub(
        lambda it: re.sub(r"[^\n]", " ", it[0])
        if it[0].startswith(("//", "/*", '"', "'", 'b"', "b'"))
        else it[0],
        text,
    )


def end_of_group(text, at):
    """The place after the group that opens here."""
    depth = 0
    for it in BRACKET.finditer(text, at):
        depth += 1 if it[0] in "{([" else -1
        if not depth:
            return it.end()
    raise ValueError("a group does not end")
