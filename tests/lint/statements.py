"""The part of a crate's sources that the crates above it use.

A check of a crate above loads types, constants and contracts, and no body. So a change of a body,
of a comment, of a tactic or of a function that is private to its file leaves this text
unchanged."""
import re

TOKEN = re.compile(
    r"""//[^\n]*|/\*.*?\*/|b?"(?:\\.|[^"\\])*"|b?'(?:\\[^']+|[^\\'\n])'|[^\W\d][\w']*|\d\w*|\s+|.""",
    re.S,
)


def tokens_of(text):
    """The tokens of a source file, without blanks and comments."""
    return [
        it for it in TOKEN.findall(text) if not it.isspace() and not it.startswith(("//", "/*"))
    ]


def end_of(tokens, at):
    """The place after the group that opens at this token."""
    depth = 0
    for here in range(at, len(tokens)):
        depth += tokens[here] in ("{", "(", "[")
        depth -= tokens[here] in ("}", ")", "]")
        if not depth:
            return here + 1
    raise ValueError("a group does not end")


def body_of(tokens, at):
    """The place where the body of the function begins whose name is at this token; the place of its
    `;` if it has no body."""
    while tokens[at] != ";":
        clause = {*[it for it in tokens[at - 3 : at] if it != "*"][-2:]} & {"requires", "ensures"}
        if tokens[at] == "{" and not clause:
            return at
        at = end_of(tokens, at) if tokens[at] in ("{", "(", "[") else at + 1
    return at


def without_tactics(tokens):
    """The tokens without the attributes for the proof of a function."""
    found, at = [], 0
    while at < len(tokens):
        if tokens[at : at + 3] == ["#", "[", "tactic"]:
            at = end_of(tokens, at + 1)
        else:
            found.append(tokens[at])
            at += 1
    return found


def without_bodies(tokens):
    """The tokens without the bodies of functions, and without the functions that are private to the
    file. The body of a `const fn` stays."""
    found, at, depth = [], 0, 0
    while at < len(tokens):
        depth += (tokens[at] == "{") - (tokens[at] == "}")
        if tokens[at] != "fn" or not re.match(r"\w", tokens[at + 1]) or found[-1:] == ["const"]:
            found.append(tokens[at])
            at += 1
            continue
        body = body_of(tokens, at + 1)
        if depth or found[-1:] in (["pub"], [")"]):
            found += tokens[at:body]
        at = end_of(tokens, body) if tokens[body] == "{" else body + 1
    return found


def imports_of(tokens):
    """The other tokens, and the names of each private import with the path that they come from."""
    rest, names, at = [], [], 0
    while at < len(tokens):
        begins = (
            tokens[at] == "use" and tokens[at - 1 : at] != ["pub"] and tokens[at - 1 : at] != [")"]
        )
        if not begins:
            rest.append(tokens[at])
            at += 1
            continue
        if rest[-1:] == ["ghost"]:
            rest.pop()
        ends = tokens.index(";", at)
        path, _, group = " ".join(tokens[at:ends]).partition("{")
        names += (
            [(path, it.strip()) for it in re.split(r"[,{}]", group) if it.strip()]
            if group
            else [(path, path)]
        )
        at = ends + 1
    return rest, names


def statements(text):
    """The tokens that the crates above a source file use. Its imports are only those of names that
    are used elsewhere in it."""
    rest, imports = imports_of(without_bodies(without_tactics(tokens_of(text))))
    seen = {*rest}
    used = lambda name: {*re.findall(r"[^\W\d][\w']*$|[^\w\s◌]", name)} <= seen
    return [*rest, *sorted({(path, name) for path, name in imports if used(name)})]
