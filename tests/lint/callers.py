"""Calls that nothing reaches: each `pub fn` of a crate of the product, but laws, is reached from
`main`, from the exports of the library for C or from the programs of docs/LIBRARY.md, or is on the
list of calls that stay for callers in Rattle. A test is not a caller.

What is reached is read from the modules that the toolchain makes of these programs before anything
is optimized: they have a function for each that is reached, under its crate, its module, its type
and its name. Nothing is proved, and no program is run."""
import functools
import glob
import os
import re
import sys
import tempfile
from dataclasses import dataclass
from functools import partial

from common.files import read
from common.texts import last_lines
from common.trying import run_tried
from lint.statements import body_of, end_of, tokens_of
from tools.crates import libraries

TITLE = "each function that a crate of the product exports, but laws, is reached from main, from the library for C or from the programs of docs/LIBRARY.md"
TRIES = False
WEIGHT = 3
# The programs from which the walk begins; of the library's crate it is each call of the header.
PROGRAMS = ("boxglue", "boxglue_c", "examples_scripts", "examples_jobs")
# Crates that only test.
BESIDE = ("tests_", "rows_", "examples_")
# Calls that stay for callers in Rattle, though the program has them in another form or does not
# need them; `is_plain_body` tests the premise of `reuse`, and `lines` asks of its items what a job
# knows from their meter, by `any_has_content`; break_core's loop has the rule of `is_loosest` as
# two numbers. One that is reached after all is wrong here, too: a job that breaks by `breaks`
# beside `active_breaks` takes far more time, and no contract sees it.
FOR_CALLERS = """node_core::any_has_content pack_core::offset break_lines::is_loosest
    break_core::breaks vert_core::append_box vert_core::lines vert_core::split ship_core::plan
    move_core::is_plain_body boxglue_program::run_rest""".split()
EMPTY = ["{", "}"]
# A file with methods and functions, and how the exported ones are named.
MADE = """pub fn free() -> u8 ensures { uncalled 3 } { 1 }
fn private() -> u8 { called() }
pub fn is_a_law() ensures { true } {}
impl<'a, T: Copy> Kind<'a, T> { pub const fn method(self) -> u8 { 2 } fn inner(&self) -> u8 { 3 } }
impl Trait for Kind { fn of_the_trait(&self) -> u8 { 4 } }
pub trait Trait { fn of_the_trait(&self) -> u8; fn with_a_body(&self) -> u8 { 5 } }
mod tests { pub fn of_a_test() -> u8 { 6 } }
impl Other { pub unsafe fn last(&mut self) { self.last() } }
"""
NAMED = ["made::file::free", "made::Kind::method", "made::Other::last"]


@dataclass(frozen=True)
class Function:
    """An exported function that has a body: its crate, its file, its type if it is a method, and
    its name."""

    crate: str
    path: str
    type: str
    name: str

    def key(self):
        """Its name as a module of a program has it. The methods of a type are named by the module
        of the type, which is left out."""
        module = re.sub(r"(::)?(lib|main)$", "", self.path.removesuffix(".rt").replace("/", "::"))
        return "::".join(filter(None, (self.crate, self.type or module, self.name)))

    def short(self):
        """Its name as callers of its crate write it."""
        return "::".join(filter(None, (self.crate, self.type, self.name)))


def is_public(tokens, at):
    """Whether the function whose `fn` is at this token is exported."""
    while tokens[at - 1] in ("const", "unsafe"):
        at -= 1
    return tokens[at - 1] == "pub"


def opening(tokens, at):
    """The place of the brace that opens the body of the `impl`, `trait` or `mod` at this token, or
    None if it has none."""
    while tokens[at] != "{":
        if tokens[at] == ";":
            return None
        at += 1
    return at


def type_of(head):
    """The type of an `impl` by the tokens between `impl` and its body; None for an `impl` of a
    trait."""
    if "for" in head:
        return None
    at = depth = 0
    while head[at] == "<" or depth:
        depth += (head[at] == "<") - (head[at] == ">")
        at += 1
    return head[at]


def functions_of(crate, path, tokens, of_type=""):
    """The exported functions of a file, or of the body of an `impl`. Those of traits, of their
    `impl`s and of modules within the file are left out."""
    at = 0
    while at < len(tokens):
        token, body = tokens[at], None
        if token in ("impl", "trait", "mod") and (body := opening(tokens, at)):
            end = end_of(tokens, body)
            found = type_of(tokens[at + 1 : body]) if token == "impl" else None
            if found:
                yield from functions_of(crate, path, tokens[body + 1 : end - 1], found)
        elif token == "fn" and re.match(r"\w", tokens[at + 1]):
            body = body_of(tokens, at + 1)
            end = end_of(tokens, body) if tokens[body] == "{" else body
            if is_public(tokens, at) and end > body and tokens[body:end] != EMPTY:
                yield Function(crate, path, of_type, tokens[at + 1])
        else:
            end = at
        at = max(end, at + 1)


def exported(root):
    """All exported functions of the product, but laws."""
    for crate in (it for it in libraries(root) if not it.startswith(BESIDE)):
        for path in sorted(glob.glob(f"{root}/crates/{crate}/src/**/*.rt", recursive=True)):
            if "laws" not in os.path.basename(path):
                yield from functions_of(
                    crate,
                    os.path.relpath(path, f"{root}/crates/{crate}/src"),
                    tokens_of(read(path)),
                )


def keys_of(name):
    """What a function of a module may be called here: with its modules, and by its crate and the
    last two names, of a type without its parameters and of itself."""
    name = name.partition("::<")[0]
    *before, kind, last = ["", *name.split("::")][-3:]
    return {name, "::".join((name.partition("::")[0], kind.partition("+")[0], last))}


@functools.lru_cache(None)
def reached(root, crate):
    """The keys of all functions that a program reaches, or what is wrong with its module."""
    with tempfile.TemporaryDirectory() as folder:
        status, _, errors = run_tried(
            [sys.executable, f"{root}/tools/unproved.py", "--names", crate, f"{folder}/names"], root
        )
        if status:
            return f"{crate} has no module: {last_lines(errors)}"
        with open(f"{folder}/names", encoding="utf-8") as it:
            return frozenset(key for line in it for key in keys_of(line.rstrip("\n")))


def of_sources(root):
    """What is exported and not reached, and what is on the list and should not be."""
    modules = [reached(root, it) for it in PROGRAMS]
    if wrong := [it for it in modules if isinstance(it, str)]:
        return "; ".join(wrong)
    keys = frozenset().union(*modules)
    lost = {it.short() for it in exported(root) if it.key() not in keys}
    wrong = {
        "nothing reaches": sorted(lost - {*FOR_CALLERS}),
        "reached or not there, but on the list:": sorted({*FOR_CALLERS} - lost),
    }
    return "; ".join(f"{what} {', '.join(names)}" for what, names in wrong.items() if names) or None


def of_made(_root):
    """How the functions of a made file are named, and what is found of a name in a module."""
    found = [it.key() for it in functions_of("made", "file.rt", tokens_of(MADE))]
    keys = keys_of("made::inner::Kind+Dimen::method::<i8>")
    wrong = {
        f"the names are {found}": found != NAMED,
        f"the keys are {sorted(keys)}": "made::Kind::method" not in keys
        or "made::Other::method" in keys,
    }
    return "; ".join(it for it, is_wrong in wrong.items() if is_wrong) or None


def cases(_programs, root):
    """The cases, by name."""
    yield "a made file", partial(of_made, root)
    yield "all crates", partial(of_sources, root)
