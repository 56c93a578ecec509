"""Each definition stands where the contracts say: in specs/*.antt what a public contract reaches,
which a reader has to believe, and in specs/Private/*.antt what only proofs and private functions
need. A contract is public where another crate or a user can call its function (public_items.py).
The view and the invariant of a type are not followed: contracts alone say what its value is, so
that a caller need not know how it is made.
Only texts are compared, and no program is run."""
import glob
import os
import re
from functools import lru_cache, partial

from lint.public_items import Sources
from lint.reached import Name, imports, read, tree_of

TITLE = "what a public contract reaches stands in specs/*.antt of its crate, and what none reaches in specs/Private"
TRIES = False
# A module of definitions that is imported under its own name, so that what is used of it stands
# after a point.
WHOLE_MODULE = re.compile(r"(?m)^\s*(?:pub |ghost )*use Rattle\.(\w+\.specs(?:\.\w+)+)\s*(?:;|$)")
# By hand, from the root files: what others can call, by way of a public module, of a re-export, of
# a type, of a trait; and what they cannot.
CALLED = {
    "dvi_write": "DviWriter::page Progress::next_page more_fonts_keep_what_was_written",
    "dvi_device": "Device::write Device::write_gives Memory::bytes_written Rest::past Snapshot::of write_all",
    "break_lines": "ListMeter::facts Meter::try_line chosen_list one_list_is_chosen",
    "node_core": "NodeList::push limits_of_a_job",
}
UNCALLED = {
    "dvi_write": "DviWriter::send Progress::lay_out DefinedSlots::push append_page is_among DviWriter::invariant",
    "dvi_device": "common_front Memory::view",
    "break_lines": "ListMeter::of marks_of no_trials",
    "boxglue_program": "push_hexadecimal Outbox::send take_piece",
}


def roots(tree, crate):
    """What the public contracts of a crate speak of, and the types that it exports."""
    sources = Sources(tree.root, crate)
    for uses, text in sources.contracts():
        yield from tree.named(text, {}, *imports(uses), crate, "")
    yield from (Name(crate, "", it, True) for it in sources.type_names())


def reached_by_contracts(tree):
    """All names that a public contract of any crate reaches."""
    return set(tree.order([it for crate in tree.crates() for it in roots(tree, crate)]))


def definitions(tree, crate):
    """The definitions of a crate, each by its first name, with all its names."""
    for module in tree.modules(crate):
        for definition in {id(it): it for it in tree.module(crate, module)[0].values()}.values():
            yield Name(crate, module, definition.names[0]), definition.names


def unreached(tree):
    """The definitions that no public contract reaches, each with all its names."""
    found = reached_by_contracts(tree)
    return [
        (it, names)
        for crate in tree.crates()
        for it, names in definitions(tree, crate)
        if it not in found
    ]


@lru_cache(None)
def known(root):
    """The definitions of a repository, and the names that public contracts reach."""
    tree = tree_of(root)
    return tree, reached_by_contracts(tree)


def outcome(root, crate):
    """What is wrong with the places of the definitions of a crate."""
    tree, found = known(root)
    wrong = {}
    for it, names in definitions(tree, crate):
        is_private = it.module.startswith("Private.")
        if is_private == (it in found):
            wrong.setdefault((it.module, "a" if is_private else "no"), []).extend(names)
    return (
        "; ".join(
            f"{module} has what {which} public contract reaches: {', '.join(names)}"
            for (module, which), names in wrong.items()
        )
        or None
    )


def callable_by_hand(root):
    """What is wrong with what others can call."""
    found = {crate: {*Sources(root, crate).names()} for crate in {*CALLED, *UNCALLED}}
    wrong = [
        f"{crate}::{it} is not there"
        for crate, names in CALLED.items()
        for it in names.split()
        if it not in found[crate]
    ]
    wrong += [
        f"{crate}::{it} is there"
        for crate, names in UNCALLED.items()
        for it in names.split()
        if it in found[crate]
    ]
    return "; ".join(wrong) or None


def unfollowed(root):
    """Names by which a definition would be used unseen: an import of a whole module under its own
    name, and an operator."""
    wrong, crates = [], tree_of(root).crates()
    for path in sorted(
        glob.glob(f"{root}/crates/*/src/**/*.rt", recursive=True)
        + glob.glob(f"{root}/crates/*/specs/**/*.antt", recursive=True)
    ):
        names = [it for it in WHOLE_MODULE.findall(read(path)) if it.split(".")[0] in crates]
        names += re.findall(r"(?m)^(?:\w+ )*pub (?:\w+ )*([^\s:({]*◌[^\s:({]*) :", read(path))
        wrong += [f"{os.path.relpath(path, root)}: {it}" for it in names]
    return f"not followed: {', '.join(wrong)}" if wrong else None


def cases(_programs, root):
    """A case for what others can call, one for names that are not followed, and one for each crate
    with definitions."""
    yield "what others can call", partial(callable_by_hand, root)
    yield "names that are not followed", partial(unfollowed, root)
    for crate in tree_of(root).crates():
        if os.path.isdir(f"{root}/crates/{crate}/specs"):
            yield crate, partial(outcome, root, crate)
