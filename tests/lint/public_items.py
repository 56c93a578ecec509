"""What another crate or a user can call, of the sources of one crate: the functions that its root
file exports, the methods of the types and traits that it exports, those of traits for such types,
and the types that stand in their signatures. Each gives the texts that its callers see: its
clauses, and the ghost members of traits.

A source is laid out by `rt fmt`, and is read by the brackets of its items; bodies of functions are
passed over."""
import os
import re
from dataclasses import dataclass, field

from common.files import read
from lint.source_text import blanked, end_of_group

MODIFIERS = re.compile(r"(?:(?:pub(?:\([\w ]+\))?|unsafe|extern|ghost|const(?=\s+fn\b))\s+)*")
CLAUSE = re.compile(r"(?:requires|ensures)\b\s*\*?\s*\w*\s*(?=\{)")
TYPES = ("struct", "enum", "trait", "type")
OPENING = "{(["


@dataclass
class Item:
    """An item of a source: its kind, its name, whether `pub` stands before it, its text without
    body, its clauses, the items in it, and the places of its clauses with their labels; those of
    another item are its own."""

    kind: str
    name: str
    is_public: bool
    head: str
    text: str = ""
    clauses: list = field(default_factory=list)
    inner: list = field(default_factory=list)
    places: list = field(default_factory=list)


def attributes(text, at):
    """The place after blanks and attributes, and whether the item is of the tests alone."""
    is_test = False
    while match := re.compile(r"\s*#!?\[").match(text, at):
        end = end_of_group(text, match.end() - 1)
        is_test |= re.match(r"\[\s*(?:cfg\s*\(\s*)?test\b", text[match.end() - 1 : end]) is not None
        at = end
    return re.compile(r"\s*").match(text, at).end(), is_test


def function(text, at, name):
    """A function from after its name: its signature, its clauses, and the place after it."""
    head, clauses, places, start = [], [], [], at
    while text[at] not in "{;":
        if match := CLAUSE.match(text, at):
            head.append(text[start:at])
            end = end_of_group(text, match.end())
            clauses.append(text[match.end() : end])
            places.append((at, end))
            start = at = end
        elif text[at] in OPENING:
            at = end_of_group(text, at)
        else:
            at += 1
            # A word is left whole.
            at = (
                re.compile(r"\w*").match(text, at).end() if text[at - 1 : at].isidentifier() else at
            )
    head.append(text[start:at])
    return (
        Item("fn", name, False, "".join(head), "", clauses, places=places),
        end_of_group(text, at) if text[at] == "{" else at + 1,
    )


def end_of_item(text, at):
    """The place where the braces of an item begin, or its end is; whichever comes first outside of
    other brackets."""
    while text[at] not in "{;":
        at = end_of_group(text, at) if text[at] in OPENING else at + 1
    return at


def items(text, at=0, end=None):
    """The items of a text without comments, except those of tests."""
    end, found = len(text) if end is None else end, []
    while True:
        at, is_test = attributes(text, at)
        if at >= end or text[at] == "}":
            return found
        modifiers = MODIFIERS.match(text, at)
        match = re.compile(r"(\w+)\s*(\w*)").match(text, modifiers.end())
        is_ghost = "ghost" in modifiers[0].split()
        kind, name, start = match[1], match[2], at
        if kind == "fn":
            item, at = function(text, match.end(), name)
        else:
            body = end_of_item(text, match.start())
            item = Item(
                "ghost" if is_ghost and kind != "use" else kind,
                match[1] if is_ghost else name,
                False,
                text[match.start() : body],
            )
            if kind in ("impl", "trait") and text[body] == "{":
                at = end_of_group(text, body)
                item.inner = items(text, body + 1, at - 1)
            elif kind in ("struct", "enum", "mod") and not is_ghost:
                at = end_of_group(text, body) if text[body] == "{" else body + 1
            else:
                while text[body] != ";":
                    body = end_of_group(text, body) if text[body] in OPENING else body + 1
                at = body + 1
            item.text, item.places = text[start:at], [(start, at)]
        item.is_public = "pub" in modifiers[0].split()
        if not is_test:
            found.append(item)


def without_generics(head):
    """A text without what stands between angle brackets."""
    head, depth, found = head.replace("->", "  "), 0, []
    for it in head:
        depth += it == "<"
        if not depth:
            found.append(it)
        depth -= it == ">"
    return "".join(found)


def impl_of(item):
    """The trait, None if there is none, and the type of an `impl`."""
    words = re.sub(r"\bwhere\b.*", "", without_generics(item.head.removeprefix("impl")), flags=re.S)
    before, is_trait, after = words.partition(" for ")
    last = lambda path: (re.findall(r"\w+", path) or [""])[-1]
    return (last(before), last(after)) if is_trait else (None, last(before))


def leaves(item):
    """The paths that a `use` brings in, each with its name here."""
    body = re.sub(r"\s+", " ", item.text[item.text.index("use") + 3 :]).strip().rstrip(";").strip()
    before, _, group = body.partition("{")
    for path in [before + it.strip() for it in group.rstrip("} ").split(",")] if group else [body]:
        whole, _, here = path.strip().partition(" as ")
        if parts := [it for it in whole.strip().split("::") if it]:
            yield parts, here.strip() or parts[-1]


def shown_types(item):
    """The text of the types of the public fields of a type, or of the cases of an enum without
    their names."""
    if item.kind == "struct":
        return " ".join(
            re.findall(r"(?m)^\s+pub \w+:([^\n]*)", item.text)
            + re.findall(r"\(\s*pub ([^\n]*)\)", item.text)
        )
    return re.sub(r"(?m)^    \w+(?=[,({ ])", "", item.text)


class Sources:
    """The sources of a crate, and what it exports."""

    def __init__(self, root, crate):
        self.folder = f"{root}/crates/{crate}/src"
        self.root_file = next(
            (it for it in ("lib.rt", "main.rt") if os.path.exists(f"{self.folder}/{it}")), None
        )
        self.files, self.exported = {}, set()
        if self.root_file:
            self.read(())
            self.export(())
            self.add_types()

    def path(self, module):
        """The file of a module."""
        return (
            f"{self.folder}/{'/'.join(module)}.rt" if module else f"{self.folder}/{self.root_file}"
        )

    def read(self, module):
        """Reads the file of a module and those of the modules in it."""
        self.files[module] = items(blanked(read(self.path(module))))
        for item in self.files[module]:
            if item.kind == "mod" and item.text.rstrip().endswith(";"):
                self.read((*module, item.name))

    def export(self, module):
        """Enters the public items of a module that all can name."""
        for item in self.files[module]:
            if item.is_public and item.kind == "use":
                for parts, _ in leaves(item):
                    self.enter(module, parts)
            elif item.is_public and item.kind == "mod":
                self.export((*module, item.name))
            elif item.is_public and item.kind in ("fn", *TYPES):
                self.exported.add((module, item.name))

    def enter(self, module, parts):
        """Enters what a path of a `pub use` names, if it is of this crate."""
        if parts[0] in ("crate", "self"):
            module, parts = () if parts[0] == "crate" else module, parts[1:]
        while parts and (*module, parts[0]) in self.files:
            module, parts = (*module, parts[0]), parts[1:]
        if not parts:
            self.export(module)
        for item in self.files[module] if len(parts) == 1 else ():
            if item.kind in ("fn", *TYPES) and item.name == parts[0]:
                self.exported.add((module, item.name))
            elif item.kind == "use" and "ghost" not in item.text.split()[:2]:
                for inner, here in leaves(item):
                    if here == parts[0] and inner != parts:
                        self.enter(module, inner)

    def types(self):
        """All types and traits of the crate by their names."""
        return {
            item.name: module
            for module, its in self.files.items()
            for item in its
            if item.kind in TYPES
        }

    def add_types(self):
        """Enters the types that stand in what is exported: their values can be had, and their
        methods called."""
        known, before = self.types(), None
        while before != len(self.exported):
            before = len(self.exported)
            text = " ".join(self.seen())
            self.exported |= {
                (module, name) for name, module in known.items() if re.search(rf"\b{name}\b", text)
            }

    def seen(self):
        """The signatures of what is exported, and the public fields of its types."""
        for _, item in self.callable():
            yield item.head
        for module, its in self.files.items():
            for item in its:
                if (module, item.name) in self.exported and item.kind in TYPES:
                    yield shown_types(item)

    def is_of(self, name):
        """Whether a type or trait is exported, or of another crate."""
        known = self.types()
        return name not in known or (known[name], name) in self.exported

    def blocks(self):
        """The `impl` blocks of the sources, and the traits that are exported, each with its
        module."""
        for module, its in self.files.items():
            for item in its:
                if item.kind == "impl" or (
                    item.kind == "trait" and (module, item.name) in self.exported
                ):
                    yield module, item

    def callable(self):
        """The functions that can be called, and the ghost members of traits that callers see, each
        with its module and the block that it is in."""
        for module, its in self.files.items():
            for item in its:
                if item.kind == "fn" and (module, item.name) in self.exported:
                    yield (module, None), item
        for module, block in self.blocks():
            trait, name = impl_of(block) if block.kind == "impl" else ("", block.name)
            if trait == "Model" or not self.is_of(name) or (trait and not self.is_of(trait)):
                continue
            for item in block.inner:
                if (
                    item.kind == "fn" and (item.is_public or trait is not None)
                ) or item.kind == "ghost":
                    yield (module, block), item

    def names(self):
        """The names of what can be called, those of methods after their type or trait."""
        for (_, block), item in self.callable():
            kind = (
                ""
                if not block
                else f"{impl_of(block)[1] if block.kind == 'impl' else block.name}::"
            )
            yield f"{kind}{item.name}"

    def contracts(self):
        """The texts of contracts that callers see, each with the texts of the imports that it is
        read by."""
        for (module, block), item in self.callable():
            uses = [*self.files[module], *(block.inner if block else [])]
            yield "\n".join(it.text for it in uses if it.kind == "use"), "\n".join(
                item.clauses
            ) if item.kind == "fn" else item.text

    def type_names(self):
        """The names of the exported types that are no traits."""
        kinds = {
            (module, item.name): item.kind
            for module, its in self.files.items()
            for item in its
            if item.kind in TYPES
        }
        return sorted(
            {
                name
                for module, name in self.exported
                if kinds.get((module, name)) in ("struct", "enum", "type")
            }
        )
