"""The definitions that a statement is made of: those of crates/*/specs, and the types of the
sources that they speak of, each with all that it names.

A definition is found by its crate, its module and its name. What its text names is found by the
imports of its file; what stands after a point is a field, and its record is found by its own name.
Of a type of a source with a view (`impl Model`) the view is followed, since contracts see nothing
else of it."""
import functools
import glob
import os
import re
from dataclasses import dataclass, field

from common.files import source as read

# Where a clause of a contract begins; its name.
CLAUSE = re.compile(r"\b(?:requires|ensures)\b\*? ?(\w*) ?\{")
DECLARED = re.compile(
    r"(?:(?:unfoldable|abbrev|pub|total) )*pub (?:(?:total|record|data) )*([^\s:(]+)"
)
IMPORT = re.compile(r"\buse\s+(Rattle\.[\w.]+)\.(?:\{([^}]*)\}|(\w+)\s+as\s+(\w+))", re.S)
WORD = re.compile(r"(?<![\w.'])(\w+)\.(\w+)|(?<![\w.'])([^\W\d][\w'×-]*)")
SOURCED = re.compile(
    r"\([^()]*(?:\([^()]*\)[^()]*)*(?:\bown\b|TeX: The Program|DVItype|TFtoPL|Netpbm)[^()]*(?:\([^()]*\)[^()]*)*\)"
)
RUST = r"(?m)^((?:[ ]*///[^\n]*\n|[ ]*#\[[^\n]*\]\n)*)[ ]*(?:pub )?(?:struct|enum|trait|type) {0}\b"
MODEL = r"(?m)^impl(?:<[^{{]*?>)? Model for {0}\b"


@dataclass(frozen=True)
class Name:
    """Where a definition is: its crate, its module or, for a type of a source, the path of its
    file, and its name."""

    crate: str
    module: str
    name: str
    is_type: bool = False

    def __str__(self):
        return f"{self.crate}::{self.name}"


@dataclass
class Definition:
    """A definition: all names that share its comment, the comment, where it stands, the fields with
    their comments, and what its text names."""

    names: list
    comment: str
    place: str
    fields: list = field(default_factory=list)
    text: str = ""
    source: str = ""
    uses: list = field(default_factory=list)


def imports(text):
    """The paths of the names that a file imports, and those of the modules that it calls by another
    name."""
    names, modules = {}, {}
    for path, group, module, short in IMPORT.findall(text):
        if short:
            modules[short] = f"{path}.{module}"
        for given in filter(None, (it.strip() for it in group.split(","))):
            name, _, here = given.partition(" as ")
            names[here.strip() or name] = f"{path}.{name}"
    return names, modules


def is_comment(line):
    return line.startswith("--")


def comment_of(lines):
    return " ".join(it.lstrip().removeprefix("--").strip() for it in lines).strip()


def own_fields(lines):
    """The fields of a record or the cases of data, each with its comment: pairs of a declaration
    and a comment, which holds for the fields that follow it."""
    found, comment, fresh = [], [], False
    for line in lines:
        if line.lstrip().startswith("--"):
            comment = [*(comment if fresh else []), line]
            fresh = True
        elif match := re.match(r"  (?:pub )?([^\s:(]+) :", line):
            found.append((match[1], comment_of(comment) if fresh else ""))
            fresh = False
    return found


def blocks(text):
    """The comment of a file, and its declarations: the place of the first line, the comment, and
    the lines of each."""
    lines = text.split("\n")
    head_end = next((at for at, it in enumerate(lines) if not is_comment(it)), len(lines))
    found, comment, at = [], [], head_end
    while at < len(lines):
        line = lines[at]
        if is_comment(line):
            comment.append(line)
        elif DECLARED.match(line) and not line.startswith("pub use"):
            end = at + 1
            while end < len(lines) and not (is_comment(lines[end]) or DECLARED.match(lines[end])):
                end += 1
            found.append((at + 1, comment, lines[at:end]))
            if end < len(lines) and is_comment(lines[end]):
                comment = []
            at = end - 1
        at += 1
    return comment_of(lines[:head_end]), found


@functools.lru_cache(None)
def tree_of(root):
    """The definitions of a repository, which are read once."""
    return Tree(root)


class Tree:
    """All definitions of a repository, read where they are asked for."""

    def __init__(self, root):
        self.root = root
        self.kept = {}

    @functools.lru_cache(None)
    def module(self, crate, module):
        """The definitions of a module by their names; the imports of its file."""
        path = f"{self.root}/crates/{crate}/specs/{module.replace('.', '/')}.antt"
        if not os.path.exists(path):
            return {}, ({}, {})
        text = read(path)
        head, pieces = blocks(text)
        found, last = {}, None
        for line, comment, lines in pieces:
            name, body = DECLARED.match(lines[0])[1], "\n".join(lines).rstrip()
            if last and comment is last[0]:
                definition = last[1]
                definition.names.append(name)
                definition.text += f"\n{body}"
            else:
                place = f"{os.path.relpath(path, self.root)}:{line}"
                definition = Definition([name], comment_of(comment), place, [], body)
                last = comment, definition
            if re.search(r"\b(?:record|data)\b", lines[0]):
                definition.fields += own_fields(lines[1:])
            whole = f"{definition.comment} {' '.join(it for _, it in definition.fields)}"
            sources = SOURCED.findall(whole)
            definition.source = "" if sources else (SOURCED.findall(head) or [""])[-1]
            for case in [it for it, _ in definition.fields] if " data " in f" {lines[0]}" else []:
                found.setdefault(case, definition)
            found[name] = definition
        return found, imports(text)

    @functools.lru_cache(None)
    def modules(self, crate):
        """The modules of definitions of a crate, those of specs/Private too. The root files declare
        modules alone."""
        folder = f"{self.root}/crates/{crate}/specs"
        paths = glob.glob(f"{folder}/**/*.antt", recursive=True)
        names = (os.path.relpath(it, folder).removesuffix(".antt") for it in paths)
        found = (it.replace("/", ".") for it in names)
        return sorted(it for it in found if it not in ("Lib", "Private"))

    @functools.lru_cache(None)
    def files(self, crate):
        """The sources of a crate."""
        return sorted(glob.glob(f"{self.root}/crates/{crate}/src/**/*.rt", recursive=True))

    @functools.lru_cache(None)
    def type_file(self, crate, name):
        """The file that declares a type of a crate; None if there is none."""
        kinds = re.compile(rf"\b(?:struct|enum|trait|type) {re.escape(name)}\b")
        whole = re.compile(RUST.format(re.escape(name)))
        is_there = lambda text: kinds.search(text) and whole.search(text)
        return next((it for it in self.files(crate) if is_there(read(it))), None)

    def resolve(self, path):
        """The name of a definition by the path of an import; None if it is none of this
        repository's specs."""
        parts = path.split(".")
        if len(parts) < 4 or parts[2] != "specs":
            return None
        crate, rest = parts[1], parts[3:]
        if rest[0] == "declared":
            kinds = [it for it in rest[1:] if it in ("TheVariants", "TheConstants")]
            at = rest.index(kinds[0]) - (kinds[0] == "TheVariants") if kinds else -1
            if kinds == ["TheConstants"]:
                return Name(crate, "/".join(rest[1:at]), rest[-1], True)
            name = rest[at]
            return Name(crate, "", name, True) if self.type_file(crate, name) else None
        module, name = ".".join(rest[:-1]), rest[-1]
        found, (names, _) = self.module(crate, module)
        if name not in found:
            return self.resolve(names[name]) if name in names else None
        return Name(crate, module, found[name].names[0])

    def named(self, text, own, names, modules, crate, module):
        """What a text names: of the same file, or by its imports."""
        for head, after, alone in WORD.findall(text):
            if head in modules:
                found = self.resolve(f"{modules[head]}.{after}")
            else:
                word = alone or head
                path = names.get(word)
                found = self.resolve(path) if path else None
                if word in own:
                    found = Name(crate, module, own[word].names[0])
            if found:
                yield found

    def constant_definition(self, it):
        """A constant of a source: its comment and its text."""
        path = f"crates/{it.crate}/src/{it.module}.rt"
        constant = rf"(?m)^((?:///[^\n]*\n)*)pub const {re.escape(it.name)}\b[^;]*;"
        there = os.path.exists(f"{self.root}/{path}")
        match = there and re.search(constant, read(f"{self.root}/{path}"))
        comment = " ".join(re.findall(r"///\s?(.*)", match[1])) if match else ""
        text = match[0][len(match[1]) :] if match else ""
        return Definition([it.name], comment, path, text=text)

    def type_definition(self, it):
        """A type or a constant of a source: its comment and its view, or the types of its fields
        where it has none."""
        if it.module:
            return self.constant_definition(it)
        name, path = it.name, self.type_file(it.crate, it.name)
        text = read(path)
        match = re.search(RUST.format(re.escape(name)), text)
        comment = " ".join(re.findall(r"///\s?(.*)", match[1]))
        line = text.count("\n", 0, match.end()) + 1
        body = declaration(text, match.start() + len(match[1]))
        place = f"{os.path.relpath(path, self.root)}:{line}"
        definition = Definition([it.name], comment, place, rust_fields(body), body)
        names, modules = imports(text)
        models = [it for file in self.files(it.crate) for it in models_of(read(file), name)]
        for model in models:
            value = re.search(r"(?s)ghost Value = \{(.*?)\};", model)
            inner, inner_modules = imports(model)
            both, all_modules = {**names, **inner}, {**modules, **inner_modules}
            text_of_value = value[1] if value else ""
            definition.uses += self.named(text_of_value, {}, both, all_modules, it.crate, "")
        if not models:
            plain = re.sub(r"///[^\n]*", "", body)
            if re.match(r"\s*(?:pub )?enum", plain):
                plain = re.sub(r"(?m)^    \w+(?=[,({ ])", "", plain)
            definition.uses += self.types_in(plain, it, text)
        return definition

    def types_in(self, body, it, text):
        """The types of this repository that the fields of a type have."""
        first_with = lambda crates, word: next(
            (crate for crate in crates if self.type_file(crate, word)), None
        )
        near = [it.crate, *dict.fromkeys(re.findall(r"(?m)^(?:pub )?use (\w+)::", text))]
        for word in dict.fromkeys(re.findall(r"\b[A-Z]\w+", body)):
            crate = first_with(near, word) if word != it.name else None
            if not crate and re.search(rf"\buse (?!std|core)\w+::[^;]*\b{word}\b", text):
                crate = first_with(self.crates(), word)
            if crate:
                yield Name(crate, "", word, True)

    @functools.lru_cache(None)
    def crates(self):
        """The crates in the order of crates.txt."""
        lines = read(f"{self.root}/crates.txt").splitlines()
        named = [it for it in lines if ":" in it and not it.startswith("#")]
        return [it.split(":")[0].split()[0] for it in named]

    def definition(self, it):
        """The definition of a name."""
        if it not in self.kept:
            if it.is_type:
                self.kept[it] = self.type_definition(it)
            else:
                own, (names, modules) = self.module(it.crate, it.module)
                found = own[it.name]
                text = "\n".join(line.partition("-- ")[0] for line in found.text.split("\n"))
                found.uses = list(self.named(text, own, names, modules, it.crate, it.module))
                self.kept[it] = found
        return self.kept[it]

    def order(self, roots):
        """What the roots reach, each after what it uses."""
        found, open_ones = {}, [(it, False) for it in reversed(list(roots))]
        entered = set()
        while open_ones:
            it, is_left = open_ones.pop()
            if is_left:
                found[it] = self.definition(it)
            elif it not in entered:
                entered.add(it)
                open_ones.append((it, True))
                uses = reversed(self.definition(it).uses)
                open_ones += [(used, False) for used in uses if used not in entered]
        return found

    def by_name(self, given):
        """The definitions and types with a name, which a crate may stand before, as
        `job_core::Represents`; else what the clauses of the functions of this name speak of, before
        which a type may stand, as `Dvi::open`, and behind which one clause, as
        `run_commands.headline`.
        """
        *before, name = given.split("::")
        name, _, clause = name.partition(".")
        crates, found = [it for it in before if it in self.crates()], []
        kind = next((it for it in before if it not in crates), None)
        for crate in [] if kind else crates or self.crates():
            for module in self.modules(crate):
                own = self.module(crate, module)[0]
                if name in own and name in own[name].names:
                    found.append(Name(crate, module, own[name].names[0]))
            if self.type_file(crate, name):
                found.append(Name(crate, "", name, True))
        functions = (self.by_function(it, name, kind, clause) for it in crates or self.crates())
        return found or [it for its in functions for it in its]

    def by_function(self, crate, name, kind=None, clause=""):
        """What the clauses of a function speak of, or one of them: of those in files that have an
        `impl` of a type or its trait, if one is named."""
        block = rf"(?m)^(?:pub )?(?:impl|trait)\b[^{{\n]*\b{re.escape(kind)}\b" if kind else ""
        function = rf"(?m)\b(?:pub |pub extern \"C\" |(?<=^    ))fn {re.escape(name)}\b"
        for text in map(read, self.files(crate)):
            if not re.search(block, text):
                continue
            names, modules = imports(text)
            for match in re.finditer(function, text):
                contract = re.split(r"\n[ ]*\{|;[ ]*\n[ ]*\n", text[match.end() :], maxsplit=1)[0]
                for found in clauses_of(re.sub(r"//[^\n]*", "", contract), clause):
                    yield from self.named(found, {}, names, modules, crate, "")


def clauses_of(contract, name):
    """The texts of the clauses of a contract: of all, or of those with a name."""
    begins = [*CLAUSE.finditer(contract)]
    for at, after in zip(begins, [*(it.start() for it in begins[1:]), len(contract)]):
        if not name or at[1] == name:
            yield contract[at.start() : after]


def declaration(text, at):
    """The text of a type from its first line to the end of its fields."""
    depth, end = 0, at
    for end in range(at, len(text)):
        depth += (text[end] in "{(") - (text[end] in "})")
        if text[end] in "};" and not depth:
            break
    return text[at : end + 1]


def rust_fields(body):
    """The fields or cases of a type with their comments."""
    found, comment = [], []
    for line in body.split("\n")[1:]:
        if match := re.match(r"\s+///\s?(.*)", line):
            comment.append(match[1])
        elif match := re.match(r"    (?:pub |ghost )?(\w+)\b(?=[:,({]|\s*=)", line):
            if comment:
                found.append((match[1], " ".join(comment)))
            comment = []
        elif line.strip() and not line.strip().startswith("#["):
            comment = []
    return found


def models_of(text, name):
    """The views of a type in a source."""
    for match in re.finditer(MODEL.format(re.escape(name)), text) if f" for {name}" in text else ():
        yield declaration(text, match.start())
