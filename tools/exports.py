"""The calls of include/boxglue.h, and a program that makes each of them once."""
import glob
import re

HEADER, EXPORTS = "include/boxglue.h", "crates/boxglue_c/src/lib.rt"
NUMBER = re.compile(r"[ui](8|32|64|size)")
# The start of a struct that C knows, up to its fields.
STRUCT = r"#\[repr\(C\)\]\s+(?:#\[derive\([^)]*\)\]\s+)?pub struct %s(?:<'a>)? \{(.*?)\n\}"


def read(path):
    """The text of a file."""
    with open(path, encoding="utf-8") as it:
        return it.read()


def calls(root):
    """The names of the calls, in the order of the header."""
    text = " ".join(re.sub(r"/\*.*?\*/", " ", read(f"{root}/{HEADER}"), flags=re.S).split())
    return re.findall(r"\b(?:uint32_t|void) (boxglue_\w+)\([^()]*\);", text)


def exports(root):
    """The parameters of each exported function: their names and types."""
    found = re.findall(r'pub extern "C" fn (\w+)\(([^)]*)\)', read(f"{root}/{EXPORTS}"))
    return {name: re.findall(r"(\w+): ([^,]+?)\s*(?:,|$)", given.strip()) for name, given in found}


def home(root, name):
    """The crate that has a struct, with the module whose folder it is in, and the names and types
    of its fields."""
    for path in sorted(glob.glob(f"{root}/crates/*/src/**/*.rt", recursive=True)):
        found = re.search(STRUCT % name, read(path), flags=re.S)
        if found:
            crate, _, *modules = path.removeprefix(f"{root}/crates/").split("/")[:-1]
            return "::".join([crate, *modules]), re.findall(r"(?m)^ +pub (\w+): (.+),$", found[1])
    raise ValueError(f"no crate has the struct {name}, which {EXPORTS} takes")


def zero(root, kind):
    """A value of a type in which all is 0."""
    array = re.fullmatch(r"\[(\w+); (\d+)\]", kind)
    if array:
        return f"[{zero(root, array[1])}; {array[2]}]"
    if NUMBER.fullmatch(kind):
        return f"0{kind}"
    place, fields = home(root, kind)
    return (
        f"{place}::{kind} {{ {', '.join(f'{name}: {zero(root, its)}' for name, its in fields)} }}"
    )


def argument(root, name, kind):
    """The argument for a parameter, and the line that makes what it borrows. A slice is empty."""
    known = {"Global": "alloc", "&mut JobHandle": "&mut job"}.get(kind) or (
        "&[]" if kind.startswith("&[") else None
    )
    if known or not kind.startswith("&mut "):
        return known or zero(root, kind), ""
    items = re.fullmatch(r"&mut \[(\w+)\]", kind)
    return (
        f"&mut {name}",
        f"let mut {name}: [{items[1]}; 0] = [];"
        if items
        else f"let mut {name} = {zero(root, kind.removeprefix('&mut '))};",
    )


def lines_of(root, call):
    """The lines that make a call on empty inputs."""
    taken = [argument(root, *it) for it in exports(root)[call]]
    return [
        "{",
        *(f"    {it}" for _, it in taken if it),
        f"    let _ = {call}({', '.join(it for it, _ in taken)});",
        "}",
    ]


def main_of(root):
    """The lines of the library's crate as those of a program, whose `main` makes each call of the
    header."""
    body = [
        "let alloc = rt.alloc();",
        "let mut job = boxglue_calls::jobs::JobHandle::null();",
        *(line for it in calls(root) for line in lines_of(root, it)),
        "job.release(alloc);",
    ]
    return [
        read(f"{root}/{EXPORTS}"),
        "\nfn main(rt: HostRuntime) {\n",
        *(f"    {it}\n" for it in body),
        "}\n",
    ]
