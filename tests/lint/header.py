"""include/boxglue.h: the functions, structs, statuses and the version that it declares are those of
the exports, and each function that has a pointer with a size has a call that takes a null pointer
where the size is 0, and a script at any address. What bindings/rust and bindings/python declare is
what the header does. tests/interface.tsv lists by version what a program can see, so a call that is
added to a released version raises its number.
Only texts are compared: names, numbers, the order and the width of parameters and fields. No
program is built, and Python loads no library."""
import glob
import hashlib
import json
import os
import re
import shutil
import sys
import tempfile
from functools import partial

from common.files import read, source
from common.running import finished
from tools import version as tools_version

TITLE = "include/boxglue.h declares what boxglue_c exports"
TRIES = False
HEADER = "include/boxglue.h"
EXPORTS = "crates/boxglue_c/src/lib.rt"
CALLS = "crates/boxglue_calls/src"
JOBS = f"{CALLS}/jobs"
ITEMS = "crates/box_items/src"
COUNTS = "crates/scaled_core/src/counts.rt"
REFUSALS = "crates/boxglue_program/src/refusals.rt"
STATUSES_OF_PYTHON = "bindings/python/boxglue/_status.py"
REPLIES_OF_PYTHON = "bindings/python/boxglue/_replies.py"
RUST = "bindings/rust/boxglue-sys/src/lib.rs"
NAMES_OF_RUST = ("bindings/rust/boxglue/src/names.rs", "bindings/rust/boxglue/src/replies.rs")
CALLS_OF_C = "#ifndef BOXGLUE_NO_INLINE"
# The calls, structs and numbers of the header, each with the version that added it. A version that
# CHANGELOG.md dates is released, and has a row with the digest of its rows. A row that is gone goes
# with a first number. One struct got fields before that was tested, as the header and CHANGELOG.md
# say.
INTERFACE, DIGEST, GONE = "tests/interface.tsv", "sha256 ", "gone "
CHANGED = (
    "1.2.0",
    "struct boxglue_dvi_font { int32_t number; int32_t size; size_t name_start; size_t name_size; };",
)
RELEASED = r"(?m)^## (\d+\.\d+\.\d+), \d+ \w+ \d{4}$"
TYPES = {"usize": "size_t", "": "void", "*mut u8": "void *", "JobHandle": "struct boxglue_job"}
TYPES |= {f"u{it}": f"uint{it}_t" for it in (8, 32, 64)} | {
    f"i{it}": f"int{it}_t" for it in (32, 64)
}
TYPES |= {"DviPage": "struct boxglue_page", "DviMark": "struct boxglue_mark"}
TYPES |= {"ReplyRow": "struct boxglue_reply", "BoxItem": "struct boxglue_item"}
# Files of the program, the library, their documents and packages.
OTHERS = """
    install include/* completions/* docs/boxglue.1 bindings/**/* crates/*/src/**/*.rt
    tools/**/*""".split()
NAMES = {"box_sizes": "box"}  # what Rust does not take as a name


def declared(root):
    """The text of the header without its comments, each run of white space as one space."""
    return " ".join(re.sub(r"/\*.*?\*/", " ", read(f"{root}/{HEADER}"), flags=re.S).split())


def c_type(name):
    """What C calls a type of Rattle."""
    plain = name.replace("<'_>", "")
    return TYPES.get(plain) or "struct boxglue_" + re.sub(r"(?<!^)(?=[A-Z])", "_", plain).lower()


def slice_of(name, item, mutable):
    """The pointer and the length that C passes for a slice. A length is named after one item:
    `fonts` and `font_count`."""
    kind = c_type(item)
    plural = re.compile("ies$|s$") if kind.startswith("struct") else re.compile("(?!)")
    one = plural.sub(lambda end: "y" if end[0] == "ies" else "", name)
    suffix = "room" if mutable else "size" if item == "u8" else "count"
    return [f"{'' if mutable else 'const '}{kind} *{name}", f"size_t {one}_{suffix}"]


def c_fields(name, kind):
    """What C writes for a parameter or a field. Nothing is passed for the allocator."""
    if kind == "Global":
        return []
    array = re.fullmatch(r"\[(\w+); (\d+)\]", kind)
    if array:
        return [f"{c_type(array[1])} {name}[{array[2]}]"]
    borrowed = re.fullmatch(r"&(?:'a )?(mut )?(?:\[(.*)\]|(.*))", kind)
    if not borrowed:
        return [f"{c_type(kind)} {NAMES.get(name, name)}".replace("* ", "*")]
    mutable, item, one = borrowed.groups()
    if item:
        return slice_of(name, item, mutable)
    return [f"{'' if mutable else 'const '}{c_type(one)} *{name}"]


def c_list(text):
    """What C writes for parameters or fields of Rattle, in order."""
    pairs = re.findall(r"(\w+): ([^,]+?)\s*(?:,|$)", text.strip())
    return [it for name, kind in pairs for it in c_fields(name, kind)]


def exports(root):
    """Each exported function as C declares it."""
    call = r'pub extern "C" fn (\w+)\(([^)]*)\)(?: -> (\w+))?'
    for name, parameters, result in re.findall(call, read(f"{root}/{EXPORTS}")):
        yield f"{c_type(result)} {name}({', '.join(c_list(parameters)) or 'void'});"


def functions_of(text):
    """The functions that are declared before the calls for C."""
    return re.findall(r"\w+ boxglue_\w+\([^)]*\);", text.partition(CALLS_OF_C)[0])


def structs_of(text):
    """The fields of each struct that a header declares."""
    found = re.findall(r"(struct boxglue_\w+) \{([^}]*)\};", text)
    return {name: [it.strip() for it in fields.split(";")[:-1]] for name, fields in found}


def compared(who, found, others, wanted):
    """How what one declares differs from what others do, or None. There has to be something."""
    if wanted and found == wanted:
        return None
    return f"{who} has {found}, and {others} {wanted}"


def functions(root):
    """What is wrong with the functions."""
    found = functions_of(declared(root))
    return compared("the header", found, "the exports have", [*exports(root)])


def address_call(kind, name, size):
    """What gives an address for a pointer of a type that may be null where its size is 0."""
    plain = kind.removeprefix("const ").removeprefix("struct boxglue_")
    bytes_of = "bytes" if plain != kind else "room"
    many = bytes_of if plain == "uint8_t" else re.sub(r"ys$", "ies", f"{plain}s")
    return f"boxglue_{many}_at({name}, {size})"


def words_of(parameters):
    """The words with which a call passes its parameters on."""
    pairs = [re.fullmatch(r"(.*?) ?\*?(\w+)", it).groups() for it in parameters.split(", ")]
    following = [name for _, name in pairs[1:]] + [""]
    return [
        address_call(kind, name, size) if re.search(r"_(size|count|room)$", size) else name
        for (kind, name), size in zip(pairs, following)
    ]


def null_calls(root):
    """What is wrong with the calls that take null pointers."""
    before, _, after = declared(root).partition(CALLS_OF_C)
    wanted, missing = 0, []
    for name, parameters in re.findall(r"uint32_t (boxglue_\w+)\(([^)]*)\);", before):
        passed = ", ".join(words_of(parameters))
        taken = parameters.replace("const uint8_t *script", "const void *script")
        body = f"{{ return {name}({passed}); }}"
        call = f"static inline uint32_t {name}_or_null({taken}) {body}"
        if "_at(" in passed:
            wanted += 1
            is_there = call in after and f"#define {name} {name}_or_null " in f"{after} "
            missing += [] if is_there else [call]
    return f"the header has not {missing}" if missing or not wanted else None


def structs(root):
    """What is wrong with the structs."""
    names = [f"{CALLS}/{it}" for it in "runs given font_table mark_table faults font_rows".split()]
    names += [f"{JOBS}/{it}" for it in ("handle", "rows", "whole")]
    names += [f"{ITEMS}/{it}" for it in ("place", "row", "writing")]
    sources = "".join(read(f"{root}/{it}.rt") for it in names)
    counts = re.search(r"const COUNTS: usize = (\d+);", read(f"{root}/{COUNTS}"))[1]
    derived = r"#\[repr\(C\)\]\s+(?:#\[derive\([^)]*\)\]\s+)?"
    struct = re.compile(derived + r"pub struct (\w+)(?:<'a>)? \{(.*?)\n\}", re.S)
    wanted = {}
    for name, fields in struct.findall(sources):
        plain = re.sub(r"///.*|(pub )?ghost .*|pub ", "", fields)
        wanted[c_type(name)] = c_list(plain.replace("COUNTS", counts))
    return compared("the header", structs_of(declared(root)), "the calls have", wanted)


def spelled(name):
    """A name as C spells those of numbers: OUT_OF_MEMORY for OutOfMemory."""
    return re.sub(r"(?<=[a-z])(?=[A-Z])", "_", name).upper()


def numbers(root, enum, prefix, *sources, row=r"const (\w+): u32 = (\d+);"):
    """What is wrong with the numbers of an enum. A row of the sources has a name and its number."""
    body = re.search(rf"enum boxglue_{enum} {{(.*?)}}", declared(root))[1]
    rows = re.findall(row, "".join(read(f"{root}/{it}") for it in sources))
    wanted = sorted(((spelled(name), number) for name, number in rows), key=lambda it: int(it[1]))
    return compared(
        "the header", re.findall(rf"{prefix}(\w+) = (\d+)", body), "the calls have", wanted
    )


def statuses(root):
    """What is wrong with the statuses."""
    return numbers(root, "status", "BOXGLUE_", f"{CALLS}/status.rt", f"{JOBS}/status.rt")


def reply_kinds(root):
    """What is wrong with the kinds of replies."""
    return numbers(root, "reply_kind", "BOXGLUE_REPLY_", f"{JOBS}/reply_kind.rt")


def numbers_of_replies(root):
    """What is wrong with the numbers of refusals, of their causes, and of kinds of boxes and
    items."""
    rows, faults = f"{JOBS}/rows.rt", f"{CALLS}/faults.rt"
    refusals = r"(?:Refusal::|const )(\w+)\S* (?:=> \(|u32 = )(\d+)"
    sources = REFUSALS, rows, faults
    wrong = [numbers(root, "refusal", "BOXGLUE_REFUSAL_", *sources, row=refusals)]
    for enum, kind, path in (
        ("dvi_cause", "DviCause", faults),
        ("tfm_cause", "TfmCause", rows),
        ("line_cause", "Cause", rows),
        ("box_kind", "Kind", rows),
        ("item_kind", "ItemKind", f"{ITEMS}/row.rt"),
    ):
        prefix = f"BOXGLUE_{enum.partition('_')[0].upper()}_"
        wrong.append(numbers(root, enum, prefix, path, row=rf"\b{kind}::(\w+) => (\d+)"))
    return "; ".join(it for it in wrong if it) or None


def status_texts(root):
    """What is wrong with the texts of the statuses: C and Python have the same ones."""
    found = re.findall(r'case BOXGLUE_(\w+): return ("[^"]+");', declared(root))
    wanted = re.findall(r'Status\.(\w+): ("[^"]+"),', read(f"{root}/{STATUSES_OF_PYTHON}"))
    body = re.search(r"enum boxglue_status \{([^}]*)\}", declared(root))[1]
    names = re.findall(r"BOXGLUE_(\w+) = \d+", body)
    if [name for name, _ in found] != names:
        return f"the header has texts of {[name for name, _ in found]}, and the statuses {names}"
    return compared("the header", found, "Python has", wanted)


def refusal_names(root):
    """What is wrong with the names of refusals and of their causes: C and Python have the same
    ones."""
    lists = re.findall(r"const names\[\] = \{([^}]*)\}", declared(root))
    found = [re.findall(r'"(\w+)"', it) for it in lists]
    text = read(f"{root}/{REPLIES_OF_PYTHON}")
    names = ("_REFUSALS", "_DVI_CAUSES", "_METRIC_CAUSES")
    python_lists = [re.search(rf"(?ms)^{it} = (.*?)^(?=\w)", text)[1] for it in names]
    wanted = [re.findall(r'"(\w+)"', it) for it in python_lists]
    return compared("the header", found, "Python has", wanted)


def c_of_rust(text):
    """What C writes for parameters or fields of Rust. A name that is a word of Rust has an
    underscore after it there."""
    made, names = [], {"core::ffi::c_void": "void", "i64": "int64_t"}
    form = re.compile(r"(?:\*(const|mut) (\S+)|\[(\w+); (\d+)\]|(.*\S))\s*", re.S)
    for name, kind in re.findall(r"(\w+): ([^,]+)", re.sub(r"///.*|\bpub ", "", text)):
        pointer, target, element, length, value = form.fullmatch(kind).groups()
        item = target or element or value
        plain = names.get(item) or TYPES.get(item) or f"struct {item}"
        before, star = "const " * (pointer == "const"), "*" * bool(pointer)
        made.append(f"{before}{plain} {star}{name.rstrip('_')}{f'[{length}]' if length else ''}")
    return made


def rust(root):
    """What is wrong with the declarations of bindings/rust."""
    text, header = read(f"{root}/{RUST}"), declared(root)
    calls = re.findall(r"pub fn (\w+)\(([^)]*)\)(?: -> (\w+))?;", text)
    found = [
        f"{c_type(result)} {name}({', '.join(c_of_rust(given)) or 'void'});"
        for name, given, result in calls
    ]
    fields = re.findall(r"pub struct (\w+) \{(.*?)\n\}", text, flags=re.S)
    structs_of_rust = {f"struct {name}": c_of_rust(its) for name, its in fields}
    constants = re.findall(r"pub const (BOXGLUE_\w+): u32 = (\d+);", text)
    return (
        compared("Rust", found, "the header", functions_of(header))
        or compared("Rust", structs_of_rust, "the header", structs_of(header))
        or compared("Rust", constants, "the header", re.findall(r"(BOXGLUE_\w+) = (\d+)", header))
    )


def names_of_rust(root):
    """What is wrong with the names of refusals and of their causes in bindings/rust: each is that
    of its number, and each number has one."""
    constant = r"sys::BOXGLUE_((?:REFUSAL|TFM|DVI|LINE)_\w+)"
    for path in NAMES_OF_RUST:
        text = read(f"{root}/{path}")
        pairs = re.findall(rf'{constant} => (?:Cause::|")(\w+)', text)
        pairs += [(number, name) for name, number in re.findall(rf"(\w+) = {constant}", text)]
        groups = {number.partition("_")[0] for number, _ in pairs}
        kinds = re.findall(rf"BOXGLUE_((?:{'|'.join(groups)})_\w+) = \d+", declared(root))
        # No command is refused for a DVI file.
        wanted = [it for it in kinds if it != "REFUSAL_BAD_DVI" or it in dict(pairs)]
        found = [f"{number.partition('_')[0]}_{spelled(name)}" for number, name in pairs]
        wrong = compared(path, sorted(found), "the header", sorted(wanted))
        if wrong or found != [number for number, _ in pairs]:
            return wrong or f"{path}: a name is that of another number: {pairs}"
    return None


# Prints the structs, the calls and the numbers of the binding for Python as C declares them. It
# loads no library.
PRINT_PYTHON = """
import ctypes, json
from boxglue import ItemKind, MarkKind, ReplyKind, Status, _library, _replies
NAMES = {"Font": "font", "DviFontRow": "dvi_font", "FontSizes": "font_sizes", "PageRow": "page", "MarkRow": "mark", "MarkSizes": "mark_sizes", "FaultRow": "fault", "Measure": "measure", "GlyphMetrics": "glyph", "GlyphTable": "glyph_table",
         "FontParameters": "font_parameters", "StepRow": "font_step", "BoxSizes": "box_sizes",
         "ReplyRow": "reply", "ReplySizes": "reply_sizes", "JobHandle": "job", "WideDimen": "wide_dimen", "ItemRow": "item", "ItemSizes": "item_sizes", "c_int": "int32_t", "c_uint": "uint32_t", "c_long": "int64_t", "c_ulong": "size_t",
         "c_char": "uint8_t", "c_char_p": "const uint8_t *", "c_void_p": "void *"}
def text(kind):
    if hasattr(kind, "_length_"):
        return f"{text(kind._type_)}[{kind._length_}]"
    if hasattr(kind, "contents"):
        return f"{text(kind._type_)} *"
    name = NAMES[kind.__name__]
    return f"struct boxglue_{name}" if issubclass(kind, ctypes.Structure) else name
structs = {text(it): [f"{text(kind)} {name.rstrip('_')}" for name, kind in it._fields_] for it in vars(_library).values() if hasattr(it, "_fields_") and it is not ctypes.Structure}
calls = {f"boxglue_{name}": [*map(text, kinds)] for name, kinds in _library._CALLS.items()}
enums = {"status": Status.__members__, "mark_kind": MarkKind.__members__, "item_kind": ItemKind.__members__, "reply_kind": ReplyKind.__members__,
         "refusal": {name: number for number, name in _replies._REFUSALS.items()}, "tfm_cause": {it: at for at, it in enumerate(_replies._METRIC_CAUSES) if at},
         "dvi_cause": {it: at for at, it in enumerate(_replies._DVI_CAUSES) if at},
         "line_cause": {it: at for at, it in enumerate(_replies._LINE_CAUSES) if at}}
print(json.dumps({**structs, **calls, **{f"enum boxglue_{name}": [*found.items()] for name, found in enums.items()}}))
"""


def python_words(root):
    """What the binding for Python has: by the names of structs, of calls and of enums their fields,
    their parameters and their numbers."""
    env = {"PYTHONPATH": f"{root}/bindings/python", "PYTHONDONTWRITEBYTECODE": "1"}
    ran = finished([sys.executable, "-c", PRINT_PYTHON], env=env, text=True, check=True)
    return json.loads(ran.stdout)


def python_type(declaration):
    """The type of a parameter or a field as Python knows it, and its name: pointers to constant
    structs are pointers, and size_t has the 64 bits of uint64_t."""
    kind, name, length = re.fullmatch(r"(.*?) ?(\w+)((?:\[\d+\])?)", declaration.strip()).groups()
    return kind.replace("uint64_t", "size_t").replace("const struct", "struct") + length, name


def python_wanted(root):
    """The same of the header."""
    text = declared(root).partition(CALLS_OF_C)[0]
    made = {
        name: [" ".join(python_type(it)) for it in fields]
        for name, fields in structs_of(text).items()
    }
    for name, body in re.findall(r"\w+ (boxglue_\w+)\(([^)]*)\);", text):
        made[name] = [] if body == "void" else [python_type(it)[0] for it in body.split(",")]
    for name, body in re.findall(r"(enum boxglue_\w+) \{([^}]*)\};", text):
        rows = re.findall(r"BOXGLUE_(\w+) = (\d+)", body)
        prefix = re.match(r"(?:.*_)?", os.path.commonprefix([it for it, _ in rows]))[0]
        made[name] = [[it.removeprefix(prefix), int(number)] for it, number in rows]
    return made


def python(root):
    """What is wrong with the structs, the calls and the numbers of bindings/python."""
    found, wanted = python_words(root), python_wanted(root)
    plain = {
        name: [[spelled(it[0]), it[1]] for it in rows] if name.startswith("enum") else rows
        for name, rows in found.items()
    }
    wrong = [
        f"{name} is {rows} in Python, and {wanted.get(name)} in the header"
        for name, rows in plain.items()
        if rows != wanted.get(name)
    ]
    return "; ".join(wrong) or (None if plain else "Python declares nothing")


def version(root):
    """What is wrong with the version: the places that have another one than the header."""
    return "; ".join(tools_version.wrong(root)) or None


def new_version(root):
    """What is wrong with a new version that is written into copies of all places."""
    with tempfile.TemporaryDirectory(prefix="boxglue-version-") as room:
        for path in {path for path, _ in tools_version.PLACES}:
            os.makedirs(os.path.dirname(f"{room}/{path}"), exist_ok=True)
            shutil.copy(f"{root}/{path}", f"{room}/{path}")
        tools_version.write(room, "1.23.4")
        wrong = tools_version.wrong(room)
        numbers_there = tools_version.number(room), tools_version.dotted(room)
        if not wrong and numbers_there != (12304, "1.23.4"):
            return "the header has another version"
        return "; ".join(wrong) or None


def other_places(root):
    """Lines of the program, the library, their documents and packages that have the version, and
    that tools/version.py does not write. A line may tell of its history."""
    number, wrong = tools_version.dotted(root), []
    history = re.compile(r"since = |such as|as 1|From |In 1|tools/version\.py")
    known = [(tools_version.HEADER, tools_version.DEFINED), *tools_version.PLACES]
    found = {it for each in OTHERS for it in glob.glob(f"{root}/{each}", recursive=True)}
    for path in sorted(os.path.relpath(it, root) for it in found if os.path.isfile(it)):
        text = source(f"{root}/{path}")
        for pattern in [pattern for name, pattern in known if name == path]:
            text = re.sub(pattern, "", text)
        lines = [it for it in text.splitlines() if number in it and not history.search(it)]
        wrong += [f"{path}: {it.strip()}" for it in lines]
    return "; ".join(wrong) or None


def interface_of(text):
    """What a program can see of a header: its calls, its structs and the numbers of its enums."""
    rows = functions_of(text) + re.findall(r"struct boxglue_\w+ \{[^}]*\};", text)
    for name, body in re.findall(r"enum (boxglue_\w+) \{([^}]*)\}", text):
        rows += [f"enum {name} {it};" for it in re.findall(r"BOXGLUE_\w+ = \d+", body)]
    return rows


def digest_of(lines):
    """The digest of the rows of a version."""
    return DIGEST + hashlib.sha256("".join(f"{it}\n" for it in sorted(lines)).encode()).hexdigest()


def listed(root):
    """The rows of the list by version."""
    rows = {}
    for line in read(f"{root}/{INTERFACE}").splitlines():
        number, _, what = line.partition("\t")
        rows.setdefault(number, []).append(what)
    return rows


def first_number(number):
    """The first number of a version."""
    return int(number.partition(".")[0])


def gone_wrong(rows):
    """Rows that are gone, and stood in a version with the same first number."""
    pairs = [(number, it) for number, its in rows.items() for it in its]
    stood = {(what, first_number(number)) for number, what in pairs}
    gone = [(number, it.removeprefix(GONE)) for number, it in pairs if it.startswith(GONE)]
    return [it for at, it in gone if (at, it) != CHANGED and (it, first_number(at)) in stood]


def interface_wrong(text, rows, number, released):
    """What is wrong with the header of a version and the list by version."""
    lines = [it for its in rows.values() for it in its if not it.startswith(DIGEST)]
    found = sorted(interface_of(text))
    here = sorted(it for it in lines if not it.startswith(GONE) and GONE + it not in lines)
    if found != here:
        return f"{INTERFACE} and the header differ in {sorted({*found} ^ {*here})}: a row has the version that added it, and a released version keeps its rows"
    if gone_wrong(rows):
        return f"{gone_wrong(rows)} can be gone only where the first number rises"
    wrong = []
    for it in released:
        its = rows.get(it, [])
        digest = digest_of([line for line in its if not line.startswith(DIGEST)])
        wrong += [] if digest in its else [it]
    late = [it for it in rows if [*map(int, it.split("."))] > [*map(int, number.split("."))]]
    if wrong + late:
        return f"{INTERFACE} has other rows for {', '.join(wrong + late)} than when it was released: raise the number by tools/version.py"
    return None


def released_versions(root):
    """The versions that CHANGELOG.md dates."""
    return re.findall(RELEASED, read(f"{root}/CHANGELOG.md"))


def interface(root):
    """What is wrong with the header and the list by version."""
    rows, number = listed(root), tools_version.dotted(root)
    return interface_wrong(declared(root), rows, number, released_versions(root))


def new_call(root):
    """Whether a call is found that is added without a new number, whatever row it has; and one that
    is gone."""
    text, rows, number = declared(root), listed(root), tools_version.dotted(root)
    call, released = "uint32_t boxglue_new(void);", released_versions(root)
    # A version that is released takes no row, so the next one stands for it.
    if number in released:
        number = f"{number.partition('.')[0]}.{int(number.split('.')[1]) + 1}.0"
        rows = {**rows, number: []}
    longer = f"{call} {text}"
    with_row = lambda its, at, what=call: {**its, at: [*its.get(at, []), what]}
    frozen, old = with_row(rows, number, digest_of(rows[number])), functions_of(text)[0]
    without_old, gone = text.replace(old, ""), with_row(rows, number, GONE + old)
    earlier, later = with_row(rows, released[0]), with_row(rows, "99.0.0")
    refused = {
        "no row": (longer, rows, number, released),
        "a released version": (longer, earlier, number, released),
        "a later version": (longer, later, number, released),
        "this version, once it is released": (
            longer,
            with_row(frozen, number),
            number,
            [*released, number],
        ),
        "a call that is gone": (without_old, gone, number, released),
    }
    lost = [f"{name} is not found" for name, it in refused.items() if not interface_wrong(*it)]
    allowed = interface_wrong(longer, with_row(rows, number), number, released)
    return allowed or "; ".join(lost) or None


def cases(_programs, root):
    """A case for each kind of declaration."""
    of_c = functions, null_calls, structs, statuses, reply_kinds, numbers_of_replies, status_texts
    versions = version, new_version, other_places, interface, new_call
    for check in (*of_c, refusal_names, rust, names_of_rust, python, *versions):
        yield check.__name__, partial(check, root)
