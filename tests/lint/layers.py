"""The eight layers of crates/README.md: its tables have the crates of crates.txt, and a line there
names crates of its own layer or of an earlier one, each because a file of the crate speaks of it.
Only texts are compared, and no program is run."""
import glob
import re
from functools import partial

from lint.reached import read
from tools.crates import libraries

TITLE = (
    "the tables of crates/README.md have the crates of crates.txt; a crate names only crates that come before it, of its own layer or an earlier "
    "one, and none that it does not use"
)
TRIES = False
# The one crate that knows another of the next layer: texts become nodes.
LATER = {("shape_core", "node_core")}
ROW = re.compile(r"(?m)^\|(?: (\w*) ?\|)? ((?:`\w+`(?:, )?)+) \| .* \|$")


def layers(root):
    """The crates of the tables, each with the number of its layer; those that only test have
    None."""
    product, _, tests = read(f"{root}/crates/README.md").partition("Beside the layers")
    found, layer = {}, 0
    for name, crates in ROW.findall(product):
        layer += name != ""
        found |= {it: layer for it in re.findall(r"\w+", crates)}
    return found | {
        it: None for _, crates in ROW.findall(tests) for it in re.findall(r"\w+", crates)
    }


def tables(root):
    """What is wrong with the crates of the tables."""
    found, listed = layers(root), libraries(root)
    wrong = [f"{it} is in one of them" for it in sorted({*found} ^ {*listed})]
    return "; ".join(wrong) or (
        None if max(filter(None, found.values())) == 8 else "there are not eight layers"
    )


def later(root):
    """Crates that name one of a later layer, one that only tests, or one of a later line."""
    found, listed = layers(root), libraries(root)
    lines, wrong = [*listed], []
    for crate, below in listed.items():
        for it in below:
            if it in listed and lines.index(it) > lines.index(crate):
                wrong.append(f"{crate} names {it} of a later line")
            if (
                it in found
                and found[crate]
                and (not found[it] or (found[it] > found[crate] and (crate, it) not in LATER))
            ):
                wrong.append(f"{crate} names {it} of a later layer")
    return "; ".join(wrong) or None


def unused(root):
    """Lines of crates.txt with a library of which no file of the crate speaks."""
    wrong = []
    for crate, below in libraries(root).items():
        paths = [
            it
            for folder in ("src", "specs", "proofs")
            for it in glob.glob(f"{root}/crates/{crate}/{folder}/**/*.*", recursive=True)
        ]
        text = "\n".join(read(it) for it in paths if it.endswith((".rt", ".antt")))
        wrong += [f"{crate} names {it}" for it in below if not re.search(rf"\b{it}\b", text)]
    return f"without use: {', '.join(wrong)}" if wrong else None


def cases(_programs, root):
    """A case for the tables, one for the order of layers and lines, and one for what is not
    used."""
    yield "tables", partial(tables, root)
    yield "later layers", partial(later, root)
    yield "what is used", partial(unused, root)
