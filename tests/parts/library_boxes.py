"""The trees of boxes of the bindings. On 500 random documents what the items of the box of each
page show is what the shipped page has, in Python and in Rust; in Rust the boxes that TeX shows have
the same texts, natural sizes, badness and overhang, and the ends of the lines of a paragraph of
4,000 words are those of its marks. bindings/python/tests has the last two for Python."""
import itertools
import tempfile
from functools import partial

from common.files import write
from common.library_build import python_words
from common.outcome import need
from common.typed_documents import scripts
from models.plain_font import metric_file
from parts.library_typed import run_wrong, rust_words

TITLE = "trees of boxes in Python and Rust: 500 random documents against the marks of their pages, boxes that TeX shows"
PROGRAM = "library"
NEEDS_PROGRAM = True
DOCUMENTS = 500
# What the drivers count: at least 1,000 pages, and 100,000 marks.
COMPARED = rb"%d documents, \d{4,} pages, \d{6,} marks\n" % DOCUMENTS
OTHERS = rb"44 boxes\n4000 words, more than 400 lines: true\n"


def in_python(root, archive, _folder, given):
    """The trees of Python."""
    return run_wrong(
        *python_words(root, archive, [f"{root}/bindings/python/tests/box_trees.py", *given]),
        wanted=COMPARED,
    )


def in_rust(root, archive, folder, given):
    """The trees of Rust."""
    need("cargo")
    words, env, wrong = rust_words(root, archive, folder, "box_trees.rs")
    more = [f"{root}/bindings/python/tests/shown_boxes.txt", f"{root}/examples/plain.tfm"]
    return wrong or run_wrong([*words, *given, *more], env, wanted=COMPARED + OTHERS)


def outcome(call, root, archive=None, *_programs):
    """Runs a driver over the documents."""
    with tempfile.TemporaryDirectory(prefix="boxglue-boxes-") as folder:
        given = f"{folder}/documents", f"{folder}/metrics"
        made = b"".join(
            b"document %d\n" % len(it) + it for it in itertools.islice(scripts(root), DOCUMENTS)
        )
        for path, data in zip(given, (made, metric_file())):
            write(path, data)
        return call(root, archive, folder, given)


def cases(programs, root):
    """A driver for each language."""
    return [
        (name, partial(outcome, call, root, *programs))
        for name, call in {"Python": in_python, "Rust": in_rust}.items()
    ]
