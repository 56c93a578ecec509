"""The metrics of fonts as structs, by the program of bindings/c, and by drivers in Python and Rust.
Those of the metric files of examples/ and of crates/rows_scripts, of large ones and of changed
ones, at sizes of all kinds, are those that the tests' own reader gives; those of all fonts of TeX
Live are what tftopl prints. The room for steps is none, exact, or too small by one, and each growth
of memory is refused in turn."""
import glob
import os
import tempfile
from functools import partial

from common.case_folder import read
from common.library_build import python_words
from common.library_inputs import Input, Room, rows
from common.outcome import lacks
from common.part import in_turn
from common.running import finished
from common.texts import first_difference, last_lines, same
from models.large_inputs import large_metric_file, metric_file_of_all_pairs
from models.metric_rows import rows_of_text, text_of, wanted
from parts.library_growths import count_wrong, run_calls
from parts.library_typed import rust_words

TITLE = "the library for C: the metrics of fonts"
PROGRAM = "library"
NEEDS_PROGRAM = True
SPLIT = in_turn(4)
LIMIT = 60
# The design size; the least size, and the greatest; those at which one bit more is cleared; and
# sizes that are none.
SIZES = (
    0,
    1,
    655360,
    *(
        (1 << bit) + low
        for bit, low in ((23, -1), (23, 0), (23, 1), (24, 1), (25, 3), (26, 7), (27, -1), (27, 0))
    ),
    -1,
    -(1 << 31),
    (1 << 31) - 1,
)
OTHER_SIZE = 12345679
# Changed files that are read by one run of the program; and the groups of the fonts of TeX Live.
BATCH, GROUPS = 100, 8
NO_GROWTHS = (
    b"growths 0: nothing done 0, a command refused 0, the device failed 0, no difference 0\n"
)


def metric_files(root):
    """The metric files of the repository by their names, and one of 130,000 bytes."""
    files = {
        os.path.basename(it): read(*os.path.split(it))
        for it in sorted(glob.glob(f"{root}/examples/*.tfm"))
    }
    return (
        files
        | {name.decode(): data for name, data in rows(root)[0].items()}
        | {"large": large_metric_file()}
    )


def calls(root, archive, room, words):
    """What the program prints, as a text."""
    return run_calls(root, archive, room, words).decode()


def model(root, name, archive):
    """Compares the metrics of a file at all sizes with those of the tests' own reader, and refuses
    the growths of memory."""
    data = metric_files(root)[name]
    with tempfile.TemporaryDirectory(prefix="boxglue-library-") as path:
        room = Room(path, Input("", b""))
        room.write("one.tfm", data)
        for size in SIZES:
            same(
                f"{name} at {size}",
                calls(root, archive, room, ["metrics", str(size), "one.tfm"]).encode(),
                wanted(data, size).encode(),
            )
        # A file that is refused before anything is allocated has no growths.
        refused = run_calls(root, archive, room, ["--refuse", "metrics", "0", "one.tfm"])
        if refused == NO_GROWTHS and wanted(data, 0).startswith("status 1"):
            return None
        return count_wrong(refused)


def all_pairs(root, archive):
    """Compares the 65,536 steps of a file with those of the tests' own reader."""
    data = metric_file_of_all_pairs()
    with tempfile.TemporaryDirectory(prefix="boxglue-library-") as path:
        room = Room(path, Input("", b""))
        room.write("pairs.tfm", data)
        printed = calls(root, archive, room, ["metrics", "0", "pairs.tfm"])
    return first_difference("65,536 steps", printed.encode(), wanted(data, 0).encode())


def in_python(root, archive, _folder):
    """The words that run the driver in Python, and their environment."""
    return *python_words(root, archive, [f"{root}/bindings/python/tests/font_metrics.py"]), None


def in_rust(root, archive, folder):
    """The words that run the driver in Rust, their environment, and what is wrong with the
    library."""
    return rust_words(root, archive, folder, "font_metrics.rs")


def driven(root, driver, archive):
    """Compares what a driver prints of all metric files of the repository, at all sizes, with the
    tests' own reader."""
    files = metric_files(root)
    with tempfile.TemporaryDirectory(prefix="boxglue-library-") as path:
        room = Room(path, Input("", b""))
        names = [f"{at}.tfm" for at in range(len(files))]
        for name, data in zip(names, files.values()):
            room.write(name, data)
        words, env, wrong = driver(root, archive, path)
        for size in () if wrong else SIZES:
            ran = finished([*words, str(size), *names], env=env, cwd=path, timeout=10 * LIMIT)
            wrong = (
                last_lines(ran.stderr)
                if ran.returncode
                else first_difference(
                    f"at {size}",
                    ran.stdout,
                    "".join(wanted(it, size) for it in files.values()).encode(),
                )
            )
            if wrong:
                break
    return wrong


def changed_files(data):
    """Copies of a file with another byte at each place, in turn 0, 127, 128, 254 and 255, and
    beginnings of it."""
    for place in range(len(data)):
        yield data[:place] + bytes([(0, 127, 128, 254, 255)[place % 5]]) + data[place + 1 :]
        yield data[:place]


def changed(root, name, archive):
    """Compares the metrics of changed copies of a file at its design size with those of the tests'
    own reader."""
    files = list(changed_files(metric_files(root)[name]))
    with tempfile.TemporaryDirectory(prefix="boxglue-library-") as path:
        room = Room(path, Input("", b""))
        for at, data in enumerate(files):
            room.write(f"{at}.tfm", data)
        for first in range(0, len(files), BATCH):
            part = files[first : first + BATCH]
            printed = calls(
                root,
                archive,
                room,
                ["metrics", "0", *(f"{first + at}.tfm" for at in range(len(part)))],
            )
            same(
                f"copies from {first} on",
                printed.encode(),
                "".join(wanted(it, 0) for it in part).encode(),
            )
    return None


def printed_list(path):
    """What tftopl prints of a file."""
    return finished(["tftopl", "-charcode-format=octal", path], text=True, check=True).stdout


def installed_files():
    """The metric files of TeX Live, in folders of its trees that have some."""
    found = finished(["kpsewhich", "-var-value=TEXMF"], text=True).stdout
    trees = [
        it.strip("!,{} \n")
        for it in found.replace("!!", "").replace("{", ",").replace("}", ",").split(",")
    ]
    return sorted(
        {
            path
            for tree in trees
            if os.path.isdir(tree)
            for path in glob.glob(f"{tree}/fonts/tfm/**/*.tfm", recursive=True)
        }
    )


def printed_in_python(root, archive, size, paths):
    """What the driver in Python prints."""
    words, env, _ = in_python(root, archive, None)
    return finished(
        [*words, str(size), *paths], env=env, text=True, timeout=10 * LIMIT, check=True
    ).stdout


def batch_wrong(root, archive, room, paths):
    """Compares the metrics of some files, at two sizes, one of them in Python, too, with what
    tftopl prints."""
    lists = [rows_of_text(it) for it in map(printed_list, paths)]
    for size in (0, OTHER_SIZE):
        others = [printed_in_python(root, archive, size, paths)] if size else []
        for printed in (calls(root, archive, room, ["metrics", str(size), *paths]), *others):
            for path, found, its in zip(paths, printed.split("status ")[1:], lists, strict=True):
                same(f"{path} at {size}", f"status {found}".encode(), text_of(its, size).encode())
    return None


def tex_live(root, group, archive):
    """Compares the metrics of a group of the fonts of TeX Live with what tftopl prints."""
    paths = installed_files()[group::GROUPS]
    with tempfile.TemporaryDirectory(prefix="boxglue-library-") as path:
        return (
            batch_wrong(root, archive, Room(path, Input("", b"")), paths)
            if paths
            else "TeX Live has no metric files"
        )


def outcome(call, root, archive=None, *_programs):
    """Runs a case, where something can be built."""
    return call(root, archive=archive)


def tftopl_outcome(group, root, *programs):
    """The fonts of a group, where tftopl is there."""
    return lacks("tftopl") or outcome(partial(tex_live, group=group), root, *programs)


def cases(programs, root):
    """The metric files, changed ones, and those of TeX Live."""
    for name in metric_files(root):
        yield name, partial(outcome, partial(model, name=name), root, *programs)
    for name in ("tiny", "restarts", "tables"):
        yield f"copies of {name}", partial(outcome, partial(changed, name=name), root, *programs)
    yield "65,536 steps", partial(outcome, all_pairs, root, *programs)
    yield "Python", partial(outcome, partial(driven, driver=in_python), root, *programs)
    yield "Rust", lambda: lacks("cargo") or outcome(
        partial(driven, driver=in_rust), root, *programs
    )
    for group in range(GROUPS):
        yield f"TeX Live, group {group}", partial(tftopl_outcome, group, root, *programs)
