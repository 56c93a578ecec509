"""The box in a register as structs, by the program of bindings/c: on the first page of each input
and of random documents, the glyphs, rules and specials that the items show are those of the listing
of the page. Places beyond 2^63 are those of exact fractions. The buffers are exact and too small;
no call takes memory."""
import re
import sys
import tempfile
from fractions import Fraction
from functools import partial

from common.library_inputs import Input, Room, all_inputs
from common.part import in_turn
from common.texts import first_difference
from models.plain_font import metric_file
from parts.library_growths import outputs_of, run_calls

TITLE = "the library for C: the items of boxes as structs"
PROGRAM = "library"
NEEDS_PROGRAM = True
SPLIT = in_turn(4)
# Of the documents of a group so many at least have a page to compare.
DOCUMENTS, GROUPS, LEAST = 500, 10, 20
PT = 65536
SHIPPED = re.compile(rb"^(\d+): shipped 1$", re.M)
MARK = re.compile(rb"^(glyph \d+ \d+ |rule |special )(-?\d+) (-?\d+)", re.M)
# A list of two amounts of glue that balance, but for one scaled point: its glue stretches by the
# size of the box for each scaled point of stretch.
SIZE, COUNT, AMOUNT = 1000 * PT, 3000, 16383 * PT
STRETCHES = [AMOUNT] * COUNT + [1] + [-AMOUNT] * COUNT


def first_page(listing):
    """The marks of the first page of a listing."""
    return re.split(rb"^page \d+ counts .*\n", listing, flags=re.M)[1]


def moved_down(shown, height):
    """Marks that a box shows from its reference point, on a page where this is below the top by the
    height of the box."""
    return MARK.sub(lambda it: b"%s%s %d" % (it[1], it[2], int(it[3]) + height), shown)


def items_wrong(root, archive, given, compared=None):
    """What is wrong with the items of the box of the first page of an input. Pages that are shipped
    while a list is open, or elsewhere than at the origin, are passed over; `compared` counts the
    others."""
    with tempfile.TemporaryDirectory(prefix="boxglue-library-") as path:
        room = Room(path, given)
        run = partial(run_calls, root, archive, room)
        answers, dvi = outputs_of(run(["run", "script", *room.fonts]))
        found = SHIPPED.search(answers)
        lines = given.script.splitlines(keepends=True)
        if not found:
            return None
        before, ship = b"".join(lines[: int(found[1]) - 1]), lines[int(found[1]) - 1]
        room.write("before", before)
        room.write("out.dvi", dvi)
        if re.search(rb"^set [hv]offset", before, re.M) or not dvi:
            return None
        listing = run(["list", "out.dvi", *room.fonts]).partition(b"\n")[2]
        if listing.startswith(b"refused"):
            return None
        page = first_page(listing)
        items, _, shown = run(["items", ship.split()[1].decode(), "before", *room.fonts]).partition(
            b"\nshown\n"
        )
    box = items.splitlines()[1].split()
    if compared is not None:
        compared.append(len(page))
    return first_difference("what the items show", moved_down(shown, int(box[6])), page)


def of_input(given, root, archive=None):
    """The items of an input."""
    return items_wrong(root, archive, given)


def of_documents(group, root, archive=None):
    """The items of random documents."""
    sys.path[:0] = [f"{root}/bench", f"{root}/bench/trials"]
    try:
        from compare_documents import document_of
    finally:
        del sys.path[:2]
    compared = []
    for number in range(group, DOCUMENTS, GROUPS):
        script = document_of(number, b"").script
        names = dict.fromkeys(it.decode() for it in re.findall(rb"(?m)^font \d+ (\S+)", script))
        wrong = items_wrong(
            root, archive, Input("", script, dict.fromkeys(names, metric_file())), compared
        )
        if wrong:
            return f"document {number}: {wrong}"
    return None if len(compared) >= LEAST else f"only {len(compared)} pages were compared"


def points(number):
    """Scaled points as scripts have them."""
    sign, number = ("-" if number < 0 else ""), abs(number)
    return f"{sign}{number // PT}.{Fraction(number % PT * 100_000, PT).__round__():05}pt"


def wide_lines():
    """The lines that are wanted of the box of that list."""
    ratio, at = Fraction(SIZE, sum(STRETCHES)), 0
    yield f"0 hbox 0 0 0 {SIZE} 0 0 0 0 0 0 0 1 0 {ratio.numerator}/{ratio.denominator} 0 0 0 0 0\n"
    for stretch in STRETCHES:
        width = ratio * stretch
        yield f"1 glue {at} 0 {width} 0 0 0 0 {stretch} 0 0 0 0 0 0/0 0 0 0 0 0\n"
        at += width


def wide(root, archive=None):
    """A box with glue beyond 2^63."""
    script = (
        f"hbox to {points(SIZE)} into 7\n"
        + "".join(f"glue 0pt plus {points(it)}\n" for it in STRETCHES)
        + "end\n"
    )
    with tempfile.TemporaryDirectory(prefix="boxglue-library-") as path:
        room = Room(path, Input("", script.encode()))
        printed = run_calls(root, archive, room, ["items", "7", "script"])
        void = run_calls(root, archive, room, ["items", "8", "script"])
    wanted = f"{len(STRETCHES) + 1} items, 0 bytes\n" + "".join(wide_lines()) + "shown\n"
    return first_difference("the items", printed, wanted.encode()) or first_difference(
        "a void register", void, b"0 items, 0 bytes\nshown\n"
    )


def cases(programs, root):
    """The inputs, random documents, and a box of wide places."""
    for given in all_inputs(root):
        yield given.name, partial(of_input, given, root, *programs[:1])
    for group in range(GROUPS):
        yield f"random documents, group {group}", partial(of_documents, group, root, *programs[:1])
    yield "places beyond 2^63", partial(wide, root, *programs[:1])
