"""The library for C on large inputs, and on DVI files that its call for fonts accepts or refuses,
called from C and from Python.
Inputs and answers are made by arithmetic from docs/COMMANDS.md and docs/FORMATS.md, never by the
program."""
import tempfile
from dataclasses import dataclass, field
from functools import partial

from common.library_inputs import Input, Printed, Room
from common.part import Part, in_turn
from common.texts import first_difference, last_lines
from models import large_inputs
from models.dvi_writer import Font, Page, changed, definition, down, dvi_file, number, page_file
from models.dvi_writer import put_rule, right, select, set_char
from models.large_inputs import C, FONTS_OF_RULES, NO_PAGES, PT, SHIPPED, TINY, bitmap, ended
from models.large_inputs import listed, listed_page, rows_of, rules_file, summary, talk
from parts.library_calls import made_in_c, made_in_python, differs, printed

TITLE = "the library for C: many fonts and definitions, large files, long answers, refused files"
POST_SIZE = 29
NOP, BOP, PUSH, POP, EOP, PRE = b"\x8a", b"\x8b", b"\x8d", b"\x8e", b"\x8c", b"\xf7"
FIRST, SECOND = Font(0, b"tiny"), Font(1, b"tiny", 20 * PT, 5 * PT, -0x01234568)


@dataclass(frozen=True)
class Calls:
    """Files, and calls on them: the words of each, and what it prints: `Printed`, or for the fonts
    or marks of a file the status and the lines."""

    files: dict
    calls: list = field(default_factory=list)


def calls_of_run(run):
    """The calls for a run of the program: a script as a whole, and on a job in pieces and in one
    piece; or a listing."""
    text, status = b"".join(run.stdout), run.status
    if run.words[:1] == ("list",):
        yield [*run.words], Printed(status, text)
    if run.words[:1] == ("typeset",):
        dvi = run.made.get("out.dvi") or b""
        for words in (["run"], ["job", "0"], ["job", "100"]):
            yield [*words, "script", *run.words[2:]], Printed(status, text, dvi)


def calls_of_work(make):
    """The calls for the runs of a work of large_inputs.py, and the fonts of its file."""
    work = make()
    scripts = {it.stdin for it in work.runs if it.words[:1] == ("typeset",)}
    made = {name: data for it in work.runs for name, data in it.made.items() if data}
    assert len(scripts) == 1, "one script"
    calls = [call for run in work.runs for call in calls_of_run(run)]
    return Calls({**work.files, **made, "script": scripts.pop()}, calls)


def fonts_call(name, fonts):
    """The call for the fonts of a file, with the lines that are printed for them."""
    numbers = [(it.number, it.size, it.name, it.design_size, it.check_sum) for it in fonts]
    lines = [b"%d %d %s %d %d\n" % (*it, check_sum % (1 << 32)) for *it, check_sum in numbers]
    return ["fonts", name], (0, b"".join(lines))


def refusal(place, cause):
    """The line of the refusal of a file."""
    return f"refused 20 BadDvi {place} {cause}\n".encode()


def all_slots():
    """256 fonts in 256 slots: the file has 256 definitions, as many as boxglue can write."""
    calls = calls_of_work(large_inputs.all_slots)
    fonts = [Font(slot, f"f{slot}".encode(), 655360 + 2 * slot) for slot in range(256)]
    return Calls(calls.files, [*calls.calls, fonts_call("out.dvi", fonts)])


def definitions_of_another_program():
    """1,000 definitions in less than 64 KiB, with numbers from 100 on; of each third font the name
    has another length, and of the last one no byte."""
    names = [b"n%d" % at * (1 + at % 3) for at in range(999)] + [b""]
    fonts = [Font(100 + at, name, 1 + at) for at, name in enumerate(names)]
    file = page_file([put_rule(1, 1)], fonts=fonts)
    assert len(file.data) < 1 << 16
    listing = (["list", "f.dvi"], Printed(0, listed_page(["rule 0 0 1 1"])))
    return Calls({"f.dvi": file.data}, [fonts_call("f.dvi", fonts), listing])


def long_names():
    """300 definitions with names of 255 bytes: 76,500 bytes of names."""
    fonts = [Font(at, b"%03d" % at * 85, 1 + at) for at in range(300)]
    return Calls({"f.dvi": page_file([], fonts=fonts).data}, [fonts_call("f.dvi", fonts)])


def three_hundred_fonts():
    """300 fonts are handed in, of which 299 have no bytes: the script uses the last one, and so
    does its file. A font after 300 of other names is found too."""
    words = [*(f"n{at}=none.tfm" for at in range(299)), "n299=tiny.tfm"]
    text, box = ("text c", "added 1 missing 0"), ended(5 * PT, 5 * PT)
    rows = rows_of("font 7 n299; use 7; hbox into 0", text, box, SHIPPED)
    file = page_file([down(5 * PT), select(7), C], 5 * PT, 5 * PT, [Font(7, b"n299")])
    script, printed = talk(rows, summary(1, file))
    calls = (["run"], ["job", "0"], ["job", "2"])
    runs = [([*call, "script", *words], Printed(0, printed, file.data)) for call in calls]
    marks = Printed(0, listed_page([f"glyph 7 99 0 {5 * PT}"]))
    bad = ["list", "f.dvi", *words[:-1], "n299=none.tfm"]
    rule = page_file([put_rule(1, 1)]).data
    runs += [
        (["list", "f.dvi", *words], marks),
        (["paint", "1", "72", "2", "1", "f.dvi", *words], Printed(0, b"P1\n2 1\n00\n")),
        (bad, Printed(1, b"refused 5 BadTfm TooShort\n")),
        (["check", "f.dvi", *words], (0, b"")),
        (["marks", "rule.dvi", *words], (0, listed_page(["rule 0 0 1 1"]))),
    ]
    files = {"script": script, "none.tfm": b"", "tiny.tfm": TINY}
    files |= {"f.dvi": file.data, "rule.dvi": rule}
    return Calls(files, runs)


def two_pages():
    """A file of two pages and two fonts, and the place of its last byte that is not 223."""
    first = Page([select(0), C, right(PT), [put_rule(1, 1)]], new_fonts=(FIRST, SECOND))
    file = dvi_file([first, Page([])], 0, 0)
    return file.data, file, len(file.data.rstrip(b"\xdf")) - 1


def files_that_are_refused():
    """A file for each rule that the call tests: of the end, of the chain of pages, of the preamble,
    and of the definitions after post. With its place and cause."""
    data, file, end = two_pages()
    post, first_bop, second_bop = file.post, file.data.index(BOP), file.page_ends[0]
    defined = post + POST_SIZE
    size = len(definition(FIRST))
    last_name = defined + 2 * size - 5
    put = lambda place, data_there: changed(data, place, data_there)
    no_magnification = changed(put(10, bytes(4)), post + 13, bytes(4))
    same_number = put(defined + size + 1, b"\0")
    later_bop = put(second_bop + 41, number(first_bop + 1, 4))
    return {
        "an empty file": (b"", 0, "Trailer"),
        "three bytes 223": (data[: end + 4], end + 4, "Trailer"),
        "another version at the end": (put(end, b"\3"), end, "Version"),
        "no post_post": (put(end - 5, NOP), end - 5, "Opcode"),
        "post_post names no post": (put(end - 4, number(post + 1, 4)), end - 4, "Pointer"),
        "post names no bop": (put(post + 1, number(second_bop + 1, 4)), post + 1, "Pointer"),
        "a bop names no bop": (later_bop, second_bop + 41, "Pointer"),
        "a page too many": (put(post + 27, number(3, 2)), post, "Count"),
        "no pre": (put(0, NOP), 0, "Preamble"),
        "another version at the beginning": (put(1, b"\3"), 0, "Preamble"),
        "other units": (put(13, b"\1"), 0, "Preamble"),
        "no magnification": (no_magnification, 0, "Preamble"),
        "a name that is cut off": (put(last_name, b"\5"), defined + size, "Truncated"),
        "an eop after post": (put(defined, EOP), defined, "Opcode"),
        "a font of no size": (put(defined + 6, bytes(4)), defined, "Font"),
        "a font of 2^27": (put(defined + 6, number(1 << 27, 4)), defined, "Font"),
        "two definitions of a number": (same_number, defined + size, "Font"),
    }


def refused_files():
    """Each of them, with its line."""
    found = files_that_are_refused()
    calls = [
        (["fonts", f"{at}.dvi"], (1, refusal(*it))) for at, (_, *it) in enumerate(found.values())
    ]
    return Calls({f"{at}.dvi": data for at, (data, _, _) in enumerate(found.values())}, calls)


def broken_pages():
    """Files whose pages are broken, each with the place and the cause that a listing names."""
    data, file, _ = two_pages()
    definitions, body = file.data.index(definition(FIRST)), file.data.index(BOP) + 45
    moved = body + 2
    assert data[body:moved] == select(0) + C and data[moved + 4 : moved + 5] == PUSH
    put = lambda place, data_there: changed(data, place, data_there)
    another, ended_at = put(definitions + 6, number(11 * PT, 4)), file.page_ends[0]
    return {
        "an instruction that there is not": (put(body, b"\xfa"), body, "Opcode"),
        "a pre in a page": (put(body, PRE), body, "Opcode"),
        "a pop without a push": (put(body, POP), body, "Stack"),
        "a push too many": (put(moved, PUSH + 3 * NOP), moved + 4, "Stack"),
        "a character without a font": (put(body, NOP), body + 1, "Glyph"),
        "a character that the font has not": (put(body + 1, set_char(1)), body + 1, "Glyph"),
        "a font that is not defined": (put(body, select(9)), body, "Font"),
        "another definition before the page": (another, file.post + POST_SIZE, "Font"),
        "no end of a page": (put(ended_at - 1, NOP), ended_at, "Opcode"),
    }


def files_with_broken_pages():
    """Each of them, and the whole file, has its fonts: the call does not read the pages. A listing
    refuses all but the whole file."""
    whole, found = two_pages()[0], broken_pages()
    files = {"whole.dvi": whole}
    files |= {f"{at}.dvi": data for at, (data, _, _) in enumerate(found.values())}
    lists = [
        (["list", f"{at}.dvi", "tiny=tiny.tfm"], Printed(1, refusal(*it)))
        for at, (_, *it) in enumerate(found.values())
    ]
    fonts = [fonts_call(name, [FIRST, SECOND]) for name in files]
    return Calls({"tiny.tfm": TINY, **files}, fonts + lists)


def large_files():
    """A page of 8,000 rules, whose file is above 64 KiB, and its marks; and those of the file of a
    page of 80,000 rules. A check accepts both files."""
    calls = calls_of_work(large_inputs.page_of_rules)
    typeset, listing, _ = large_inputs.page_of_instructions().runs
    marks = [
        (["marks", "out.dvi"], (0, listed_page(large_inputs.rules_marks()))),
        (["marks", "more.dvi"], (0, b"".join(listing.stdout))),
    ]
    checks = [(["check", name], (0, b"")) for name in ("out.dvi", "more.dvi")]
    files = {**calls.files, "more.dvi": typeset.made["out.dvi"]}
    return Calls(files, [*calls.calls, *marks, *checks])


def checks_with_a_font():
    """A check, with a font, of a page of a glyph and 8,000 rules, and of one whose last rule is no
    instruction."""
    body = [select(0), C, *[put_rule(PT, PT)] * 8000]
    file = page_file(body, PT, 5 * PT, [FIRST])
    last_rule = file.page_ends[0] - 1 - len(put_rule(PT, PT))
    assert last_rule > 1 << 16
    files = {"f.dvi": file.data, "page.dvi": changed(file.data, last_rule, b"\xfa")}
    wanted = {"f.dvi": (0, b""), "page.dvi": (1, refusal(last_rule, "Opcode"))}
    calls = [(["check", name, "tiny=tiny.tfm"], its) for name, its in wanted.items()]
    return Calls({"tiny.tfm": TINY, **files}, calls)


def many_pages():
    """1,100 pages in less than 64 KiB, each with its number as a count, and a rule of its own
    width."""
    pages = [Page([put_rule(1, at)], (at, *[0] * 9)) for at in range(1, 1101)]
    data = dvi_file(pages, 1, 1100).data
    assert len(data) < 1 << 16
    counts = [
        (" ".join(map(str, it.counts)), [f"rule 0 0 1 {at}"]) for at, it in enumerate(pages, 1)
    ]
    text, black = listed(counts), b"".join(bitmap([(0, 0, 1, 1100)], 72, 2, 1))
    calls = [(["marks", "f.dvi"], (0, text)), (["list", "f.dvi"], Printed(0, text))]
    paint = (["paint", "1100", "72", "2", "1", "f.dvi"], Printed(0, black))
    return Calls({"f.dvi": data}, [*calls, paint, (["check", "f.dvi"], (0, b""))])


def fonts_of_large_file():
    """The fonts of a file above 64 KiB."""
    data = rules_file(*FONTS_OF_RULES).data
    return Calls({"f.dvi": data}, [fonts_call("f.dvi", FONTS_OF_RULES)])


def large_broken_files():
    """A file whose last rule is no instruction, and one with a bad definition of a font after post:
    both places are above 65,536."""
    file = rules_file(*FONTS_OF_RULES)
    last_rule = file.page_ends[0] - 1 - len(put_rule(PT, PT))
    assert last_rule > 1 << 16 and file.data[last_rule:-1].startswith(put_rule(PT, PT) + EOP)
    bad_font, place = large_inputs.with_bad_font(file)
    lines = {"page.dvi": refusal(last_rule, "Opcode"), "font.dvi": refusal(place, "Font")}
    calls = []
    for name, line in lines.items():
        calls += [([word, name], (1, line)) for word in ("marks", "check")]
        calls += [([*word.split(), name], Printed(1, line)) for word in ("list", "paint 1 72 2 1")]
    files = {"page.dvi": changed(file.data, last_rule, b"\xfa"), "font.dvi": bad_font}
    return Calls(files, [*calls, (["fonts", "font.dvi"], (1, lines["font.dvi"]))])


def many_replies():
    """66,000 replies, the last of them a refusal, by one call and by a job's. From C they are
    texts, and from Python numbers of which texts are made. The job gets them in one piece, and in
    pieces of up to 1,000 lines."""
    rows = [*rows_of("void 0") * 65_999, ("ship 0", "refused 21 VoidBox")]
    script, text = talk(rows, NO_PAGES)
    words = (["run"], ["job", "0"], ["job", "1000"])
    calls = [([*it, "script"], Printed(1, text)) for it in words]
    return Calls({"script": script}, calls)


CASES = {
    "256 fonts and definitions": all_slots,
    "298 fonts": partial(calls_of_work, large_inputs.many_words),
    "300 fonts": three_hundred_fonts,
    "1,000 definitions": definitions_of_another_program,
    "names above 64 KiB": long_names,
    "1,100 pages": many_pages,
    "files above 64 KiB": large_files,
    "fonts of a file above 64 KiB": fonts_of_large_file,
    "checks with a font of files above 64 KiB": checks_with_a_font,
    "files that are broken above 64 KiB": large_broken_files,
    "answers above 2 MiB": partial(calls_of_work, large_inputs.long_answers),
    "66,000 replies": many_replies,
    "files that the call for fonts refuses": refused_files,
    "files with broken pages": files_with_broken_pages,
}


def status_and_lines(ran):
    """The status and the lines that a call for fonts or marks printed. From C the first line also
    has the number of the fonts and the size of their names or of the refusal; or the units of the
    file."""
    line, _, rest = ran.stdout.partition(b"\n")
    if ran.returncode:
        return f"the status is {ran.returncode}: {last_lines(ran.stderr)}"
    return int(line.split()[0]), rest


def call_wrong(ran, words, wanted):
    """What is wrong with a call, or None."""
    call = " ".join(words[:3])
    if isinstance(wanted, Printed):
        return differs(call, printed(ran), wanted)
    found = status_and_lines(ran)
    if isinstance(found, str) or found[0] != wanted[0]:
        return f"{call}: {found} and not {wanted}"
    return first_difference(f"{call}: the lines", found[1], wanted[1])


def outcome(make_calls, make, root, archive=None, *_programs):
    """Makes the calls of a case."""
    calls = make()
    with tempfile.TemporaryDirectory(prefix="boxglue-library-") as path:
        room = Room(path, Input("", calls.files.get("script", b"")))
        for name, data in calls.files.items():
            room.write(name, data)
        made = make_calls(root, archive, room, [words for words, _ in calls.calls])
        pairs = zip(made, calls.calls, strict=True)
        found = [call_wrong(ran, words, wanted) for ran, (words, wanted) in pairs]
    return next(filter(None, found), None)


def cases(make_calls, programs, root):
    """The cases, by name."""
    for name, make in CASES.items():
        yield name, partial(outcome, make_calls, make, root, *programs)


def parts(_root):
    """A part for each language."""
    for language, make_calls in (("C", made_in_c), ("Python", made_in_python)):
        name, title = f"library_{language.lower()}_large", f"{TITLE}, from {language}"
        cases_of = partial(cases, make_calls)
        yield Part(name, title, cases_of, "library", True, split=in_turn(4))
