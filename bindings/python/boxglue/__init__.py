"""Typesets documents with TeX's boxes, glue and paragraphs, and reads DVI files.

The twenty calls that matter, by task:

    begin and end a job         Job(fonts), job.finish().check()
    get the DVI file            job.take()
    choose a font               job.use(job.load("cmr10"))
    open a box                  job.hbox(into=0), job.vbox(into=0)
    set a paragraph             job.par(), or job.paragraph(text, hyphens=rule)
    set a parameter             job.set(hsize=pt(300))
    give a length               pt("12.5")
    add text, space or a rule   job.text("Wafers"), job.glue(pt(3)), job.rule(pt(1), pt(2), 0)
    add a box                   job.box(0)
    cut a column                job.vsplit(0, to=pt(500), into=1)
    make a page                 job.ship(0)
    look into a box             job.inspect(0)
    run a script                run(script, fonts)
    read a DVI file             marks(dvi, fonts)

    import boxglue

    fonts = {"cmr10": open("cmr10.tfm", "rb").read()}
    with boxglue.Job(fonts) as job:
        job.use(job.load("cmr10", at=boxglue.pt(12)))
        with job.register() as page:
            with job.hbox(into=page) as box:
                job.text("Wafers")
            print(box.width)  # in scaled points
            job.ship(page)
        job.finish().check()
        open("page.dvi", "wb").write(job.take())

Each command of docs/COMMANDS.md is the call of `Job` that has its name, except `font`, which is
`load`, and `end`, which the end of a `with` sends. A call returns its reply; `Job.batch` sends many
in one call. A refused command raises `Refused`, with the command and the line of the call.
`boxglue.hyphenation` has the rules for hyphens, and documents find in `boxglue.families` the fonts
of a style, in `boxglue.layout` lines, ends of pages and columns, and in `boxglue.pdf` links and
pictures.

    ran = boxglue.run("hbox into 0\\nrule 1pt 1pt 0pt\\nend\\nship 0\\n", fonts).check()

runs a script. The replies to its commands are in `ran.replies`, such as `Packed(line=3,
width=65536, height=65536, depth=0, badness=0)`, and in `ran.answers_text` as texts. `quote` tests a
text for a line of a script.

    document = boxglue.marks(ran.dvi, fonts)
    for page in document.pages:
        print(page.counts, [*page.marks])  # a Glyph, a Rule or a Special each
    numpy.asarray(document.marks.rows)["h"]  # the whole table at once

The package calls the shared object libboxglue.so, and loads the first of these:
- the file that the variable BOXGLUE_LIBRARY names, such as the file that `bindings/build` makes in
  the repository;
- libboxglue.so in the folder of this package, where a wheel puts it;
- libboxglue.so.1, which the system's loader looks for.
`proved()` tells whether the loaded library is proved.

Scripts and answers have the form of docs/FORMATS.md. Give fonts as a mapping from names to the
bytes of metric files (TFM), such as a `FontFolder`, or as pairs of both; if several have one name,
the first counts. The package hands a `str` over as UTF-8. A dimension is a whole number of scaled
points: `pt`, `inch` and the other units make one exactly, and `points` and `scaled_points` turn one
into a text and back.

Calls may run in several threads at once, and release the GIL while the library works; calls on one
job wait for each other. Nothing relies on the GIL. A KeyboardInterrupt comes at the end of a call
that is under way. Python loads a module of the package when you first use a name of it.
"""
from __future__ import annotations

# Checkers of types take it for true; typing itself would be half of the time of the import.
TYPE_CHECKING = False
if TYPE_CHECKING:
    from . import families as families, hyphenation as hyphenation, layout as layout, pdf as pdf
    from ._batches import Batch, Handle
    from ._boxes import (
        Box,
        GlueItem,
        GlueSetting,
        GlyphItem,
        Item,
        ItemKind,
        Items,
        KernItem,
        PenaltyItem,
        RuleItem,
        SpecialItem,
    )
    from ._dimensions import bp, cc, cm, dd, inch, mm, pc, points, pt, scaled_points
    from ._encodings import OML, OMS, OT1, T1, TS1, FontEncoding
    from ._files import Bitmap, DviFont, Fault, check, fonts, listing, paint
    from ._fonts import FontFolder
    from ._job import Job
    from ._library import proved, version
    from ._lists import LoadedFont, OpenBox, OpenList, OpenParagraph, Register
    from ._marks import (
        Document,
        Glyph,
        Mark,
        MarkKind,
        Marks,
        Page,
        Pages,
        Rule,
        Special,
        Units,
        marks,
    )
    from ._metrics import CharacterMetrics, FontMetrics, FontStep, metrics
    from ._replies import (
        Added,
        End,
        Measured,
        Ok,
        Packed,
        Paragraph,
        Replies,
        Reply,
        ReplyKind,
        Shipped,
        Sizes,
        Split,
    )
    from ._runs import Answers, Run, run
    from ._scripts import Glue, quote
    from ._status import (
        AnswersLost,
        BadCharacter,
        BadFontName,
        BoxglueError,
        ListOpening,
        NeedsRecovery,
        NoJob,
        NoSuchPage,
        OutOfMemory,
        OutOfRange,
        Refused,
        Status,
    )

__all__ = [
    "Added",
    "Answers",
    "AnswersLost",
    "BadCharacter",
    "BadFontName",
    "Batch",
    "Bitmap",
    "Box",
    "BoxglueError",
    "CharacterMetrics",
    "Document",
    "DviFont",
    "End",
    "Fault",
    "FontEncoding",
    "FontFolder",
    "FontMetrics",
    "FontStep",
    "Glue",
    "GlueItem",
    "GlueSetting",
    "Glyph",
    "GlyphItem",
    "Handle",
    "Item",
    "ItemKind",
    "Items",
    "Job",
    "KernItem",
    "ListOpening",
    "LoadedFont",
    "Mark",
    "MarkKind",
    "Marks",
    "Measured",
    "NeedsRecovery",
    "NoJob",
    "NoSuchPage",
    "OML",
    "OMS",
    "OT1",
    "Ok",
    "OpenBox",
    "OpenList",
    "OpenParagraph",
    "OutOfMemory",
    "OutOfRange",
    "Packed",
    "Page",
    "Pages",
    "Paragraph",
    "PenaltyItem",
    "Refused",
    "Register",
    "Replies",
    "Reply",
    "ReplyKind",
    "Rule",
    "RuleItem",
    "Run",
    "Shipped",
    "Sizes",
    "Special",
    "SpecialItem",
    "Split",
    "Status",
    "T1",
    "TS1",
    "Units",
    "bp",
    "cc",
    "check",
    "cm",
    "dd",
    "fonts",
    "inch",
    "listing",
    "marks",
    "metrics",
    "mm",
    "paint",
    "pc",
    "points",
    "proved",
    "pt",
    "quote",
    "run",
    "scaled_points",
    "version",
]
__version__ = "1.2.0"

# The module of each name.
_MODULES = {
    name: module
    for module, names in {
        "_batches": "Batch Handle",
        "_boxes": "Box GlueItem GlueSetting GlyphItem Item ItemKind Items KernItem PenaltyItem RuleItem SpecialItem",
        "_dimensions": "bp cc cm dd inch mm pc points pt scaled_points",
        "_encodings": "FontEncoding OML OMS OT1 T1 TS1",
        "_files": "Bitmap DviFont Fault check fonts listing paint",
        "_fonts": "FontFolder",
        "_job": "Job",
        "_library": "proved version",
        "_lists": "LoadedFont OpenBox OpenList OpenParagraph Register",
        "_marks": "Document Glyph Mark MarkKind Marks Page Pages Rule Special Units marks",
        "_metrics": "CharacterMetrics FontMetrics FontStep metrics",
        "_replies": "Added End Measured Ok Packed Paragraph Replies Reply ReplyKind Shipped Sizes Split",
        "_runs": "Answers Run run",
        "_scripts": "Glue quote",
        "_status": "AnswersLost BadCharacter BadFontName BoxglueError ListOpening NeedsRecovery NoJob NoSuchPage OutOfMemory OutOfRange Refused Status",
    }.items()
    for name in names.split()
}


def __getattr__(name: str) -> object:
    """Loads the module of a name, when it is first used."""
    if name in ("families", "hyphenation", "layout", "pdf"):
        return __import__(f"boxglue.{name}", fromlist=["__all__"])
    if name not in _MODULES:
        raise AttributeError(f"module 'boxglue' has no attribute {name!r}")
    module = __import__(f"boxglue.{_MODULES[name]}", fromlist=[name])
    found: object = getattr(module, name)
    globals()[name] = found
    return found


def __dir__() -> list[str]:
    return sorted({*globals(), *__all__})
