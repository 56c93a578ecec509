"""Tests of the docstrings: what `help` says of each call, and the calls that `help(boxglue)` names
first."""

import inspect
import re
import unittest

import boxglue
from boxglue import families, hyphenation, layout, pdf

# Calls of commands and of the library by which a function raises a fault.
RAISES = re.compile(
    r"\braise (?!$)|\bfail\(|\blibrary\(\)|self\._(?:ok|added|text|split|measured|shipped|load|box|paragraph|check)\("
)
# The commands of scripts.
COMMANDS = """font use hbox vbox vtop par end text char kern glue penalty rule special box copy unhbox
    unhcopy unvbox unvcopy lastbox vsplit measure void set count ship"""
# The table of the module, up to its end.
TABLE = re.compile(r"The twenty calls that matter, by task:\n\n(.*?)\n\n", re.S)


def functions():
    """Yields each public function and method, with its name."""
    for module in (boxglue, families, hyphenation, layout, pdf):
        for name in module.__all__:
            it = getattr(module, name)
            if inspect.isfunction(it):
                yield name, it
            elif inspect.isclass(it):
                yield from methods(it)


def methods(kind):
    """Yields the public methods of a class that this package has, with their names."""
    for name in dir(kind):
        it = inspect.unwrap(
            getattr(getattr(kind, name, None), "__func__", getattr(kind, name, None))
        )
        is_ours = inspect.isfunction(it) and it.__module__.startswith("boxglue")
        if is_ours and not name.startswith("_"):
            yield f"{kind.__name__}.{name}", it


def section(text, name):
    """Returns the lines of a section of a docstring, or an empty text."""
    found = re.search(rf"^{name}:\n((?:    .*\n?|\n)+)", text, re.M)
    return found[1] if found else ""


def wrong(it):
    """Yields what is wrong with the docstring of a function."""
    text = inspect.getdoc(it) or ""
    names = [name for name in inspect.signature(it).parameters if name not in ("self", "cls")]
    named = {
        name
        for line in re.findall(r"^    ([\w, ]+):", section(text, "Args"), re.M)
        for name in line.split(", ")
    }
    if not re.match(r"[A-Z][a-z]+s\b", text):
        yield "does not begin with a verb"
    if {*names} != named:
        yield f"Args differ in {sorted({*names} ^ named)}"
    if inspect.signature(it).return_annotation not in ("None", "NoReturn", None) and not section(
        text, "Returns"
    ):
        yield "no Returns"
    code = re.sub(r'""".*?"""', "", inspect.getsource(it), flags=re.S)
    if RAISES.search(code) and not section(text, "Raises"):
        yield "no Raises"


class Docstrings(unittest.TestCase):
    def test_functions(self):
        """Each has a verb, its parameters, its result, and what it raises."""
        found = {name: why for name, it in functions() if (why := [*wrong(it)])}
        self.assertEqual(found, {})
        self.assertGreater(len([*functions()]), 110)

    def test_missing_parts(self):
        """A docstring that lacks a part is found."""

        def broken(given: int) -> int:
            """The number."""
            if given:
                raise ValueError
            return given

        self.assertEqual(len([*wrong(broken)]), 4)

    def test_first_calls(self):
        """The module begins with twenty calls, which there are."""
        table = TABLE.search(inspect.getdoc(boxglue))[1]
        self.assertIn("job.finish().check()", table)
        calls = re.findall(r"(?<!\)\.)(job\.)?\b(\w+)\(", table)
        self.assertEqual(len({*calls}), 20)
        for job, name in calls:
            self.assertTrue(callable(getattr(boxglue.Job if job else boxglue, name)), name)

    def test_commands(self):
        """Each command of scripts is a call of its name; the module names the others."""
        others = {it for it in COMMANDS.split() if not callable(getattr(boxglue.Job, it, None))}
        said = re.search(r"Each command .*?\. A call", boxglue.__doc__, re.S)[0]
        self.assertEqual(others, {*re.findall(r"`([a-z]+)`, which", said)})

    def test_finish(self):
        """It does not raise, and says so."""
        with boxglue.Job() as job:
            job.hbox(into=0)
            self.assertFalse(job.finish().accepted)
            self.assertRaisesRegex(boxglue.Refused, "ListsOpen", lambda: job.finish().check())
        said = " ".join(boxglue.Job.finish.__doc__.split())
        self.assertRegex(said, r"not raise a refusal.*finish\(\)\.check\(\)")

    def test_lengths(self):
        """A size says that it is in scaled points, by an example with a unit."""
        for call in ("load", "set"):
            self.assertRegex(
                section(inspect.getdoc(getattr(boxglue.Job, call)), "Args"), r"pt\(\d+\)"
            )

    def test_folders(self):
        """The folders of metric files that `help` names are where Debian has them."""
        named = re.findall(r'"(/usr/[^"]+)"', boxglue.FontFolder.__doc__ + boxglue.metrics.__doc__)
        self.assertEqual(len(named), 2)
        for path in named:
            self.assertTrue(path.startswith("/usr/share/texlive/texmf-dist/fonts/tfm/"), path)


if __name__ == "__main__":
    unittest.main()
