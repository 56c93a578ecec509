"""The parts of tests/run, one module each. A module of this package, of `lint` or of `models.tests`
that has a TITLE is a part; the others are helpers.

  TITLE           one line about what the part tests
  NEEDS_PROGRAM   True if the part can only run built programs: where no words name what is built,
  it gets one without proofs (unproved.py); with
                  words that name other programs alone, all its cases are skipped, with that reason.
                  Default: False
  cases(programs, root)
                  returns an iterable of pairs (name, call), in the order in which they are run

`programs` has the absolute paths of the built programs of `boxglue`; it is empty if none was given
and the part has no NEEDS_PROGRAM. `root` is the absolute path of the top of the repository.
`call()` runs one case, on each of the programs, and returns

  None              if the case passed
  Skipped(REASON)   if it could not be run here (`from common.outcome import Skipped`); for a tool
  outside of the repository that may be
                    missing, lacks("TOOL") or without("TOOL"), and a line for it in the table of
                    docs/internal/GATE.md
  a text            about what is wrong, on one line, with the base name of the program that is
  wrong

An exception counts as a failure, with its text. A case with several programs counts once.

What the driver needs from a part:
- Names are unique in a part, and the same in each run. The pairs are made before anything runs,
  also with programs == [] if the part
  is skipped: making them has to be quick, and must not run a program.
- The calls of a part run one after another, in one thread; several parts run side by side. So a
  call keeps its files in a temporary
  folder of its own, never changes the working folder or the environment of the process, gives each
  child a timeout, and leaves none.
- A call prints nothing. While it runs, the driver prints every ten seconds which case runs, how
  long, and `n of m`; so a part of long
  work has many cases of seconds rather than one case of minutes.
- Only the standard library, and what a Debian system without TeX has.

The name of a part is the name of its module. A part may have three more constants: PROGRAM is
"rows_scripts" if `programs` are
builds of that program (--rows), and "library" if the first of them is an archive of the library for
C (--library, or one without proofs), which the built programs of `boxglue` follow; a part with a
larger WEIGHT (default 0) begins earlier, and TRIES is False if the part builds nothing by `rt try`.
A module with `parts(root)` instead of `cases` gives several parts: `Part` objects (part.py).

Without --program, a part that does not need one has one run of `rt try` that gives the results of
all its cases; its first case waits for it. If TRIES is False, its cases need no program at all."""
