"""What the trials have in common: the tree, the words of their command lines, and where they work.
Each trial imports it first, since it puts the folders of the tests and of bench/ on the path."""

import argparse
import os
import sys
import tempfile

HERE = os.path.dirname(os.path.abspath(__file__))
ROOT = os.path.dirname(os.path.dirname(HERE))
sys.path[:0] = [ROOT + "/tests", ROOT + "/bench"]
BUILT = os.environ.get("BOXGLUE", ROOT + "/crates/boxglue/out/boxglue")


def parser_of(about, count=False):
    """A parser of the words that most trials have."""
    layout = argparse.RawDescriptionHelpFormatter
    parser = argparse.ArgumentParser(description=about, formatter_class=layout)
    parser.add_argument("--boxglue", metavar="PROGRAM", type=os.path.abspath, default=BUILT)
    if count:
        parser.add_argument("--count", type=int, default=100_000, help="how many inputs")
        parser.add_argument("--first", type=int, default=0, help="the number of the first")
    return parser


def fast_folder():
    """A folder in memory, where there is one, that is removed."""
    return tempfile.TemporaryDirectory(dir="/dev/shm" if os.path.isdir("/dev/shm") else None)


def in_words(counts):
    """The names of a counter, each with its number, the most frequent one first."""
    return ", ".join(f"{name} {count}" for name, count in counts.most_common())
