"""Files of the repository that a script of the repository makes: they have to equal the script's
output."""
import sys
from functools import partial

from common.files import content
from common.outcome import lacks
from common.running import finished

TITLE = "files that scripts of the repository make"
# Each file, and the script that prints it; one of them runs TeX.
BOXES = "tests/shown-boxes"
MADE = {
    "examples/plain.tfm": "examples/plain-metrics",
    "bindings/python/tests/shown_boxes.txt": BOXES,
}


def outcome(root, path, script):
    """Returns where the file differs from the script's output, or None."""
    if script == BOXES and lacks("tex"):
        return lacks("tex")
    ran = finished([sys.executable, "-B", f"{root}/{script}"])
    if ran.returncode == 0 and ran.stdout == content(f"{root}/{path}"):
        return None
    return f"{script} prints another file, status {ran.returncode}"


def cases(programs, root):
    """The files, by their paths."""
    for path, script in MADE.items():
        yield path, partial(outcome, root, path, script)
