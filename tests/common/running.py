"""Commands that are run to their end."""
import subprocess

# Many times as long as any of them takes, on a machine with much other work: it only ends what
# stands still.
LIMIT = 600


def finished(words, **how):
    """How a command ended: its status, and both outputs as bytes, or with `text` as texts. Its
    input is empty, unless another is given."""
    streams = {} if "stdout" in how else {"capture_output": True}
    if "input" not in how and "stdin" not in how:
        streams["stdin"] = subprocess.DEVNULL
    return subprocess.run(words, **{"timeout": LIMIT, **streams, **how})
