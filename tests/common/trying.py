"""Runs what builds without proofs: `rt try`, which runs a crate or its tests too, and
tools/unproved.py."""
import subprocess

# A build takes a minute or two; a working machine never takes this long.
LIMIT = 1500


def run_tried(words, folder, given=b""):
    """Runs a command that builds. Returns its status, standard output and standard error. It is
    told to stop, as a kill would leave what it started."""
    pipes = dict.fromkeys(("stdin", "stdout", "stderr"), subprocess.PIPE)
    with subprocess.Popen(words, cwd=folder, **pipes) as started:
        try:
            output, errors = started.communicate(given, timeout=LIMIT)
        except subprocess.TimeoutExpired:
            started.terminate()
            output, errors = started.communicate()
            errors += f"{words[0]} was stopped after {LIMIT} seconds\n".encode()
        except BaseException:
            started.terminate()
            raise
    return started.returncode, output, errors


def rt_try(root, crate, words, given=b""):
    """Runs `rt try` in the folder of a crate. Returns its status, standard output and standard
    error."""
    return run_tried(["rt", "try", *words], f"{root}/crates/{crate}", given)
