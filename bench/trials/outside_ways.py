"""Another way to boxglue's answers than `typeset`: a session."""

import os
import select
import subprocess
import sys

from outside_work import Work, answers_in

# An answer that is not there after so many seconds waits for what the client does not give yet.
PATIENCE = 120


class SessionWork(Work):
    """Scripts are given to `boxglue session`, each line when the answer to the one before it was
    read."""

    def typeset(self, name, script, fonts):
        self.put(name + ".box", script)
        words, answers = [self.program, "session", name + ".ours.dvi", *fonts], []
        pipes = {"stdin": subprocess.PIPE, "stdout": subprocess.PIPE, "bufsize": 0}
        with subprocess.Popen(words, cwd=self.folder, **pipes) as session:
            for line in script.encode().splitlines(keepends=True):
                session.stdin.write(line)
                answers.append(one_line(session.stdout.fileno(), line))
            session.stdin.close()
            answers.append(session.stdout.read())
        return answers_in(b"".join(answers).decode())


def one_line(output, given):
    """The answer to a line, as the only one that waits."""
    text = b""
    while not text.endswith(b"\n"):
        if not select.select([output], [], [], PATIENCE)[0]:
            sys.exit("no answer after %d s to %r" % (PATIENCE, given))
        piece = os.read(output, 1 << 16)
        if not piece:
            sys.exit("the session ended after %r" % given)
        text += piece
    if text.count(b"\n") != 1:
        sys.exit("%d lines answer %r" % (text.count(b"\n"), given))
    return text
