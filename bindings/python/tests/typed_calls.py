"""Makes random documents by the typed calls of bindings/python and by their scripts, and compares
the replies and the files: typed_calls.py DOCUMENTS METRICS [batch LEAST].

A batch makes the documents in which the opening and the end of no list are refused, LEAST at least:
in others its lists are not those that the calls say."""
import sys
from fractions import Fraction

import boxglue

ORDERS = None, "fil", "fill", "filll"
LISTS = {"hbox", "vbox", "vtop", "par", "end"}
NUMBERS = "ship measure void unhbox unhcopy unvbox unvcopy lastbox use char penalty kern".split()


def stretch(amount, order):
    """A stretch or a shrink as a call takes it."""
    return (Fraction(int(amount), 65536), ORDERS[int(order)]) if int(order) else int(amount)


def glue(words):
    """Glue as a call takes it."""
    return boxglue.Glue(int(words[0]), stretch(*words[1:3]), stretch(*words[3:]))


def opened(calls, word, kind, size, register):
    """The list of a box that is opened."""
    words = {} if kind == "natural" else {kind: int(size)}
    return getattr(calls, word)(**words, into=None if register == "-" else int(register))


class Typed:
    """A job or a batch, and the lists that are open. What a call returns is kept."""

    def __init__(self, calls):
        self.calls, self.lists, self.given = calls, [], []

    def end(self):
        """Ends the innermost list; it is open if its end is refused."""
        self.lists[-1].end()
        return self.lists.pop()

    def make(self, line):
        """Makes the call of a line."""
        word, _, rest = line.partition(" ")
        calls, words = self.calls, rest.split()
        if word in ("text", "special"):
            return getattr(calls, word)(rest)
        if word in NUMBERS:
            return getattr(calls, word)(int(words[0]))
        if word in ("hbox", "vbox", "vtop", "par"):
            self.lists.append(calls.par() if word == "par" else opened(calls, word, *words))
            return None
        if word == "end":
            return self.end()
        if word == "font":
            return (
                calls.load(
                    words[1], slot=int(words[0]), at=None if words[2] == "-" else int(words[2])
                )
                and None
            )
        if word == "glue":
            return calls.glue(*glue(words))
        if word == "set":
            return calls.set(**{words[0]: glue(words[1:]) if words[2:] else int(words[1])})[0]
        if word == "rule":
            return calls.rule(*(None if it == "*" else int(it) for it in words))
        if word == "vsplit":
            return calls.vsplit(int(words[0]), to=int(words[1]), into=int(words[2]))
        if word == "count":
            return calls.count(*map(int, words))
        return getattr(calls, word)(int(words[0]), shift=int(words[1]))


def replies_of(job, calls):
    """The replies of calls that are made one by one."""
    typed = Typed(job)
    for line in calls:
        try:
            typed.given.append(typed.make(line))
        except boxglue.Refused as refused:
            typed.given.append(refused)
    return [it.reply if isinstance(it, boxglue.OpenList) else it for it in typed.given]


def replies_of_batch(job, calls):
    """The replies of calls in one batch."""
    try:
        with job.batch() as batch:
            typed = Typed(batch)
            for line in calls:
                typed.given.append(typed.make(line))
    except boxglue.Refused:
        pass
    replies = []
    for it in typed.given:
        try:
            replies.append(None if it is None else it.reply)
        except boxglue.Refused as refused:
            replies.append(refused)
    return replies


def can_be_said(ran):
    """Whether a batch makes the lists of a run."""
    return not any(it.command and it.command.split()[0] in LISTS for it in ran.refusals)


def is_unseen(reply, call, make):
    """Whether a call that returns no reply may have this one. A batch gives no handle for a
    font."""
    return isinstance(reply, boxglue.Ok) or make is replies_of_batch and call.startswith("font ")


def difference(ran, calls, fonts, make):
    """What differs between the run of a script and its calls, or None."""
    with boxglue.Job(fonts) as job:
        replies = [*make(job, calls), job.finish().replies[0]]
        dvi = job.take()
    for number, (found, wanted, call) in enumerate(
        zip(replies, ran.replies, [*calls, "finish"]), 1
    ):
        if found != wanted and not (found is None and is_unseen(wanted, call, make)):
            return f"line {number}, {call!r}: {found!r}, and by the script {wanted!r}"
    return None if dvi == ran.dvi and len(replies) == len(ran.replies) else "the files differ"


def main(path, metrics, make=replies_of, least=0):
    """Compares the documents."""
    with open(path, "rb") as given, open(metrics, "rb") as font:
        data, fonts = given.read(), {"cmr10": font.read()}
    at, documents, said = 0, 0, 0
    while at < len(data):
        line = data.index(b"\n", at)
        first = line + 1 + int(data[at:line].split()[1])
        end = data.find(b"\ndocument ", first) + 1 or len(data)
        calls = data[first:end].decode("ascii").splitlines()
        ran = boxglue.run(data[line + 1 : first], fonts)
        if make is replies_of or can_be_said(ran):
            said += 1
            wrong = difference(ran, calls, fonts, make)
            if wrong:
                return f"document {documents}: {wrong}"
        at, documents = end, documents + 1
    print(f"{documents} documents")
    return None if said >= least else f"a batch can say {said} documents"


if __name__ == "__main__":
    sys.exit(main(*sys.argv[1:3], *((replies_of_batch, int(sys.argv[4])) if sys.argv[3:] else ())))
