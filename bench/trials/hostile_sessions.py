"""Sessions among the hostile inputs: how the other side of the pipes behaves, and what has to come
of it.

It writes pieces that are cut anywhere, waits for answers or for nothing, reads late or no longer,
ends in a line, is reset, sends after the end, or sends a signal. What a session has to answer is
what `typeset` answers to the same text in which each bad line is empty, with the refusals of these
lines in their places."""

import fcntl
import os
import re
import select
import signal
import socket
import struct
import termios
import time

from common.files import content
from common.outcome import require
from hostile_answers import BAD_SCRIPT, Ran

UNREAD = b"boxglue: cannot read -\n"
# Outputs that cannot be written: `typeset` says the same of them.
ODD_OUTS = ("/dev/full", "folder", "absent/out.dvi", "loop")
PAGE = b"hbox into 0\nrule 1pt 1pt 0pt\nend\nship 0\n"
WHOLE = (*"pieces pieces pieces lines lines".split(), "late reader", "early end", "after the end")
WAYS = WHOLE + ("closed reader", "full output", "closed streams", "reset", "signal")
SIGNALS = (signal.SIGTERM, signal.SIGKILL, signal.SIGHUP, signal.SIGINT)
SMALL_PIPE, MOST_WAITS = 4096, 60
# A terminal keeps so many bytes that were not read; these are its own.
TERMINAL, END_OF_INPUT = 3500, b"\x04"


class Talk:
    """What the other side does: its way, its pieces with a pause before some of them, and numbers
    and flags that the way takes."""

    def __init__(self, chance, text):
        self.way, is_typed = chance.pick(WAYS), re.fullmatch(rb"[ -~\n]*", text)
        if self.way == "after the end" and (len(text) > TERMINAL or not is_typed):
            self.way = "pieces"
        if self.way == "early end":
            text = text[: chance.below(len(text) + 1)]
        self.pieces = line_pieces(chance, text) if self.way == "lines" else any_pieces(chance, text)
        self.pauses = [chance.below(3) + 1 if chance.one_in(8) else 0 for _ in self.pieces]
        self.stops, self.small = chance.one_in(6), chance.one_in(3)
        self.never_waits = chance.one_in(4), chance.one_in(4)
        self.at, self.number = chance.below(len(self.pieces) + 1), chance.pick(SIGNALS)
        self.closed = [it for it in range(3) if chance.one_in(2)] or [chance.below(3)]
        self.text = text

    def lines(self, count):
        """The whole lines of the first pieces."""
        text = b"".join(self.pieces[:count])
        return text[: text.rfind(b"\n") + 1]


def any_pieces(chance, text):
    """A text in pieces, which are cut anywhere, some at a line feed or one byte beside it."""
    count = chance.pick((1, 2, 3, 7, 30, len(text) if len(text) <= 300 else 100))
    feeds = [at for at, byte in enumerate(text) if byte == 10] or [0]
    places = {
        chance.pick(feeds) + chance.below(3) if chance.one_in(3) else chance.below(len(text) + 1)
        for _ in range(count - 1)
    }
    places = [0, *sorted(it for it in places if 0 < it < len(text)), len(text)]
    return [text[first:last] for first, last in zip(places, places[1:])]


def line_pieces(chance, text):
    """A text in pieces of whole lines, so many that they can be waited for one by one."""
    lines = re.findall(rb"[^\n]*\n|[^\n]+", text)
    most = 1 + chance.below(3) + len(lines) // MOST_WAITS
    return [b"".join(lines[at : at + most]) for at in range(0, len(lines), most)]


class Wanted:
    """What has to come of a text: the answers by their lines, the end, the messages, the file and
    the status, by runs of `typeset` without the bad lines."""

    def __init__(self, room, it, text, out=None):
        out = out or it.out
        lines, bad, words = text.split(b"\n"), {}, ["typeset", out, *it.words[2:]]
        while True:
            room.fill(it.files)
            ran = room.run(words, b"\n".join(lines), out)
            found = BAD_SCRIPT.fullmatch(ran.output.decode("latin-1"))
            if not found:
                break
            bad[int(found[1])], lines[int(found[1]) - 1] = ran.output, b""
        head, found, rest = ran.output.rpartition(b"end: ")
        self.end = found + rest
        answers = {int(line.partition(b":")[0]): line for line in head.splitlines(keepends=True)}
        self.lines, self.bad = sorted({**answers, **bad}.items()), bad
        self.errors, self.made = ran.errors, ran.made
        self.status = int(bool(bad) or ran.status != 0)

    def first(self, lines):
        """The answers to the lines of a beginning of the text."""
        count = lines.count(b"\n")
        return b"".join(answer for number, answer in self.lines if number <= count)

    def whole(self):
        return b"".join(answer for _, answer in self.lines) + self.end

    def came(self):
        return "bad lines" if self.bad else "refused" if self.status else "accepted"

    def pages(self):
        """The bytes of the pages: the file without what follows them, where the end was
        accepted."""
        made = self.made or b""
        is_whole = made and b"refused" not in self.end
        return made[: int.from_bytes(made.rstrip(b"\xdf")[-5:-1], "big")] if is_whole else made


class Partner:
    """The other side of a session: where it writes and where it reads, each None from when it does
    so no longer, what it heard, and the peak of the session's memory in bytes before its input
    ended."""

    def __init__(self, writes, reads):
        self.pid, self.writes, self.reads, self.heard, self.memory = None, writes, reads, b"", 0

    def measure(self):
        found = re.search(rb"VmHWM:\s*(\d+) kB", content(f"/proc/{self.pid}/status"))
        self.memory = int(found[1]) * 1024 if found else 0

    def close(self, *names):
        for name in names:
            at = getattr(self, name)
            if at is not None:
                os.close(at)
                setattr(self, name, None)

    def read(self):
        """Reads what is there, after a wait. False at the end."""
        found = self.reads is not None and os.read(self.reads, 1 << 16)
        self.heard += found or b""
        return bool(found)

    def write_some(self, data):
        """Writes what there is room for. Returns the rest; nothing where nobody reads it."""
        try:
            return data[os.write(self.writes, data[: 1 << 16]) :]
        except BlockingIOError:
            return data
        except OSError:
            return b""

    def write(self, data, is_late=False):
        """Writes all of a piece, and reads where there is no room for it; late only after a
        while."""
        while data:
            rest = self.write_some(data)
            if rest == data:
                time.sleep(0.003 * is_late)
                is_late = False
                self.wait()
            data = rest

    def wait(self):
        """Waits until it can write, or can read, which it then does."""
        poll = select.poll()
        poll.register(self.writes, select.POLLOUT)
        if self.reads is not None:
            poll.register(self.reads, select.POLLIN)
        if any(at == self.reads for at, _ in poll.poll()):
            self.read()

    def hear(self, length):
        """Reads until it heard so much, or the end."""
        while len(self.heard) < length and self.read():
            pass

    def hear_all(self):
        while self.read():
            pass


def pipe(talk, side):
    """A pipe whose end at the session, which is read for the side 0, may be small or never wait;
    the other end never waits for room. Returns the session's end and the other."""
    reads, writes = os.pipe()
    if talk.small:
        fcntl.fcntl(writes, fcntl.F_SETPIPE_SZ, SMALL_PIPE)
    its, ours = (writes, reads) if side else (reads, writes)
    os.set_blocking(its, not talk.never_waits[side])
    if not side:
        os.set_blocking(ours, False)
    return its, ours


def terminal():
    """A terminal that changes nothing, and has a byte for the end. Returns the session's end and
    the other."""
    ours, its = os.openpty()
    os.set_blocking(ours, False)
    modes = termios.tcgetattr(its)
    modes[0], modes[1], modes[3] = 0, 0, termios.ICANON
    modes[6] = [END_OF_INPUT if at == termios.VEOF else b"\0" for at in range(len(modes[6]))]
    termios.tcsetattr(its, termios.TCSANOW, modes)
    return its, ours


def connection():
    """A connection. Returns the session's end and the other."""
    with socket.create_server(("127.0.0.1", 0)) as server:
        ours = socket.create_connection(server.getsockname())
        its, _ = server.accept()
    ours.setblocking(False)
    # A close resets it.
    ours.setsockopt(socket.SOL_SOCKET, socket.SO_LINGER, struct.pack("ii", 1, 0))
    return its.detach(), ours.detach()


def start(room, it, talk):
    """Starts a session. Returns its other side."""
    inputs = {"after the end": terminal, "reset": connection}
    given, writes = inputs.get(talk.way, lambda: pipe(talk, 0))()
    is_full = talk.way == "full output"
    said, reads = (os.open("/dev/full", os.O_WRONLY), None) if is_full else pipe(talk, 1)
    errors = os.open(room.streams + "/errors", os.O_RDWR | os.O_CREAT | os.O_TRUNC, 0o600)
    partner, its = Partner(writes, reads), (given, said, errors)
    actions = [(os.POSIX_SPAWN_DUP2, stream, number) for number, stream in enumerate(its)]
    if talk.way == "closed streams":
        actions += [(os.POSIX_SPAWN_CLOSE, number) for number in talk.closed]
    partner.pid = room.spawn([room.program, *it.words], actions)
    for stream in its:
        os.close(stream)
    return partner


def send(partner, talk, wanted):
    """Sends the pieces, as far as the way says."""
    for at, (piece, pause) in enumerate(zip(talk.pieces, talk.pauses)):
        if talk.way in ("signal", "reset", "closed reader") and at == talk.at:
            break
        if pause and talk.stops:
            os.kill(partner.pid, signal.SIGSTOP)
            piece = partner.write_some(piece)
        time.sleep(pause / 1000)
        os.kill(partner.pid, signal.SIGCONT)
        partner.write(piece, talk.way == "late reader")
        if talk.way == "lines":
            hear_lines(partner, talk, wanted, at + 1)


def hear_lines(partner, talk, wanted, count):
    """Hears the answers to the whole lines of so many pieces, and no more."""
    first = wanted.first(talk.lines(count))
    partner.hear(len(first))
    said = f"after {count} pieces it answers {partner.heard[-200:]!r}, and not {first[-200:]!r}"
    require(partner.heard == first, said)


def end_of(partner, talk, wanted):
    """Ends the talk, as the way says."""
    if talk.way == "after the end":
        partner.write(END_OF_INPUT * (1 if talk.text[-1:] in (b"", b"\n") else 2) + PAGE)
    answered = len(wanted.first(talk.lines(talk.at)))
    if talk.way in ("signal", "reset"):
        partner.hear(answered)
    if talk.way == "signal":
        for piece in talk.pieces[talk.at :][:2]:
            partner.write(piece)
        os.kill(partner.pid, talk.number)
    if talk.way == "closed reader":
        partner.hear(min(talk.at, answered))
        partner.close("reads")
        for piece in talk.pieces[talk.at :]:
            partner.write(piece)
    partner.measure()
    if talk.way != "after the end":
        partner.close("writes")
    partner.hear_all()


def made_file(out):
    """The bytes of a file, or None where it is none."""
    return content(out) if out and os.path.isfile(out) else None


def talk_with(room, it):
    """Has the talk of an input. Returns the run, and what was wanted."""
    talk = it.talk
    wanted = Wanted(room, it, talk.text)
    room.fill(it.files)
    partner = start(room, it, talk)
    try:
        send(partner, talk, wanted)
        end_of(partner, talk, wanted)
    finally:
        partner.close("reads", "writes")
        status, seconds, _ = room.end(partner.pid)
    errors, made = content(room.streams + "/errors"), made_file(it.out)
    return Ran(status, partner.heard, errors, made, seconds, partner.memory), wanted


def require_parts(ran, status, output, errors, made):
    """The parts of a run are these."""
    names = "the status is", "the answers are", "standard error is"
    for name, found, its in zip(names, ran, (status, output, errors)):
        shown = [it if isinstance(it, int) else it[-200:] for it in (found, its)]
        said = f"{name} {shown[0]!r} and not {shown[1]!r}, {ran.errors[-200:]!r}"
        require(found == its, said)
    sizes = tuple(it and len(it) for it in (ran.made, made))
    require(ran.made == made, "the file has %s bytes and not %s" % sizes)


def check_signal(room, it, ran, wanted):
    """A session that a signal ends: whole pages up to the last one that was answered, and perhaps a
    beginning of what came after."""
    talk, made = it.talk, ran.made or b""
    answered = wanted.first(talk.lines(talk.at))
    require(ran.status == -talk.number, f"the status is {ran.status} after signal {talk.number}")
    is_right = ran.output.startswith(answered) and wanted.whole().startswith(ran.output)
    require(is_right, f"after a signal the answers are {ran.output[-200:]!r}")
    texts = talk.lines(talk.at), talk.lines(talk.at + 2)
    least, most = (Wanted(room, it, text).pages() for text in texts)
    sizes = len(made), len(least), len(most)
    is_right = made.startswith(least) and most.startswith(made)
    require(is_right, "after a signal the file has %d bytes, and not %d to %d" % sizes)


def check_closed(it, ran, wanted):
    """A session without some of its streams: without an input nothing is run, without an output the
    answers are lost."""
    closed = it.talk.closed
    errors = b"" if 2 in closed else UNREAD if 0 in closed else wanted.errors
    is_lost = 0 in closed or 1 in closed
    status, output = (1, b"") if is_lost else (wanted.status, wanted.whole())
    require_parts(ran, status, output, errors, None if 0 in closed else wanted.made)


def check_session(room, it):
    """Runs and checks a session. Returns the run and what came of it."""
    ran, wanted = talk_with(room, it)
    way = it.talk.way
    if way in WHOLE:
        require_parts(ran, wanted.status, wanted.whole(), wanted.errors, wanted.made)
    elif way == "closed streams":
        check_closed(it, ran, wanted)
    elif way == "signal":
        check_signal(room, it, ran, wanted)
    elif way == "reset":
        front = Wanted(room, it, it.talk.lines(it.talk.at))
        require_parts(ran, 1, front.whole()[: -len(front.end)], UNREAD, front.pages() or None)
    else:
        is_right = wanted.whole().startswith(ran.output)
        require(is_right, f"a reader that left heard {ran.output[-200:]!r}")
        require_parts(ran, 1, ran.output, wanted.errors, wanted.made)
    return ran, wanted.came()
