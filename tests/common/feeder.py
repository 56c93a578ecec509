"""Writes its standard input to its standard output in pieces: `feeder.py lines|bytes|uneven`.

It is a process of its own, since a thread that writes many small pieces waits for the interpreter
at each of them while another part computes."""
import os
import sys
import time


def lines(data):
    """One line a piece."""
    return data.splitlines(True)


def single_bytes(data):
    """One byte a piece."""
    return (data[at : at + 1] for at in range(len(data)))


def uneven(data):
    """Pieces of 1 to 997 bytes, with time between them."""
    at, size = 0, 1
    while at < len(data):
        yield data[at : at + size]
        time.sleep(0.0005)
        at, size = at + size, size * 7 % 997 + 1


PIECES = {"lines": lines, "bytes": single_bytes, "uneven": uneven}


def main(how):
    """Writes the pieces. The program that reads them may end before the last."""
    try:
        for piece in PIECES[how](sys.stdin.buffer.read()):
            os.write(1, piece)
    except BrokenPipeError:
        pass


if __name__ == "__main__":
    main(sys.argv[1])
