#!/usr/bin/env python3
"""Sets an article in pages, in one run of `boxglue session`: article.py OUT.dvi TFM < article.txt

Each line of the text is a paragraph, and goes to the end of a galley. Whenever the galley is as
high as a page, a page is cut off its top and shipped."""
import sys

from asking import Session, scaled

WIDTH, HEIGHT = 300, 150


def galley_height(session):
    """The height of the galley. The answer is `measured vbox W H D`, or `measured void`."""
    (answer,) = session.ask("measure 0")
    return scaled(answer[3]) if answer[1] == "vbox" else 0


def ship_pages(session, page, least):
    """Ships pages, numbered from the next of `page` on, while the galley has this height. Returns
    the number of the last one."""
    while galley_height(session) >= least:
        page += 1
        foot = [
            f"hbox to {WIDTH}pt",
            "glue 0pt plus 1fil",
            f"text {page}",
            "glue 0pt plus 1fil",
            "end",
        ]
        session.ask(
            f"vsplit 0 to {HEIGHT}pt into 1",
            f"vbox to {HEIGHT + 20}pt into 1",
            "box 1",
            "glue 0pt plus 1fil",
            *foot,
            "end",
            "ship 1",
        )
    return page


def main(out, metrics):
    session, page = Session(out, [f"cmtt10={metrics}"]), 0
    session.ask("font 0 cmtt10", "use 0", f"set hsize {WIDTH}pt", "set tolerance 10000")
    for paragraph in sys.stdin:
        session.ask(
            "vbox into 0", "unvbox 0", "par", f"text {paragraph.strip()}", "end", "glue 6pt", "end"
        )
        page = ship_pages(session, page, scaled(f"{HEIGHT}pt"))
    ship_pages(session, page, 1)
    return session.end()


if __name__ == "__main__":
    sys.exit(main(*sys.argv[1:]))
