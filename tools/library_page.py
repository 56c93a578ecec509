#!/usr/bin/env python3
"""Writes docs/boxglue.3, the manual page of the library, from the comments of include/boxglue.h.

    tools/library_page.py           writes the page
    tools/library_page.py --check   exits with status 1 if the page is not what the header gives
"""
import os
import re
import sys

ROOT = os.path.dirname(os.path.dirname(os.path.abspath(__file__)))
HEADER, PAGE, PROGRAM_PAGE = "include/boxglue.h", "docs/boxglue.3", "docs/boxglue.1"
COMMENT = r"/\*\*((?:(?!\*/).)*)\*/"
NAMES = r"\b(boxglue_[a-z_0-9]+)\b(?!\.h)"
HEAD = """.SH NAME
boxglue \\- typeset scripts of boxes and glue, and read DVI files
.SH LIBRARY
boxglue
.RI ( \\-lboxglue )
.SH SYNOPSIS
.nf
.B #include <boxglue.h>
.PP
"""
TAIL = """.SH FILES
.I boxglue_typed.h
has the commands of scripts as inline functions.
.I boxglue.pc
tells
.BR pkg-config (1)
how to compile and link a program:
.PP
.nf
cc program.c $(pkg\\-config \\-\\-cflags \\-\\-libs boxglue)
.fi
.SH EXAMPLES
This program runs a script of one rule, and prints the answers and the size of the DVI file:
.PP
.nf
#include <boxglue.h>
#include <stdio.h>

static const char script[] = "hbox into 0\\en"
                             "rule 1pt 1pt 0pt\\en"
                             "end\\en"
                             "ship 0\\en";
static uint8_t answers[4096], dvi[4096];

int main(void)
{
    struct boxglue_lengths lengths;
    uint32_t status = boxglue_run(script, sizeof script \\- 1, NULL, 0,
                                  answers, sizeof answers,
                                  dvi, sizeof dvi, &lengths);

    if (status != BOXGLUE_ACCEPTED) {
        fprintf(stderr, "%s\\en", boxglue_status_text(status));
        return 1;
    }
    fwrite(answers, 1, lengths.answers, stdout);
    printf("%lu bytes\\en", (unsigned long)lengths.dvi);
    return 0;
}
.fi
.SH SEE ALSO
.BR boxglue (1)
.PP
In the sources, docs/LIBRARY.md has complete programs in C, Python and Rust, and docs/REFUSALS.md explains each refusal.
"""


def read(path):
    """Return the text of a file of the tree."""
    with open(f"{ROOT}/{path}", encoding="utf-8") as it:
        return it.read()


def content(comment):
    """Return a comment of the header without the marks of its lines."""
    return "\n".join(re.sub(r"^\s*\* ?", "", line).rstrip() for line in comment.strip().split("\n"))


def escaped(text):
    """Return a text as roff shows it unchanged: one line, with its names of functions in bold. No
    hyphen divides the name of a number."""
    text = " ".join(text.split()).replace("\\", "\\e").replace("-", "\\-")
    text = re.sub(r"\*\*(.*?)\*\*", r"\\fB\1\\fP", text)
    text = re.sub(r"(?<![\w*])\*(\w+)\*", r"\\fI\1\\fP", text)
    text = re.sub(NAMES, r"\\fB\1\\fP", text)
    text = re.sub(r"(?<![\w%])(BOXGLUE_\w)", r"\\%\1", text)
    return "\\&" + text if text.startswith((".", "'")) else text


def paragraphs(text):
    """Return a text of the header as roff: paragraphs, and lists whose items begin with a
    hyphen."""
    made = []
    for part in re.split(r"\n\s*\n", text.strip()):
        items = re.split(r"^- ", part, flags=re.M)
        made += [f".PP\n{escaped(items[0])}\n"] if items[0].strip() else []
        made += [f".IP \\(bu 2\n{escaped(it)}\n" for it in items[1:]]
    return "".join(made)


def parts(comment):
    """Return the brief sentence of a comment, what follows it, its parameters, and what it says of
    the result."""
    text = content(comment)
    text, *tags = re.split(r"^@(?=param|return)", text, flags=re.M)
    brief, _, more = (
        text.partition("@brief ")[2].partition("\n\n") if "@brief" in text else (text, "", "")
    )
    parameters = [
        it.removeprefix("param ").split("  ", 1) for it in tags if it.startswith("param ")
    ]
    result = next((it.removeprefix("return ") for it in tags if it.startswith("return ")), "")
    return brief.strip(), more.strip(), parameters, result


def sentence(text):
    """Return a text that ends like a sentence."""
    return escaped(text.strip().rstrip(".") + ".")


def function(comment, name):
    """Return the section of a function."""
    brief, more, parameters, result = parts(comment)
    made = [f".SS {name}()\n{escaped(brief)}\n", paragraphs(more) if more else ""]
    made += [f".TP\n.I {names.strip()}\n{sentence(what)}\n" for names, what in parameters]
    made += [f".TP\n.B Returns\n{sentence(result)}\n"] if result else []
    return "".join(made)


def prototype(result, name, words):
    """Return the declaration of a function, with the breaks of its lines in the header."""
    first, *others = [it.strip() for it in f"{result} {name}({words});".split("\n")]
    return "".join(f'.B "{it}"\n' for it in [first, *(f"    {other}" for other in others)])


def members(body):
    """Return the members of a struct or an enum as tagged paragraphs; several that share a comment
    share a paragraph."""
    found = re.findall(rf"(?:{COMMENT}\s*)?([^;,/]*?)(?:[;,]|\s*$)", body, re.S)
    made = []
    for comment, declared in found:
        if declared.strip():
            made.append(
                f".TP\n.B {escaped(declared)}\n{escaped(content(comment)) if comment else '.PD 0' + chr(10) + '.PD'}\n"
            )
    return "".join(made)


def kind(comment, name, body):
    """Return the section of a struct or an enum."""
    brief, more, _, _ = parts(comment)
    return f".SS {name}\n{escaped(brief)}\n" + (paragraphs(more) if more else "") + members(body)


def page():
    """Return the text of the page."""
    header = read(HEADER)
    title = re.search(r'^\.TH BOXGLUE 1 (\S+) (".*?")', read(PROGRAM_PAGE), re.M)
    about = parts(re.search(COMMENT, header, re.S)[1].replace("@file boxglue.h", ""))
    functions = re.findall(rf"{COMMENT}\n(uint32_t|void) (boxglue_\w+)\(([^;]*)\);", header, re.S)
    kinds = re.findall(rf"{COMMENT}\n((?:struct|enum) boxglue_\w+) \{{(.*?)\n?\}};", header, re.S)
    shown = "".join(prototype(*it[1:]) for it in functions)
    made = [
        f'.\\" Written by tools/library_page.py\n.TH BOXGLUE 3 {title[1]} {title[2]} "Library Functions Manual"\n.ad l\n',
        HEAD,
        shown,
        ".fi\n",
    ]
    made += [
        ".SH DESCRIPTION\n",
        paragraphs(about[1]),
        ".SH FUNCTIONS\n",
        *(function(it[0], it[2]) for it in functions),
    ]
    made += [".SH TYPES\n", *(kind(*it) for it in kinds), TAIL]
    return "".join(made)


def main():
    """Write the page, or compare it."""
    made = page()
    if sys.argv[1:] == ["--check"]:
        return 0 if os.path.exists(f"{ROOT}/{PAGE}") and read(PAGE) == made else 1
    with open(f"{ROOT}/{PAGE}", "w", encoding="utf-8") as it:
        it.write(made)
    return 0


if __name__ == "__main__":
    sys.exit(main())
