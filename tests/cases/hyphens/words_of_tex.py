"""Compares the places of words by hyphen.tex: those of the package, and those that \\showhyphens of
plain TeX prints. Prints what differs, and how many words agree."""
import os
import re
import subprocess
import sys
import tempfile

ROOT = os.path.dirname(os.path.dirname(os.path.dirname(os.path.dirname(os.path.abspath(__file__)))))
sys.path.insert(1, f"{ROOT}/tests")

from boxglue import hyphenation  # noqa: E402 (after the path)
from models.hyphen_texts import FREQUENT, WORDS  # noqa: E402

# The exceptions of hyphen.tex, and words with edges of the rule.
MORE = "associate associates declination obligatory philanthropic present presents project projects reciprocity recognizance reformation retribution table".split()
LONG = [
    "supercalifragilisticexpialidocious",
    "a" * 70,
    "pneumonoultramicroscopicsilicovolcanoconiosis" * 2,
]
LIMIT = 120


def words_by_tex(words):
    """Each word with its hyphens, from TeX's log. A word stands on a page of its own, so that none
    is lost."""
    lines = "\n".join(f"\\showhyphens{{{it}}}" for it in words)
    with tempfile.TemporaryDirectory(prefix="boxglue-words-") as room:
        with open(f"{room}/words.tex", "w", encoding="ascii") as it:
            it.write(f"{lines}\n\\end\n")
        subprocess.run(
            ["tex", "-interaction=batchmode", "words.tex"],
            cwd=room,
            env={**os.environ, "max_print_line": "1000"},
            stdout=subprocess.DEVNULL,
            timeout=LIMIT,
        )
        with open(f"{room}/words.log", encoding="latin-1") as it:
            return re.findall(r"\\tenrm (\S+)", it.read())


def main():
    """Compares all words."""
    path = subprocess.run(
        ["kpsewhich", "hyphen.tex"], stdout=subprocess.PIPE, text=True, timeout=LIMIT, check=True
    ).stdout.strip()
    patterns, words = hyphenation.Patterns.read(path), [*FREQUENT, *WORDS, *MORE, *LONG]
    wrong = []
    for word, said in zip(words, words_by_tex(words)):
        ends = [0, *patterns(word[: hyphenation.MOST_LETTERS]), len(word)]
        found = "-".join(word[a:b] for a, b in zip(ends, ends[1:]))
        if found != said:
            wrong.append(f"{found}, and TeX has {said}")
    print("".join(f"{it}\n" for it in wrong), end="")
    print(f"{len(words)} words, {len(wrong)} differ")


if __name__ == "__main__":
    main()
