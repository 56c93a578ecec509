"""Prints the metrics of files at a size as lines, as bindings/c does: font_metrics.py SIZE FILE
.."""
import sys

import boxglue


def measure(value):
    """A number, or "unfit"."""
    return "unfit" if value is None else str(value)


def lines_of(it):
    """The lines of the metrics of a font."""
    slant = it.slant * (1 << 20)
    others = " ".join(map(measure, (it.x_height, it.quad, it.extra_space)))
    yield f"size {it.size} {it.design_size} check {it.check_sum} slant {slant} space {it.space} {it.stretch} {it.shrink} {others}"
    for code, its in it.characters.items():
        yield f"glyph {code} {its.width} {its.height} {its.depth} {measure(its.italic)}"
    steps = {pair: f"kern {pair[0]} {pair[1]} {kern}" for pair, kern in it.kerns.items()}
    steps |= {pair: f"ligature {pair[0]} {pair[1]} {code}" for pair, code in it.ligatures.items()}
    yield from (steps[pair] for pair in it.steps)


def text_of(path, size):
    """What is printed of a file."""
    with open(path, "rb") as given:
        data = given.read()
    try:
        found = boxglue.metrics(data, size)
    except boxglue.Refused as why:
        return f"status 1\nrefused {why.number} {why.name} {why.cause or ''}".rstrip() + "\n"
    except ValueError:
        return "status 6\n"
    assert boxglue.metrics(data, size) is found, "the metrics were not kept"
    return "".join(f"{it}\n" for it in ("status 0", *lines_of(found)))


if __name__ == "__main__":
    for name in sys.argv[2:]:
        sys.stdout.write(text_of(name, int(sys.argv[1])))
