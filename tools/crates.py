"""The crates of the repository, as crates.txt has them."""


def libraries(root):
    """The libraries that each crate of the repository names."""
    with open(f"{root}/crates.txt", encoding="ascii") as it:
        lines = [line.partition("#")[0].partition(":") for line in it]
    return {head.split()[0]: below.split() for head, _, below in lines if head.strip()}


def crates_below(uses, names):
    """Crates of the repository and those that they are built of: each after those that it uses."""
    found = []

    def add(crate):
        if crate in uses and crate not in found:
            for below in uses[crate]:
                add(below)
            found.append(crate)

    for name in names:
        add(name)
    return found
