"""One run of `boxglue session`, for the programs beside this file."""
import subprocess
import sys

POINT = 65536
# So many commands go out before their answers are read. A pipe holds the answers to more: where it
# is full, the session waits, and reads no command.
MOST = 256


def scaled(points):
    """The scaled points of a dimension in an answer, as `12.5pt`: its decimals tell all of them
    apart."""
    return round(float(points.removesuffix("pt")) * POINT)


class Session:
    """A run of `boxglue session` with these metric files, each given as NAME=PATH."""

    def __init__(self, out, fonts):
        self.run = subprocess.Popen(
            ["boxglue", "session", out, *fonts],
            stdin=subprocess.PIPE,
            stdout=subprocess.PIPE,
            text=True,
        )

    def ask(self, *commands):
        """Gives commands. Returns the words of each answer, without its number."""
        return [
            it
            for at in range(0, len(commands), MOST)
            for it in self.ask_at_once(commands[at : at + MOST])
        ]

    def ask_at_once(self, commands):
        """Gives commands, and reads their answers then."""
        self.run.stdin.write("".join(f"{it}\n" for it in commands))
        self.run.stdin.flush()
        answers = [self.run.stdout.readline().split() for _ in commands]
        for command, answer in zip(commands, answers):
            # That of a bad line begins with `refused`, that of a refused command with its number.
            if not answer or "refused" in answer[:2]:
                sys.exit(f"{command}: {' '.join(answer)}")
        return [it[1:] for it in answers]

    def pack(self, register, opening, *items):
        """Packs items into a register; `opening` is as `vbox` or `hbox to 20pt`. Returns the width,
        the height and the depth of the box in scaled points."""
        *_, packed = self.ask(f"{opening} into {register}", *items, "end")
        return [scaled(it) for it in packed[1:4]]

    def end(self):
        """Ends the input. Prints the last answer, and returns the status."""
        print(self.run.communicate()[0], end="")
        return self.run.returncode
