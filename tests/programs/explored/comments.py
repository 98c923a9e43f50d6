"""Scripts with comments and empty lines, which say nothing, and where their lines then stand."""
import random

NOTHING = ["", "#", "# world 1 1", "  # drain", "#process 0", "# \xe9#", "   #"]
AFTER = ["#", " # it waits", "   #", "# end # end", " #\t"]


def commented(script):
    """A script with comments, always the same for one script; none after a space, which it would take along. Also of each line its number there, and that of the line after the last."""
    dice = random.Random(script)
    out, numbers, some = [], [], dice.choice([0, 0.2, 0.5])
    for line in script.split("\n")[:-1]:
        while dice.random() < some / 2:
            out.append(dice.choice(NOTHING))
        out.append(line + (dice.choice(AFTER) if dice.random() < some and "#" not in line and not line.endswith(" ") else ""))
        numbers.append(len(out))
    while dice.random() < some / 2:
        out.append(dice.choice(NOTHING))
    return "".join(f"{line}\n" for line in out) + script.split("\n")[-1], [*numbers, len(out) + 1]


def said_by(line):
    """What a line says without its comment."""
    said, comment, _ = line.partition("#")
    return said.rstrip(" ") if comment else line


def lines_said(script):
    """The lines of a script that say something, as their words."""
    return [said.split(" ") for said in map(said_by, script.split("\n")) if said]
