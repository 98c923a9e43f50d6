"""Random scripts with like processes, which are declared by one line."""
import random

from explored.block_reader import block_program_of

KINDS = ["alarm", "interrupt", "interrupt,alarm"]


class Maker:
    """Lines of the calls of like processes, at devices of which there are as many as of these."""

    def __init__(self, dice, count):
        self.dice, self.count = dice, count

    def one(self, name):
        """One of the devices."""
        word = self.dice.choice(["me", "me", "next", "next", "prev", "0", str(self.count - 1)])
        return f"{name}.{word}"

    def call(self):
        made = {"acquire": f"acquire {self.one('s')}", "try": f"try {self.one('s')}", "release": f"release {self.one('s')} 1",
                "write": f"write {self.one('p')} 61", "read": "read p.me 1", "wakeup": f"wakeup {self.one('r')} 1",
                "sleep": "sleep r.me 0", "note": f"note {self.one('w')} {self.dice.choice(KINDS)}", "drain": "drain",
                "meet": f"rendezvous {self.dice.choice(['me', 'next', 'prev', '0'])} {self.dice.choice(['me', '7'])}"}
        return made[self.dice.choice([*4 * ["acquire", "write", "read"], *2 * ["release", "meet", "wakeup"], *made])]

    def lines(self):
        """A few calls, one of them perhaps with an `on`, whose label is one of these words."""
        lines = [self.call() for _ in range(self.dice.choice([1, 2, 2, 3]))]
        waits = [at for at, line in enumerate(lines) if line.split(" ")[0] in ("acquire", "read", "write", "sleep", "rendezvous")]
        if waits and self.dice.random() < 0.3:
            label = self.dice.choice(["next", "me", "over"])
            lines.insert(self.dice.choice(waits) + 1, f"on interrupted {label}")
            lines.append(f"{label}:")
        elif self.dice.random() < 0.2:
            lines = ["repeat 2", *lines, "end"]
        return lines


def random_alike(seed):
    """The random script with this seed, of which one line declares like processes; and its program."""
    dice = random.Random(f"alike {seed}")
    while True:
        count, others = dice.choice([2, 2, 3]), dice.choice([0, 0, 1])
        maker = Maker(dice, count)
        lines = [f"process w {count}", *maker.lines()]
        if others:
            other = [line.replace(".me", ".0").replace(".next", ".1").replace(".prev", ".0") for line in maker.lines()]
            plain = [line for line in other if line.split(" ")[0] in ("acquire", "release", "write", "drain", "wakeup", "note")]
            boss = ["process boss", *plain]
            lines = boss + lines if dice.random() < 0.5 else lines + boss
        text = " ".join(lines)
        devices = [f"space {count + others}"] if "rendezvous" in text else []
        devices += [f"sema s.{number} {dice.choice([0, 1, 1, 2])} {count + others}" for number in range(count) if " s." in text]
        devices += [f"pipe p.{number} {dice.choice([1, 1, 2])}" for number in range(count) if " p." in text]
        script = "".join(f"{line}\n" for line in [f"world {count + others} {count}", *devices, *lines])
        try:
            return script, block_program_of(script)
        except AssertionError:
            continue
