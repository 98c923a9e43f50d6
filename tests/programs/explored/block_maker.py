"""Random programs with loops, choices, jumps, and places that must not be reached."""
import random

from explored.blocks import ALL_ANSWERS, BlockProgram, Either, Loop, Repeat
from explored.maker import random_calls, random_locks

WORDS = ["wrong", "lost", "both"]
WAIT = ("read", "acquire", "rendezvous", "sleep", "write")
LABELS = [f"l{number}" for number in range(1000)]


def random_segment(dice, body, to_end):
    """Two places in a body, the first mostly before a call that may wait."""
    starts = [at for at, item in enumerate(body) if item[0].removesuffix("_within") in WAIT] if dice.random() < 0.8 else []
    start = dice.choice(starts or [*range(len(body))])
    return start, len(body) if dice.random() < to_end else dice.randint(start + 1, len(body))


def with_blocks(dice, body):
    """Some calls of a process in a loop, a choice or a repeat."""
    if not body:
        return body
    start, end = random_segment(dice, body, 0.5)
    inner, kind = body[start:end], dice.choice(["loop", "loop", "loop", "either", "either", "repeat", "none"])
    if len(inner) > 1 and dice.random() < 0.3:
        inner = with_blocks(dice, inner)
    if kind == "loop":
        block = Loop(inner)
    elif kind == "repeat":
        block = Repeat(dice.choice([1, 2, 2, 3]), inner)
    elif kind == "either":
        others = [[], [], body[end:end + 1], [("drain",)], [dice.choice(body)], [dice.choice(body), ("never", dice.choice(WORDS))]]
        ways = [inner, *(dice.choice(others) for _ in range(dice.choice([1, 1, 2])))]
        dice.shuffle(ways)
        block = Either(ways)
    else:
        return body
    return body[:start] + [block] + (with_blocks(dice, body[end:]) if dice.random() < 0.2 else body[end:])


class Jumps:
    """Adds lines `on` and `go` with their labels."""

    def __init__(self, dice, some):
        self.dice, self.some, self.labels = dice, some, iter(LABELS)

    def block(self, item, heads):
        """A block with them, and the labels that are to come after it."""
        if isinstance(item, Either):
            ways = [self.body(way, heads, True) for way in item.ways]
            return Either([way for way, _ in ways]), [label for _, labels in ways for label in labels]
        if isinstance(item, Repeat):
            body, labels = self.body(item.body, heads, True)
            return item._replace(body=body), labels
        names = [next(self.labels)] if self.dice.random() < 0.6 else []
        body, labels = self.body(item.body, heads + names, True)
        return Loop([*((f"{name}:",) for name in names), *body]), labels

    def body(self, body, heads, within):
        """The lines of a body with them, and the labels that are to come after the block that it is."""
        dice, lines, waiting, wrong = self.dice, [], [], []
        for item in body:
            if isinstance(item, (Loop, Repeat, Either)):
                item, labels = self.block(item, heads)
                lines.append(item)
                waiting += labels
            else:
                lines.append(item)
                if item[0] != "never":
                    for answer in [answer for answer, verbs in ALL_ANSWERS.items() if item[0] in verbs]:
                        lines += self.on(answer, heads, waiting, wrong)
                    if dice.random() < 0.05:
                        waiting.append(next(self.labels))
                        lines.append(("go", waiting[-1]))
            for label in [label for label in waiting if dice.random() < 0.3]:
                lines.append((f"{label}:",))
                waiting.remove(label)
        if wrong:
            past = next(self.labels)
            lines += [("go", past), *((f"{label}:",) for label in wrong), ("never", dice.choice(WORDS)), (f"{past}:",)]
        outside = [label for label in waiting if within and dice.random() < 0.5]
        lines += [(f"{label}:",) for label in waiting if label not in outside]
        return lines, outside

    def on(self, answer, heads, waiting, wrong):
        dice = self.dice
        if dice.random() > self.some:
            return []
        if heads and dice.random() < 0.35:
            return [("on", answer, dice.choice(heads))]
        label = next(self.labels)
        (wrong if dice.random() < 0.3 else waiting).append(label)
        return [("on", answer, label)]


def random_blocks(seed):
    """The random program with this seed that has blocks."""
    dice = random.Random(f"blocks {seed}")
    while True:
        base = random_locks(dice) if dice.random() < 0.2 else random_calls(dice, "devices", False, dice.random() < 0.25)
        rows = [[("try_read", *words[1:]) if words[0] == "read" and dice.random() < 0.2 else words for words in row]
                for row in base.calls]
        if sum(map(len, rows)) > 9:
            continue
        jumps, chosen = Jumps(dice, dice.choice([0, 0.3, 0.6])), dice.sample(range(len(rows)), dice.choice([1, 1, 2, 2]))
        bodies = [jumps.body(with_blocks(dice, row) if pid in chosen else row, [], False)[0] for pid, row in enumerate(rows)]
        try:
            return BlockProgram(base.own, base.devices, bodies)
        except AssertionError:
            continue
