"""What a scene begins with: its kernel, its objects, and processes with roles at them."""

# The kinds of objects, each with how often a scene has one.
KINDS_OF_OBJECTS = {"pipe": 7, "stream": 6, "sema": 7, "space": 5, "queue": 8, "share": 1, "family": 4, "plain": 3, "clock": 2}
ROLES = ["plain", "reader", "writer", "holder", "guest", "sharer", "sender", "receiver", "reader back", "writer back"]


class Opening:
    """Some objects, the lines that make them and those that make processes at them, and how large a kernel they need."""

    def __init__(self, dice):
        self.dice, self.made, self.forks, self.procs, self.rendez, self.counts = dice, [], [], 1, 0, {}
        kinds = dice.choices([*KINDS_OF_OBJECTS], [*KINDS_OF_OBJECTS.values()], k=dice.choice([1, 1, 2, 2, 3]))
        for kind in kinds + ["clock", "plain"][:dice.choice([0, 1, 1, 2, 2])]:
            getattr(self, f"add_{kind}")()

    def lines(self):
        """All lines, the kernel's first."""
        dice = self.dice
        procs, rendez = self.procs + dice.choice([0, 1, 1, 3]), self.rendez + dice.choice([1, 1, 2])
        if dice.random() < 0.06:
            procs, rendez = max(1, procs - 2), max(1, rendez - 3)
        dice.shuffle(self.forks)
        if dice.random() < 0.4:
            self.forks = self.by_few()
        first = f"plan rendez {rendez} processes {procs}" if dice.random() < 0.05 else f"kernel {procs} {rendez}"
        return [first, *self.made, *self.forks]

    def by_few(self):
        """The same where a few processes get most of the roles."""
        few = self.dice.choice([1, 2, 2, 3])
        forks, gets = self.forks[:few], []
        for fork in self.forks[few:]:
            verb, _, role = fork.partition(" fork ")
            is_got = verb == "0" and "writers" not in role and self.dice.random() < 0.8
            (gets if is_got else forks).append(f"gets {role}" if is_got else fork)
        return forks + gets

    def add(self, kind, line, rendez):
        """An object: its number among those of its kind."""
        self.made.append(line)
        self.rendez += rendez
        self.counts[kind] = self.counts.get(kind, 0) + 1
        return self.counts[kind]

    def fork(self, role, number=1, back="", count=1):
        """Processes in a role, now and then the first of a note group."""
        which = f" {number}" if number > 1 or self.dice.random() < 0.1 else ""
        apart = 0 if role == "sharer" else 0.15
        for _ in range(count):
            verb = "rfork proc,noteg" if self.dice.random() < apart else "fork"
            self.forks.append(f"0 {verb} {role}{which}{back}")
        self.procs += count

    def add_pipe(self, kind="pipe"):
        dice = self.dice
        writers, limit = dice.choice([1, 1, 2, 3]), dice.choice([1, 2, 2, 3, 4])
        number = self.add("pipe", f"{kind} {limit} {writers}", 2 + 2 * writers)
        self.fork("reader", number)
        if dice.random() < 0.15:
            self.fork("writers", number)
            self.procs += writers - 1
        else:
            self.fork("writer", number, count=writers)
        if dice.random() < 0.15:
            self.fork("reader", number, " back")
            self.fork("writer", number, " back")

    def add_stream(self):
        self.add_pipe("stream")

    def add_share(self):
        count, number = self.dice.choice([2, 3]), self.add("pipe", "pipe 2 1", 4)
        self.fork("writer", number)
        self.fork("sharer", self.add("share", f"share {count} {number}", count), count=count)

    def sizes(self, counts):
        """How many processes come to an object first, and how many seats it has: now and then one more."""
        count = self.dice.choice(counts)
        return count, count + self.dice.choice([0, 0, 1])

    def add_sema(self):
        count, seats = self.sizes([2, 3, 3, 4])
        self.fork("holder", self.add("sema", f"sema {self.dice.choice([0, 0, 1, 2])} {seats}", seats), count=count)

    def add_space(self):
        count, seats = self.sizes([2, 3, 3])
        number = self.add("space", f"space {seats}", seats)
        self.fork("guest", number, count=count)
        if self.dice.random() < 0.2:
            self.fork("guest", self.add("space", f"new_group {number}", seats), count=count)

    def add_queue(self):
        count = self.dice.choice([2, 3, 3, 4, 4])
        handles = count + self.dice.choice([0, 0, 1, 1, 2])
        number = self.add("queue", f"queue {self.dice.choice([1, 1, 2, 2, 3])} {handles}", handles)
        senders = self.dice.randint(1, count - 1)
        self.fork("sender", number, count=senders)
        self.fork("receiver", number, count=count - senders)

    def add_family(self):
        """A guest alone in a space, and room for its children and for spaces of theirs."""
        count = self.dice.choice([2, 3])
        self.fork("guest", self.add("space", f"space {count}", count))
        self.rendez += count * self.dice.choice([1, 2, 3])
        self.procs += self.dice.choice([1, 2, 3])

    def add_plain(self):
        self.fork("plain", count=self.dice.choice([1, 2, 3]))
        self.rendez += 1

    def add_clock(self):
        self.made.append(f"clock {self.dice.choice([9, 9, 9, 4])}")
