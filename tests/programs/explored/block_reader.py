"""A script with blocks, comments, and like processes that are declared by one line."""
from explored.blocks import BlockProgram, Either, Loop, Repeat
from explored.comments import lines_said
from explored.program import NAMED, NAMES, place_of_name, with_seats

# The lines among calls in which `me`, `next` and `prev` are words as others.
NO_CALLS = ("on", "go", "never", "loop", "repeat", "either", "or", "end")
# Which word of a line is the first that is no number.
TEXTS = {"note": 1, "write": 1, "pipe": 1, "write_within": 3}


def with_numbers(words, numbers):
    """The words of a call of one of like processes."""
    if words[0] in NO_CALLS or words[0].endswith(":"):
        return words
    told = []
    for word in words[1:]:
        before, dot, last = word.rpartition(".")
        told.append(f"{before}{dot}{numbers[last]}" if last in numbers else word)
    return [words[0], *told]


def one_by_one(lines):
    """These lines with each process on a line of its own: `process phil 4` stands for four, with the same lines."""
    starts = [at for at, words in enumerate(lines) if words[0] == "process"] + [len(lines)]
    out = lines[:starts[0]]
    for start, end in zip(starts, starts[1:]):
        _, name, *count = lines[start]
        if not count:
            out += lines[start:end]
        for number in range(int(count[0]) if count else 0):
            numbers = {"me": number, "next": (number + 1) % int(count[0]), "prev": (number - 1) % int(count[0])}
            out += [["process", f"{name}.{number}"], *(with_numbers(words, numbers) for words in lines[start + 1:end])]
    return out


def names_of(lines):
    """The names of each kind, in the order of their numbers."""
    names = {}
    for verb, *words in lines:
        if verb in NAMES and (name := words[place_of_name(verb) - 1])[0].isalpha() and name not in names.get(NAMED[verb], []):
            names.setdefault(NAMED[verb], []).append(name)
    return names


def numbered(words, names):
    """A line as its words, with numbers."""
    verb, *words = words
    if NAMED.get(verb) in names:
        place = place_of_name(verb) - 1
        words[place] = names[NAMED[verb]].index(words[place])
        words = words[1:] if verb in ("space", "sema", "pipe") else words
    texts = TEXTS.get(verb, len(words))
    return verb, *map(int, words[:texts]), *words[texts:]


def read_block(lines, names):
    """The lines up to the `or` or `end` of their block, or to the next process, and that line's word. `lines` has the last first."""
    body = []
    while lines:
        words = lines.pop()
        if words[0] in ("or", "end", "process"):
            if words[0] == "process":
                lines.append(words)
            return body, words[0]
        if words[0] == "loop":
            body.append(Loop(read_block(lines, names)[0]))
        elif words[0] == "repeat":
            body.append(Repeat(int(words[1]), read_block(lines, names)[0]))
        elif words[0] == "either":
            ways, ended = [], "or"
            while ended == "or":
                way, ended = read_block(lines, names)
                ways.append(way)
            body.append(Either(ways))
        elif words[0] in NO_CALLS or words[0].endswith(":"):
            body.append(tuple(words))
        else:
            body.append(numbered(words, names))
    return body, "process"


def block_program_of(script):
    """The program of a script that has no fault."""
    first, *lines = lines_said(script)
    lines = one_by_one(lines)
    names, bodies = names_of(lines), [[] for _ in range(int(first[1]))]
    start = next(at for at, words in enumerate(lines) if words[0] == "process")
    devices = [with_seats(numbered(words, names), len(bodies)) for words in lines[:start]]
    left = lines[:start - 1:-1] if start else lines[::-1]
    while left:
        pid = numbered(left.pop(), names)[1]
        bodies[pid] += read_block(left, names)[0]
    program = BlockProgram(int(first[2]), devices, bodies)
    program.names = names
    return program
