#!/usr/bin/env python3
"""Prints a table of how fast p9sync answers scripts of one kind each, beside the plain C programs of bench/pipe and
bench/replay. Each script is 16.7 MB long and the same each time.

usage: shapes.py [ROUNDS [SHAPE...]], in the order of SHAPES below; without names, all of them

Both programs have to say the same. How they are timed stands in measure.py: speeds are by processor time, medians of
rounds in which the programs take turns. Part is the shape's share by processor time, as a part of the mixed script's.
Growth is the processor time of p9sync for a byte of a script of 16.7 MB, as against one of a quarter of that."""
import os
import pathlib
import statistics
import subprocess
import sys

import measure
from script import SIZE, numbers, write_script

HERE = pathlib.Path(__file__).resolve().parent
sys.path += [str(HERE / "pipe"), str(HERE / "replay")]
DIGITS = "0123456789abcdefABCDEF"
TWENTY = [10**19, 2**64 - 1, 12345678901234567890]


def hexadecimal(draw, length):
    return "".join(DIGITS[next(draw) % len(DIGITS)] for _ in range(2 * length))


def texts(length, count=64):
    """Some texts of so many bytes, of which a script repeats one after another."""
    draw = numbers()
    return [hexadecimal(draw, length) for _ in range(count)]


def whole_writes(length, reads):
    """Writes of this length, each of which is read by these lines."""
    yield "limit 64\n"
    while True:
        for writer, text in enumerate(texts(length)):
            yield f"write {writer} {text}\n" + reads


def mixed():
    import make_script

    return make_script.lines()


def empty_writes():
    yield "limit 64\n"
    while True:
        for writer in range(64):
            yield f"write {writer} -\nread {1 + writer}\n"


def stream(lines):
    """The same lines, in stream mode."""
    yield next(lines).replace("\n", " stream\n")
    yield from lines


def joins():
    """Writes of 16 bytes of which a read has 64, and reads that find nothing."""
    yield "limit 64 stream\n"
    short = texts(16)
    while True:
        yield from (f"write {writer} {text}\n" for writer, text in enumerate(short))
        yield "read 1024\nread 1024\n"


def refused():
    """A pipe with room for one write, which waits: writes that find it full, writes too big, and reads of no bytes."""
    yield "limit 1\nread 5\nwrite 0 61\n"
    draw = numbers()
    big = hexadecimal(draw, 65537)
    short = texts(8)
    while True:
        for turn in range(4096):
            yield f"write {turn % 64} {short[turn % len(short)]}\nread 0\n"
        yield f"write 7 {big}\n"


def hangups():
    yield "limit 8\nwrite 0 6162\nhangup\nread 1\nread 1\n"
    short = texts(2)
    while True:
        for writer, text in enumerate(short):
            yield f"hangup\nread 64\nwrite {writer} {text}\n"


def long_counts():
    yield "limit 8\n"
    short = texts(2)
    while True:
        for writer, text in enumerate(short):
            yield f"write {writer} {text}\nread {TWENTY[writer % 3]}\nread {TWENTY[(writer + 1) % 3]}\n"


def world(procs, rendez):
    import make_schedule

    return make_schedule.Model(procs, rendez).lines()


def notes():
    import make_schedule

    yield "world 64 1\n"
    draw = numbers()
    while True:
        n = next(draw)
        p = n % 64
        kinds = make_schedule.KINDS[(n >> 8) % len(make_schedule.KINDS)]
        yield f"drain {p}\n" if n >> 16 & 1 else f"note {p} {kinds}\n"


def refused_events():
    """Events of a process that sleeps, of idle ones, of none, and of no Rendez."""
    yield "world 64 8\npost 0 0 5\ntest 0\n"
    draw = numbers()
    idle = ["test", "look", "withdraw", "clear", "take", "mark", "check"]
    while True:
        n = next(draw)
        p, r = 1 + n % 63, n >> 8 & 7
        ways = [f"{verb} {p}\n" for verb in idle] + [f"post {p} {8 + r} 1\n", f"post {p} {r} {2**64 - 1}\n"]
        ways += [f"raise 0 {r} 1\n", f"drain 0\n", f"look {64 + p}\n", f"post {p} 0 {n >> 20 & 1023}\n", f"raise {p} {8 + r} 3\n"]
        yield ways[(n >> 12) % len(ways)]


def long_levels():
    """Wakeups that find nobody, and sleeps whose condition holds already, with levels of 20 digits."""
    yield "world 8 4\n"
    draw = numbers()
    while True:
        n = next(draw)
        p, r = n & 7, n >> 3 & 3
        if n >> 5 & 1:
            yield f"raise {p} {r} {2**64 - 1}\ntake {p}\n"
        else:
            yield f"raise {p} {r} {2**64 - 1}\ntake {p}\npost {p} {r} {10**19 + (n >> 6) % 10**18}\ntest {p}\nwithdraw {p}\nclear {p}\n"


SHAPES = {
    "pipe, mixed": ("pipe", mixed),
    "writes of 8,192 bytes": ("pipe", lambda: whole_writes(8192, "read 8192\n")),
    "writes of 65,536 bytes": ("pipe", lambda: whole_writes(65536, "read 65536\n")),
    "writes of 1 byte": ("pipe", lambda: whole_writes(1, "read 8192\n")),
    "partial reads of 1 byte": ("pipe", lambda: whole_writes(4096, "read 1\n" * 4096)),
    "empty writes": ("pipe", empty_writes),
    "refused operations": ("pipe", refused),
    "hangups": ("pipe", hangups),
    "stream, mixed": ("pipe", lambda: stream(mixed())),
    "stream, joined writes": ("pipe", joins),
    "stream, empty writes": ("pipe", lambda: stream(empty_writes())),
    "counts of 20 digits": ("pipe", long_counts),
    "replay, mixed, 8 by 4": ("replay", lambda: world(8, 4)),
    "mixed, 1,024 by 8,192": ("replay", lambda: world(1024, 8192)),
    "notes": ("replay", notes),
    "refused events": ("replay", refused_events),
    "levels of 20 digits": ("replay", long_levels),
}
MIXED = {"pipe": "pipe, mixed", "replay": "replay, mixed, 8 by 4"}


def file_of(work, name, most):
    """The script of this shape. Another process makes it, since the memory of this one counts as that of what it runs."""
    script = work / ("".join(c if c.isalnum() else "_" for c in name) + ("" if most == SIZE else "_quarter"))
    with open(script, "wb") as file:
        subprocess.run([sys.executable, "-B", __file__, "--make", name, str(most)], stdout=file, check=True)
    return script


def row(name, rounds, work, mixed_share):
    command = SHAPES[name][0]
    programs = [[work / f"plain_{command}"], [HERE.parent / "crates/p9sync/out/p9sync", command]]
    scripts = [file_of(work, name, most) for most in (SIZE, SIZE // 4)]
    measure.compare(programs, scripts[:1])
    runs = measure.time_all(programs, scripts, rounds)
    bytes_of = [os.path.getsize(script) for script in scripts]
    plain, ours = ([each.processor for each in side] for side in runs[scripts[0]])
    speeds = [bytes_of[0] / 1e6 / statistics.median(side) for side in (plain, ours)]
    shares = measure.shares(*runs[scripts[0]], "processor")
    elapsed = measure.shares(*runs[scripts[0]], "elapsed")
    share = statistics.median(shares)
    quarter = statistics.median(each.processor for each in runs[scripts[1]][1])
    growth = statistics.median(ours) / bytes_of[0] / (quarter / bytes_of[1])
    part = share / mixed_share.setdefault(command, share)
    peaks = [max(each.peak for each in side) / 1024 for side in runs[scripts[0]]]
    print(
        f"| {name} | {measure.count_lines(scripts[0]):,} | {speeds[1]:.0f} MB/s | {speeds[0]:.0f} MB/s | {measure.spread(shares)}"
        f" | {measure.spread(elapsed)} | {part:.2f} | {growth:.2f} | {peaks[1]:.1f} and {peaks[0]:.1f} MB |",
        flush=True,
    )
    for script in scripts:
        script.unlink()


def main():
    if sys.argv[1:2] == ["--make"]:
        write_script(SHAPES[sys.argv[2]][1](), int(sys.argv[3]))
        return
    rounds = int(sys.argv[1]) if len(sys.argv) > 1 else 5
    names = sys.argv[2:] or list(SHAPES)
    work = HERE / "out"
    work.mkdir(exist_ok=True)
    for command in ("pipe", "replay"):
        source = HERE / command / "plain.c"
        subprocess.run(["cc", "-O3", "-Wall", "-o", work / f"plain_{command}", source], check=True)
    # This builds the program, where it is older than its sources.
    subprocess.run([HERE.parent / "p9sync", "pipe"], input=b"limit 1\n", check=True)
    print(f"{os.cpu_count()} cores, medians of {rounds} rounds")
    print("| Shape | Lines | p9sync | Plain C | Share, processor time | Share, elapsed | Part | Growth | Peak memory |")
    print("|---|---|---|---|---|---|---|---|---|")
    mixed_share = {}
    for name in names:
        command = SHAPES[name][0]
        if command not in mixed_share and name != MIXED[command]:
            row(MIXED[command], rounds, work, mixed_share)
        row(name, rounds, work, mixed_share)


main()
