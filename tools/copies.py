"""Copies of a crate, each in a room: a folder of its own, over what is kept of the crates below it. `rt` works at one thing at a
time in a folder; in rooms, crates that don't need each other are proved side by side, and mistakes are tried.
"""
import contextlib
import os
import shutil

TOP = os.path.dirname(os.path.dirname(os.path.abspath(__file__)))
PARTS = ("src", "specs", "proofs", "stdin", "stdout", "args", "status", "data")


def crates_below():
    """Each crate of crates.txt with the crates of the repository that it stands on, those below these included."""
    below = {}
    with open(f"{TOP}/crates.txt", encoding="utf-8") as listed:
        for line in listed:
            if line.startswith("#") or ":" not in line:
                continue
            name, named = line.split(":", 1)
            own = [it for it in named.split() if it in below]
            below[name.split()[0]] = sorted({*own, *(deep for it in own for deep in below[it])})
    return below


def link(source, to):
    """A link to what was built, where the two folders lie on one file system. A source is copied: a link would change its time of
    change, by which the launcher sees whether it was touched."""
    if "/out/" in source[len(TOP):]:
        with contextlib.suppress(OSError):
            os.link(source, to)
            return to
    return shutil.copy2(source, to)


def copy_parts(crate, to):
    """The crate's sources, and what its program is given."""
    for part in PARTS:
        source = f"{TOP}/crates/{crate}/{part}"
        if os.path.isdir(source):
            shutil.copytree(source, f"{to}/{part}")
        elif os.path.isfile(source):
            shutil.copy(source, to)


def room_for(crate, below, room):
    """The folder of a copy of the crate, over links of the crates below it with what is kept of them."""
    shutil.copy(f"{TOP}/HANDLES", room)
    with open(f"{TOP}/crates.txt", encoding="utf-8") as listed, open(f"{room}/crates.txt", "w", encoding="utf-8") as ours:
        ours.writelines(it for it in listed if it.split(":")[0].split(" ")[0] in (crate, *below[crate]))
    os.mkdir(f"{room}/crates")
    for name in below[crate]:
        shutil.copytree(f"{TOP}/crates/{name}", f"{room}/crates/{name}", copy_function=link)
    to = f"{room}/crates/{crate}"
    os.mkdir(to)
    copy_parts(crate, to)
    return to
