"""Mistakes that the prover refuses. Those of a crate that edit different functions are planted at once in a copy of it, and the
prover checks these functions and what they call: each has to be refused in its own function. One that edits what is no body of a
function is tried alone, on the whole crate.
"""
import os
import re
import shutil
import subprocess
import tempfile
import time

from common import TOP, stop
from goals import NONE, goal_of, law_of, lines_of, why_nothing
from planted import Unfit, batch_of
from prover import Refused, prover_of
from copies import link

# What a try of one comes to.
REFUSED, NOT_REFUSED, NOTHING, LATER = "refused", "NOT REFUSED", "CAN'T BE TRIED", "later"


def verdict(mistake, said, alone):
    """What this mistake came to in a check of the crate, the goal that refused it, and what to say of it."""
    lines = [it for name in mistake.functions for it in re.findall(rf"^fn {mistake.crate}::{re.escape(name)}: .*$", said, re.MULTILINE)]
    if not lines:
        errors = [it for it in said.splitlines() if "error" in it] or said.splitlines() or ["nothing said"]
        return (NOTHING if alone else LATER), None, f"the prover did not come to it: {errors[0][:200]}"
    called = [it for it in lines if re.search(r"(no proof:|not proved;) it calls ", it) and not goal_of(lines_of(said, it))]
    refused = [it for it in lines if it not in called and not re.search(r": proved\b", it)]
    if not refused and not called:
        return NOT_REFUSED, None, "its function is still proved"
    if not refused:
        return (REFUSED if alone else LATER), None, called[0][:200]
    told = [it for line in refused for it in lines_of(said, line)]
    goal = goal_of(told)
    why = None if goal else why_nothing([*told, *refused]) or "no goal is named"
    return (NOTHING, None, f"{why}: {told[0][:200]}") if why else (REFUSED, goal, told[0][:200])


class Room:
    """A copy of a crate, in which mistakes are planted and checked."""

    def __init__(self, crate, folder, has_kept):
        self.crate, self.folder = crate, folder
        for part in ("src", "specs", "proofs"):
            if os.path.isdir(f"{TOP}/crates/{crate}/{part}"):
                shutil.copytree(f"{TOP}/crates/{crate}/{part}", f"{folder}/{part}")
        if has_kept and os.path.isdir(f"{TOP}/crates/{crate}/out/incremental"):
            shutil.copytree(f"{TOP}/crates/{crate}/out/incremental", f"{folder}/kept", copy_function=link)
        self.words = [*prover_of(crate), "--jobs", "1", "--incremental", "kept"]
        os.makedirs(f"{folder}/kept", exist_ok=True)

    def check(self, texts, only):
        """What the prover says of the crate with these texts, or of some functions alone."""
        for path, text in texts.items():
            with open(f"{self.folder}/{path}", "w", encoding="utf-8") as source:
                source.write(text)
        words = [*self.words, *[it for name in only for it in ("--only", name)]]
        for is_last in (False, True):
            ran = subprocess.run(words, cwd=self.folder, stdin=subprocess.DEVNULL, stdout=subprocess.PIPE, stderr=subprocess.STDOUT, text=True,
                                 errors="replace")
            if is_last or "unusable-built-library" not in ran.stdout:
                break
            # `rt ci` puts the libraries back that a check of one's own had left, and they fit no others.
            check_first(self.crate)
        for path in texts:
            shutil.copyfile(f"{TOP}/crates/{self.crate}/{path}", f"{self.folder}/{path}")
        return ran.returncode, ran.stdout

    def at_once(self, batch, texts):
        """Tries mistakes that edit different functions."""
        _, said = self.check(texts, sorted(name for it in batch for name in it.functions))
        return {it: verdict(it, said, len(batch) == 1) for it in batch}

    def alone(self, mistake):
        """Tries a mistake on the whole crate."""
        try:
            status, said = self.check(mistake.planted({}), [])
        except Unfit as why:
            return NOTHING, None, str(why)
        if status == 0:
            return NOT_REFUSED, None, "the crate is still proved with it"
        told = [it for it in said.splitlines() if re.match(r"(note: )?\S+:\d+:\d+:", it)]
        told = ([it for it in told if ": error" in it or it.startswith("note: ")] or told or ["nothing said"])[0][:200]
        unread = re.match(rf"(?:\./)?{re.escape(mistake.path)}:\d+:\d+: error: (`[^`]*`: )?(.*)", told)
        if "logic=not-proved" not in said or unread and (not unread[1] or why_nothing([unread[2]])):
            return NOTHING, None, told
        why = why_nothing([told])
        return (NOTHING, None, f"{why}: {told}") if why else (REFUSED, law_of(told), told)

    def try_all(self, mistakes):
        """Each mistake with what it came to, the refused ones of a batch before those that call them."""
        left = mistakes
        while left:
            batch, texts, left = batch_of(left)
            if not batch:
                break
            found = self.at_once(batch, texts)
            yield from ((it, *came) for it, came in found.items() if came[0] != LATER)
            put_off = [it for it, came in found.items() if came[0] == LATER]
            if len(put_off) < len(batch):
                left = [*put_off, *left]
            else:
                yield from ((it, *self.at_once([it], it.planted({}))[it]) for it in put_off)
        yield from ((it, *self.alone(it)) for it in left)


def check_first(crate):
    """The crate as it stands is proved, and its work is kept."""
    ran = subprocess.run(["rt", "check", "--jobs", "1"], cwd=f"{TOP}/crates/{crate}", stdin=subprocess.DEVNULL, stdout=subprocess.PIPE,
                         stderr=subprocess.STDOUT, text=True, errors="replace")
    if ran.returncode:
        stop(f"{crate} itself is not proved: {(ran.stdout.strip().splitlines() or ['nothing said'])[-1]}")


def try_crate(crate, mistakes, over_kept):
    """Tries these mistakes of a crate, over its kept work where that is of now, tells each, and returns how many are refused."""
    refused = Refused(crate)
    new = [it for it in mistakes if not refused.is_kept(it.file)]
    count, began = len(mistakes) - len(new), time.monotonic()
    if count:
        print(f"{crate}: {count} of its mistakes were refused on this machine before, and nothing that they stand on has changed", flush=True)
    with tempfile.TemporaryDirectory(prefix="mistake-") as folder:
        for it, came, goal, told in Room(crate, folder, over_kept).try_all(new) if new else ():
            print(f"{it.place}: {came}{f' at {goal[1]}' if goal else ''} ({time.monotonic() - began:.0f} s): {told}", flush=True)
            if came == REFUSED:
                refused.keep(it.file, goal or NONE)
                count += 1
    return count
