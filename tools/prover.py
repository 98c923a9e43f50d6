"""The prover, as `rt` calls it over the libraries that stand in the crates' folders; and which mistakes it refused before."""
import functools
import hashlib
import os
import shutil
import subprocess

from common import TOP, read, write
from copies import crates_below

KIT = os.path.dirname(os.path.dirname(os.path.realpath(shutil.which("rt") or "rt")))
# Where it is kept what was refused, on this machine.
KEPT = f"{os.environ.get('XDG_CACHE_HOME') or os.path.expanduser('~/.cache')}/p9sync/refused"


def stands_on(crate):
    """The crates that a line of crates.txt names for this one, those of the kit too."""
    return next(it.split(":", 1)[1].split() for it in read("crates.txt").splitlines() if it.split(":")[0].split(" ")[0] == crate)


def prover_of(crate):
    """The words that check a copy of this crate in the folder where it lies."""
    below = crates_below()
    rlib = lambda it: f"{TOP}/crates/{it}/out/rlib"
    own, kit = [it for it in stands_on(crate) if it in below], [it for it in stands_on(crate) if it not in below]
    root = "src/main.rt" if os.path.isfile(f"{TOP}/crates/{crate}/src/main.rt") else "src/lib.rt"
    return [f"{KIT}/bin/rattle", "check", "--crate-name", crate, root,
            *[it for name in ["std", *kit] for it in ("--extern", f"{name}={KIT}/rlibs/{name}.rlib")], "-L", f"dependency={KIT}/rlibs",
            *[it for name in own for it in ("--extern", f"{name}={rlib(name)}/{name}.rlib")],
            *[it for name in below[crate] for it in ("-L", f"dependency={rlib(name)}")],
            "--antt-project", f"{KIT}/rattle/logic/antt-project.json", "--logic-built", f"{KIT}/logic_built", "--links", f"{crate}="]


@functools.lru_cache(maxsize=None)
def sum_of(crate):
    """A sum of all that a verdict on this crate stands on."""
    found = hashlib.sha256(subprocess.run(["rt", "version"], stdout=subprocess.PIPE, check=True).stdout)
    for name in [crate, *crates_below()[crate]]:
        found.update(f"{name}: {stands_on(name)}\n".encode())
        for part in ("src", "specs", "proofs"):
            for at, folders, files in os.walk(f"{TOP}/crates/{name}/{part}"):
                folders.sort()
                for file in sorted(files):
                    with open(f"{at}/{file}", "rb") as text:
                        found.update(f"{os.path.relpath(f'{at}/{file}', TOP)}\n".encode() + hashlib.sha256(text.read()).digest())
    return found.digest()


class Refused:
    """The mistakes of a crate that were refused on this machine, while nothing that they stand on has changed."""

    def __init__(self, crate):
        self.crate = crate

    def place_of(self, file):
        with open(file, "rb") as text:
            return f"{KEPT}/{hashlib.sha256(sum_of(self.crate) + text.read()).hexdigest()}"

    def is_kept(self, file):
        return os.path.isfile(self.place_of(file))

    def keep(self, file, goal):
        """Keeps the kind and the name of the goal that refused it."""
        os.makedirs(KEPT, exist_ok=True)
        write(self.place_of(file), "\n".join([os.path.relpath(file, TOP), *goal, ""]))

    def kept(self, file):
        """The kind and the name of that goal, if it was refused."""
        if not self.is_kept(file):
            return None
        return tuple([*read(self.place_of(file)).splitlines()[1:3], "-", "-"][:2])
