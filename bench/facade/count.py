"""Prints how many instructions a call of `plan9` takes beside the call of the crate that it stands for, or that it adds to: a write
that leaves no note and the next piece of a read do more than a write and a read, which `plan9` has from `pipe_dev` as they are.

usage: count.py PROGRAM; `facade.rattle` is the program

Each side runs under callgrind for so many times and for ten times as many, and the difference is that of the calls alone. A
count does not depend on what else the machine does."""
import re
import subprocess
import sys
import tempfile

TIMES = 1_000
CALLS = {"an acquire and a release": 0, "a write that leaves no note and a piece of 16 bytes": 1}


def count(program, side, call, times, made):
    """The instructions of one run, in which every call has to go well."""
    tool = ["valgrind", "--tool=callgrind", f"--callgrind-out-file={made}/counted"]
    ran = subprocess.run([*tool, program, str(side), str(call), str(times)], capture_output=True, text=True, check=False)
    found = re.search(r"Collected : (\d+)", ran.stderr)
    if ran.returncode or ran.stdout != f"{times}\n" or not found:
        sys.exit(f"{program} ended with {ran.returncode}: {ran.stdout}{ran.stderr[-300:]}")
    return int(found[1])


def main(program):
    print("instructions: of the crates, of plan9, and how many more in a hundred")
    with tempfile.TemporaryDirectory() as made:
        for name, call in CALLS.items():
            crates, plan9 = ((count(program, side, call, 10 * TIMES, made) - count(program, side, call, TIMES, made))
                             / (9 * TIMES) for side in (0, 1))
            print(f"{name:52}{crates:8.1f}{plan9:8.1f}{100 * (plan9 / crates - 1):8.2f}", flush=True)


if __name__ == "__main__":
    main(sys.argv[1])
