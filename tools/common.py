"""What the scripts of tests/ and tools/ share: the top of the repository, its files and programs, how a program is run, and libraries
that it loads before its own. What the launcher runs, a first build and an installation, stands without it.
"""
import os
import subprocess
import sys

from copies import TOP

PROCESSORS = len(os.sched_getaffinity(0))


def stop(why):
    """Ends the script that runs, with its name and why."""
    sys.exit(f"{os.path.relpath(sys.argv[0], TOP)}: {why}")


def usage(doc):
    """Says how the script is to be called: its status."""
    print(doc, end="", file=sys.stderr)
    return 2


def read(path):
    """The text of a file, by its path below the top, or its whole path."""
    return read_bytes(path).decode()


def read_bytes(path):
    with open(os.path.join(TOP, path), "rb") as file:
        return file.read()


def write(path, text):
    with open(os.path.join(TOP, path), "w", encoding="utf-8") as file:
        file.write(text)


def run(words, given="", more=None, **rest):
    """Runs a program on these words and this input, a text or bytes, with more in its environment: its status, what it wrote and what
    it said."""
    is_text = {"text": True, "errors": "replace"} if isinstance(given, str) else {}
    return subprocess.run(words, input=given, capture_output=True, env={**os.environ, **(more or {})}, check=False, **is_text, **rest)


def program(name):
    """The path of a built program."""
    path = f"{TOP}/crates/{name}/out/{name}"
    return path if os.path.exists(path) else stop(f"there is no {os.path.relpath(path, TOP)}: ./check makes it, or rt run in crates/{name}")


def test_program(crate):
    """The path of the program that runs a crate's tests."""
    path = f"{TOP}/crates/{crate}/out/{crate}_tests"
    return path if os.path.exists(path) else stop(f"there is no {os.path.relpath(path, TOP)}: ./check makes it, or rt test in crates/{crate}")


def tests_of(path):
    """The full names of the tests of a program."""
    return [it.removesuffix(": test") for it in run([path, "--list"]).stdout.splitlines() if it.endswith(": test")]


def launch(name):
    """Has the launcher build this program first, where that is of other sources than there are."""
    ran = run([f"{TOP}/{name}"])
    if ran.returncode not in (0, 2):
        stop(f"{name} does not run: {ran.stderr.strip()}")


def preload(name, folder):
    """Builds the library of tests/programs/preload of this name in a folder, for LD_PRELOAD: its path."""
    path = f"{folder}/{name}.so"
    subprocess.run(["cc", "-O1", "-shared", "-fPIC", "-o", path, f"{TOP}/tests/programs/preload/{name}.c", "-ldl"], check=True)
    return path


def keep_page(words, doc, path, made, said):
    """Looks whether a page is what its sources make of it, or writes it so where the one word is --write: the status."""
    if words not in ([], ["--write"]):
        return usage(doc)
    if words:
        write(path, made)
    is_same = os.path.exists(f"{TOP}/{path}") and read(path) == made
    print(said if is_same else f"{path} is of other sources: {os.path.relpath(sys.argv[0], TOP)} --write writes it anew")
    return 0 if is_same else 1
