#!/usr/bin/env python3
"""Writes a pipe script of about 16 MB, the same each time: writes of 1 to 64 bytes, partial and whole reads."""
import pathlib
import sys

sys.path.insert(0, str(pathlib.Path(__file__).parent.parent))
from script import numbers, write_script


def lines():
    draw = numbers()
    yield "limit 64\n"
    digits = "0123456789abcdef"
    while True:
        n = next(draw)
        writer = n % 64
        length = 1 + (n >> 8) % 64
        text = "".join(digits[(next(draw) >> (4 * (i % 15))) & 15] for i in range(2 * length))
        yield f"write {writer} {text}\n"
        if n >> 20 & 1:
            yield f"read {1 + (n >> 24) % 64}\n"
        if n >> 32 & 3:
            yield "read 8192\n"


if __name__ == "__main__":
    write_script(lines())
