"""What the makers of scripts share: numbers that are the same each time, and a script of about 16 MB out of its lines."""
import sys

SIZE = 16_700_000


def numbers(state=0x9E3779B97F4A7C15):
    """A xorshift generator of 64 bits, so that a script does not depend on a library's."""
    while True:
        state ^= (state << 13) & 0xFFFFFFFFFFFFFFFF
        state ^= state >> 7
        state ^= (state << 17) & 0xFFFFFFFFFFFFFFFF
        yield state


def write_script(lines, most=SIZE):
    """Writes these lines as far as they fit."""
    size = 0
    parts = []
    for line in lines:
        if size + len(line) > most:
            break
        parts.append(line)
        size += len(line)
    sys.stdout.write("".join(parts))
