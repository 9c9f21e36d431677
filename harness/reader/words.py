#!/usr/bin/env python3
"""Rule 16 of docs/ARCHIVE.md, words from a key, and the vectors of RFC 8439 held to it.

    python3 harness/reader/words.py crates/rfc8439/stdin

It follows the page alone and uses none of the project's code. The numbers to try are read off the page. A difference, or fewer vectors or numbers than
there are, gives the status 1.
"""
import re
import struct
import sys
from pathlib import Path

VECTORS, NUMBERS = 20, 5
MASK = 2**32 - 1
QUARTERS = ((0, 4, 8, 12), (1, 5, 9, 13), (2, 6, 10, 14), (3, 7, 11, 15), (0, 5, 10, 15), (1, 6, 11, 12), (2, 7, 8, 13), (3, 4, 9, 14))
PAGE = Path(__file__).resolve().parents[2] / "docs" / "ARCHIVE.md"


def roll(number, bits):
    return (number << bits | number >> (32 - bits)) & MASK


def quarter(a, b, c, d):
    """16.2"""
    for first, second in ((16, 12), (8, 7)):
        a = (a + b) & MASK
        d = roll(d ^ a, first)
        c = (c + d) & MASK
        b = roll(b ^ c, second)
    return a, b, c, d


def block(key, number, nonce=bytes(12)):
    """The 64 bytes of a block."""
    state = [0x61707865, 0x3320646E, 0x79622D32, 0x6B206574, *struct.unpack("<8I", key), number, *struct.unpack("<3I", nonce)]
    mixed = list(state)
    for _ in range(10):
        for x, y, z, w in QUARTERS:
            mixed[x], mixed[y], mixed[z], mixed[w] = quarter(mixed[x], mixed[y], mixed[z], mixed[w])
    return struct.pack("<16I", *((m + s) & MASK for m, s in zip(mixed, state)))


def word(key, n):
    """Word n of a key."""
    return int.from_bytes(block(key, n // 8)[8 * (n % 8):][:8], "little")


def vectors(path):
    """Whether each line of the file holds."""
    for line in Path(path).read_text().splitlines():
        key, counter, nonce, expected = line.split(" ")
        yield block(bytes.fromhex(key), int(counter, 16), bytes.fromhex(nonce)) == bytes.fromhex(expected)


def numbers():
    """Whether each number to try of the page holds: the quarter round's four as one, and four words of a key of zeros."""
    rows = dict(re.findall(r"^\| (16(?:\.2)?) \|[^|]*\| ([^|]*) \|$", PAGE.read_text(), re.M))
    yield quarter(0x11111111, 0x01020304, 0x9B8D6F43, 0x01234567) == tuple(int(n, 16) for n in rows["16.2"].split(", "))
    for n, told in zip((0, 1, 8, 2**35 - 1), rows["16"].split(", "), strict=True):
        yield word(bytes(32), n) == int(told, 16)


def main():
    held, tried = list(vectors(sys.argv[1])), list(numbers())
    differ = (held + tried).count(False)
    print(f"words: {len(held)} vectors, {len(tried)} numbers of the page, {differ} differ")
    return 0 if differ == 0 and len(held) == VECTORS and len(tried) == NUMBERS else 1


if __name__ == "__main__":
    sys.exit(main())
