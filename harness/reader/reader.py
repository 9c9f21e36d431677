"""Grows the recorded byte runs again by the rules of docs/ARCHIVE.md, and holds every answer byte to the recorded one.

    python3 harness/reader/reader.py crates/replay/stdin
"""
import struct
import sys

from run import carry_out

RUNS = 1038
CALLS = 111660
LENT = 16384
SHOWN = 20


def records(data):
    """kind, number returned, what is given and what is written, of each record"""
    at = 0
    while at < len(data):
        kind, given, returned, written = struct.unpack_from("<4I", data, at)
        at += 16
        yield kind, returned, data[at : at + given], data[at + given : at + given + written]
        at += given + written
    if at > len(data):
        sys.exit("reader: the last record is cut short")


def first_other(ours, theirs):
    """the place of the first byte that is another"""
    return next((i for i, (a, b) in enumerate(zip(ours, theirs)) if a != b), min(len(ours), len(theirs)))


def main(path):
    runs = calls = differ = 0
    for number, (kind, returned, given, written) in enumerate(records(open(path, "rb").read())):
        if kind != 2:
            continue
        ours, answers, made = carry_out(given, LENT)
        runs, calls = runs + 1, calls + made
        if (ours, answers) != (returned, written):
            differ += 1
            if differ <= SHOWN:
                print(f"record {number}: {ours} returned for {returned}, byte {first_other(answers, written)} of the answers")
    print(f"reader: {runs} runs, {calls} calls, {differ} differ")
    return 1 if differ or runs < RUNS or calls < CALLS else 0


if __name__ == "__main__":
    sys.exit(main(sys.argv[1]))
