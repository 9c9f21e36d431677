#!/usr/bin/env python3
"""Makes examples/archive.txt: a hundred readings of ten lanterns, with the weights and words that they arrived with.

    examples/make_archive.py > examples/archive.txt
    examples/make_archive.py --keyed > examples/keyed.txt

Ten lanterns, 0 to 9, are read in ten rounds, 0 to 9, six weeks apart. An index's first digit is the round and its last the lantern: 97 is
lantern 7's last reading. Channel 0 is the lantern's age in weeks, channel 1 its light in tenths of a candela. Nine lanterns lose about a tenth in two
weeks; lantern 7 loses eight tenths a week.

In each round the readings are put, then they arrive. Before the arrivals of the last round, and after them, the text asks for two reports: of lantern
7's last reading, and of lantern 5's, which is a week younger and like the others.

With --keyed the arrivals of the last five rounds name a key and the number of their first word in place of words; all else is the same. The words of one
follow those of the one before it.

All is drawn from SEED by one generator, so that the same bytes come out each time. A weight is drawn as the Rust's `update` draws it: ln(-ln u), less DECAY
for each arrival before, in f64, then narrowed to f32.
"""
import math
import struct
import sys

SEED = 1
LANTERNS, ROUNDS, WEEKS = 10, 10, 6
ODD, ORDINARY = 7, 5
CAPACITY, CACHE16, INITIAL16, DECAY = 8, 16, 8, 1 / 80
KEYED, KEY = 5, bytes(range(32)).hex().upper()


def words(state):
    """Words of 64 bits without end (splitmix64)."""
    ones = 2**64 - 1
    while True:
        state = (state + 0x9E3779B97F4A7C15) & ones
        word = ((state ^ (state >> 30)) * 0xBF58476D1CE4E5B9) & ones
        word = ((word ^ (word >> 27)) * 0x94D049BB133111EB) & ones
        yield word ^ (word >> 31)


def whole(drawn, low, high):
    """A whole number from low to high."""
    return low + next(drawn) % (high - low + 1)


def reading(drawn, lantern, age):
    lost = 8 * age if lantern == ODD else age // 2
    return age, 1000 - lost + whole(drawn, -4, 4)


def weight(drawn, before):
    """The digits of the weight of an arrival that so many came before."""
    u = (next(drawn) >> 11) / 2**53
    return struct.pack(">f", math.log(-math.log(u)) - before * DECAY).hex().upper()


def arrival(drawn, index, keyed):
    """An arrival's row: index, weight, then the word for the starting chance and the words for the tree, or what names them. Readings arrive in the order of
    their indices."""
    fed = [f"{next(drawn):016X}" for _ in range(1 + CAPACITY)]
    named = [KEY, f"{(1 + CAPACITY) * (index - LANTERNS * KEYED):016X}"]
    print(3, index, weight(drawn, index), *(named if keyed else fed))


def main():
    drawn = words(SEED)
    ages = [whole(drawn, 0, 30) for _ in range(LANTERNS)]
    print("dimensions capacity cache16 initial16")
    print(2, CAPACITY, CACHE16, INITIAL16)
    print("op index rest")
    for turn in range(ROUNDS):
        seen = [reading(drawn, lantern, ages[lantern] + WEEKS * turn) for lantern in range(LANTERNS)]
        reports = [seen[lantern] for lantern in (ODD, ORDINARY) if turn == ROUNDS - 1]
        for lantern in range(LANTERNS):
            print(0, LANTERNS * turn + lantern, *seen[lantern])
        for query in reports:
            print(4, "-", *query)
        for lantern in range(LANTERNS):
            arrival(drawn, LANTERNS * turn + lantern, "--keyed" in sys.argv[1:] and turn >= KEYED)
        for query in reports:
            print(4, "-", *query)


main()
