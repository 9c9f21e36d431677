"""A byte run and its answers, as docs/LAYOUT.md lays them out, carried out by rules.py."""
import struct

from rules import Refused, SampledTree, Tree


class OutOfLayout(Exception):
    pass


class Numbers:
    """the run as numbers of 32 bits, and floats and words made of them"""

    def __init__(self, run):
        if len(run) % 4:
            raise OutOfLayout
        self.bytes = run
        self.count = len(run) // 4

    def number(self, place):
        if place >= self.count:
            raise OutOfLayout
        return struct.unpack_from("<I", self.bytes, 4 * place)[0]

    def word(self, place):
        return struct.unpack_from("<Q", self.bytes, 4 * place)[0]

    def f64(self, place):
        return struct.unpack_from("<d", self.bytes, 4 * place)[0]

    def f32s(self, place, n):
        return struct.unpack_from("<%df" % n, self.bytes, 4 * place)

    def words(self, place, n):
        return struct.unpack_from("<%dQ" % n, self.bytes, 4 * place)


BARE = {3, 4, 5, 7, 8, 9, 10}
SAMPLED = {3, 6, 7, 8, 9, 10, 11}


def width(given, place):
    """how many numbers the call at a place has"""
    kind = given.number(place)
    if kind in (3, 7):
        return 3 + given.number(place + 2)
    if kind == 4:
        return 3 + 2 * given.number(place + 2)
    if kind == 6:
        return 6 + 2 * given.number(place + 5)
    return 1 if kind == 11 else 2


def places(given):
    """the place of each call; the whole run is checked"""
    sampled = given.number(0) == 2
    if given.number(0) not in (1, 2):
        raise OutOfLayout
    place = 7 if sampled else 5
    found = []
    while place < given.count:
        if given.number(place) not in (SAMPLED if sampled else BARE):
            raise OutOfLayout
        found.append(place)
        place += width(given, place)
    if place != given.count:
        raise OutOfLayout
    return found


def making(given):
    channels, capacity, cached = given.number(1), given.number(2), given.f64(3)
    if given.number(0) == 2:
        return SampledTree(channels, capacity, cached, given.f64(5))
    return Tree(channels, capacity, cached)


def answer_width(given, place, tree):
    """how many numbers the answer to the call at a place has"""
    kind = given.number(place)
    if kind == 7:
        return 2 + 5 * given.number(place + 1)
    if kind == 10:
        return 1 + 2 * tree.channels
    if kind == 11:
        return 2 + 2 * tree.capacity
    return {3: 1, 4: 3, 5: 2, 6: 4, 8: 2, 9: 6}[kind]


def f32_bits(*floats):
    return struct.unpack("<%dI" % len(floats), struct.pack("<%df" % len(floats), *floats))


def f64_bits(x):
    return struct.unpack("<2I", struct.pack("<d", x))


def arrived(answer):
    if answer is None:
        return (0,)
    kept, evicted = answer
    return (1, kept) if evicted is None else (2, kept, evicted)


def rows(report):
    numbers = [len(report)]
    for id, depth, mass, chance in report:
        numbers += (id, depth, mass, *f64_bits(chance))
    return numbers


def branch_row(tree, branch):
    return (branch.channel, *f32_bits(branch.cut), tree.id(branch.left), tree.id(branch.right), branch.mass)


def kept(sample):
    numbers = [len(sample.entries)]
    for weight, index in sample.entries:
        numbers += (*f32_bits(weight), index)
    return numbers


def carried_out(given, place, tree):
    """the numbers of the call's answer after its refusal"""
    kind = given.number(place)
    if kind == 11:
        return kept(tree.sample)
    first = given.number(place + 1)
    if kind == 3:
        tree.put(first, given.f32s(place + 3, given.number(place + 2)))
        return ()
    if kind == 4:
        return tree.add(first, given.words(place + 3, given.number(place + 2)))
    if kind == 5:
        return (tree.delete(first),)
    if kind == 6:
        weight = given.f32s(place + 2, 1)[0]
        words = given.words(place + 6, given.number(place + 5))
        return arrived(tree.arrive(first, weight, given.word(place + 3), words))
    if kind == 7:
        return rows(tree.report(first, given.f32s(place + 3, given.number(place + 2))))
    if kind == 8:
        return (tree.leaf(first).copies,)
    branch = tree.branch(first)
    return branch_row(tree, branch) if kind == 9 else f32_bits(*branch.low, *branch.high)


def answer(given, place, tree):
    try:
        numbers = [0, *carried_out(given, place, tree)]
    except Refused as refused:
        numbers = [refused.args[0]]
    return numbers + [0] * (answer_width(given, place, tree) - len(numbers))


def carry_out(run, lent):
    """the number returned, the answer bytes, and how many calls were made"""
    try:
        given = Numbers(run)
        calls = places(given)
    except OutOfLayout:
        return 17, b"", 0
    try:
        tree = making(given)
    except Refused as refused:
        tree, calls, numbers = None, [], [refused.args[0]]
    else:
        numbers = [0]
    if 4 * (1 + sum(answer_width(given, place, tree) for place in calls)) > lent:
        return 15, b"", 0
    for place in calls:
        numbers += answer(given, place, tree)
    return 4 * len(numbers), struct.pack("<%dI" % len(numbers), *numbers), len(calls)
