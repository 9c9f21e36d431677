"""The rules of docs/ARCHIVE.md: a bare or a sampled tree, its calls and their answers. Numbers in brackets are the page's."""
import math
import struct

INDICES = 1024
COPIES = 65535
EDGE = 1048576


class Refused(Exception):
    """A refused call, with its number. It is raised before anything is changed."""


def refuse(number, condition):
    if condition:
        raise Refused(number)


def narrowed(x):
    """an f64 rounded to f32"""
    return struct.unpack("<f", struct.pack("<f", x))[0]


def is_share(x):
    return 0.0 <= x <= 1.0


def is_minus_zero(x):
    return x == 0 and math.copysign(1.0, x) < 0


def is_coordinate(x):
    return math.isfinite(x) and x == int(x) and abs(x) <= EDGE and not is_minus_zero(x)


def factor(word):
    """[3]"""
    return (word >> 11) / 2.0**53


class Leaf:
    def __init__(self, index, reading):
        self.index, self.copies = index, 1
        self.low, self.high = reading, reading
        self.parent = None

    @property
    def mass(self):
        """[8]"""
        return self.copies


class Branch:
    """Copies, mass and box are those of the leaves below, kept up to date along each walk."""

    def __init__(self, number, channel, cut, left, right):
        self.number, self.channel, self.cut = number, channel, cut
        self.left, self.right = left, right
        self.parent = None
        left.parent = right.parent = self
        self.renew()

    def renew(self):
        self.copies = self.left.copies + self.right.copies
        self.mass = self.left.mass + self.right.mass
        self.low = tuple(map(min, self.left.low, self.right.low))
        self.high = tuple(map(max, self.left.high, self.right.high))

    def side(self, reading):
        """[5]"""
        return self.left if reading[self.channel] <= self.cut else self.right


def holds(node, reading):
    return all(a <= x <= b for a, x, b in zip(node.low, reading, node.high))


def drawn(node, reading, word):
    """[7] the channel and the place that a word draws in the joint box"""
    lower = tuple(map(min, node.low, reading))
    upper = tuple(map(max, node.high, reading))
    sides = [b - a for a, b in zip(lower, upper)]
    rest = sum(sides) * factor(word)
    for channel, side in enumerate(sides):
        if side > 0:
            if rest <= side:
                break
            rest -= side
    a, b = lower[channel], upper[channel]
    place = narrowed(a + narrowed(rest))
    return channel, place if a < place < b else a


def parts(node, reading, channel, cut):
    """[7.4]"""
    x = reading[channel]
    return x <= cut < node.low[channel] or node.high[channel] <= cut < x


class Numbers:
    """[9] the free branch numbers, the top interval last"""

    def __init__(self, capacity):
        self.stack = [[0, capacity - 2]]

    def get(self):
        top = self.stack[-1]
        number = top[0]
        top[0] += 1
        if top[0] > top[1]:
            self.stack.pop()
        return number

    def release(self, number):
        if self.stack and self.stack[-1][0] == number + 1:
            self.stack[-1][0] = number
        elif self.stack and self.stack[-1][1] == number - 1:
            self.stack[-1][1] = number
        else:
            self.stack.append([number, number])


class Tree:
    """[1, 4] The readings, the tree, and its nodes by their numbers and indices."""

    def __init__(self, channels, capacity, cached):
        refuse(1, not 1 <= channels <= 32)
        refuse(2, not 2 <= capacity <= 256)
        refuse(3, not is_share(cached))
        self.channels, self.capacity = channels, capacity
        self.readings = {}
        self.root = None
        self.leaves, self.branches = {}, {}
        self.numbers = Numbers(capacity)

    def check(self, coordinates):
        refuse(6, len(coordinates) != self.channels)
        refuse(7, not all(map(is_coordinate, coordinates)))
        return tuple(coordinates)

    def reading(self, index):
        refuse(5, index >= INDICES)
        refuse(9, index not in self.readings)
        return self.readings[index]

    def put(self, index, coordinates):
        """[2]"""
        refuse(5, index >= INDICES)
        reading = self.check(coordinates)
        refuse(8, index in self.leaves)
        self.readings[index] = reading

    def walk(self, reading):
        """[5] from the leaf to the root"""
        nodes = [self.root]
        while isinstance(nodes[-1], Branch):
            nodes.append(nodes[-1].side(reading))
        return nodes[::-1]

    def replace(self, above, node, new):
        """new takes node's place under above, or as the root"""
        new.parent = above
        if above is None:
            self.root = new
        elif above.left is node:
            above.left = new
        else:
            above.right = new

    def renew_above(self, node):
        while node.parent is not None:
            node = node.parent
            node.renew()

    def add(self, index, words):
        """[6] the leaf's index, and the words taken"""
        reading = self.reading(index)
        refuse(10, self.root is not None and self.root.copies == COPIES)
        if self.root is None:
            self.root = self.leaves[index] = Leaf(index, reading)
            return index, 0
        walk = self.walk(reading)
        if walk[0].low == reading:
            walk[0].copies += 1
            self.renew_above(walk[0])
            return walk[0].index, 0
        refuse(10, len(self.leaves) == self.capacity)
        refuse(11, len(words) < len(walk))
        self.insert(index, reading, *self.winner(walk, reading, words))
        return index, len(walk)

    def winner(self, walk, reading, words):
        """the highest node whose cut parts, the cut's channel and its place"""
        found = None
        for node, word in zip(walk, words):
            if not holds(node, reading):
                channel, cut = drawn(node, reading, word)
                if parts(node, reading, channel, cut):
                    found = node, channel, cut
        return found

    def insert(self, index, reading, node, channel, cut):
        leaf = self.leaves[index] = Leaf(index, reading)
        above = node.parent
        left, right = (leaf, node) if reading[channel] <= cut else (node, leaf)
        branch = Branch(self.numbers.get(), channel, cut, left, right)
        self.branches[branch.number] = branch
        self.replace(above, node, branch)
        self.renew_above(branch)

    def delete(self, index):
        """[10] the leaf's index"""
        reading = self.reading(index)
        refuse(12, self.root is None)
        leaf = self.walk(reading)[0]
        refuse(13, leaf.low != reading)
        leaf.copies -= 1
        if leaf.copies > 0:
            self.renew_above(leaf)
        else:
            self.remove(leaf)
        return leaf.index

    def remove(self, leaf):
        del self.leaves[leaf.index]
        parent = leaf.parent
        if parent is None:
            self.root = None
            return
        sibling = parent.right if parent.left is leaf else parent.left
        self.replace(parent.parent, parent, sibling)
        del self.branches[parent.number]
        self.numbers.release(parent.number)
        self.renew_above(sibling)

    def id(self, node):
        return node.number if isinstance(node, Branch) else node.index + self.capacity

    def leaf(self, id):
        """[11]"""
        refuse(16, id - self.capacity not in self.leaves)
        return self.leaves[id - self.capacity]

    def branch(self, id):
        refuse(16, id not in self.branches)
        return self.branches[id]

    def report(self, rows, coordinates):
        """[15] id, depth, mass and probability of each node"""
        query = self.check(coordinates)
        refuse(12, self.root is None)
        walk = self.walk(query)
        refuse(15, rows < len(walk))
        return [
            (self.id(node), len(walk) - 1 - height, node.mass, probability(node, query))
            for height, node in enumerate(walk)
        ]


def added(distances):
    """[15] added up in f32, from 0 in channel order"""
    total = 0.0
    for distance in distances:
        total = narrowed(total + distance)
    return total


def probability(node, query):
    if isinstance(node, Leaf):
        return 0.0 if node.low == query else 1.0
    below = added([max(a - x, 0.0) for a, x in zip(node.low, query)])
    above = added([max(x - b, 0.0) for x, b in zip(query, node.high)])
    outside = narrowed(above + below)
    sides = sum(b - a for a, b in zip(node.low, node.high))
    return 0.0 if outside == 0 else outside / (sides + outside)


class Sample:
    """[12] a heap of weights and indices"""

    def __init__(self):
        self.entries = []

    def swap(self, i, j):
        self.entries[i], self.entries[j] = self.entries[j], self.entries[i]

    def heavier(self, i, j):
        return self.entries[i][0] > self.entries[j][0]

    def into(self, weight, index):
        self.entries.append((weight, index))
        i = len(self.entries) - 1
        while i > 0 and self.heavier(i, (i - 1) // 2):
            self.swap(i, (i - 1) // 2)
            i = (i - 1) // 2

    def out(self):
        top, last = self.entries[0], self.entries.pop()
        if self.entries:
            self.entries[0] = last
            self.sink()
        return top[1]

    def sink(self):
        i = 0
        while 2 * i + 1 < len(self.entries):
            below = 2 * i + 1
            if below + 1 < len(self.entries) and self.heavier(below + 1, below):
                below += 1
            if not self.heavier(below, i):
                break
            self.swap(i, below)
            i = below


def starting_chance(n, capacity, share):
    """[13]"""
    fill = n / capacity
    if fill < share:
        return 1.0
    if share == 1:
        return 0.0
    return 1.0 - (fill - share) / (1.0 - share)


class SampledTree(Tree):
    def __init__(self, channels, capacity, cached, initial):
        super().__init__(channels, capacity, cached)
        refuse(4, not is_share(initial))
        self.initial = initial
        self.sample = Sample()

    def starts(self, word):
        n = len(self.sample.entries)
        return n < self.capacity and factor(word) < starting_chance(n, self.capacity, self.initial)

    def arrive(self, index, weight, chance, words):
        """[14] none if not accepted, else the leaf's index and the evicted one or none"""
        self.reading(index)
        refuse(14, not math.isfinite(weight) or is_minus_zero(weight))
        refuse(11, len(words) < self.capacity)
        evicted = None
        if not self.starts(chance):
            if not weight < self.sample.entries[0][0]:
                return None
            evicted = self.sample.out()
            self.delete(evicted)
        kept, _ = self.add(index, words)
        self.sample.into(weight, kept)
        return kept, evicted
