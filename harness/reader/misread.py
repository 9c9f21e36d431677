"""Misreadings of the rules of docs/ARCHIVE.md, made in rules.py one at a time. Each has to change a recorded answer.

    python3 harness/reader/misread.py crates/replay/stdin
"""
import struct
import sys
import types
from fractions import Fraction
from pathlib import Path

from reader import LENT, records

HERE = Path(__file__).parent


def swapped(first, second):
    """the edit that makes two lines change places"""
    return f"        {first}\n        {second}", f"        {second}\n        {first}"


CHECK = "reading = self.check(coordinates)"
QUERY = "query = self.check(coordinates)"
EMPTY = "refuse(12, self.root is None)"
WEIGHT = "refuse(14, not math.isfinite(weight) or is_minus_zero(weight))"
WALK = "        walk = self.walk(reading)\n        if walk[0].low"
SUM = "self.mass = self.left.mass + self.right.mass"
LESS = "return 1 if self.copies == 1 else self.copies - 1"
SUMS = "    below = added([max(a - x, 0.0) for a, x in zip(node.low, query)])\n    above = added([max(x - b, 0.0) for x, b in zip(query, node.high)])\n"
ONE_SUM = SUMS + "    outside = narrowed(above + below)"
IN_ONE_CHAIN = "    outside = added([max(a - x, 0.0) + max(x - b, 0.0) for a, x, b in zip(node.low, query, node.high)])"
BELOW_ON_TOP = "    outside = added([max(a - x, 0.0) for a, x in zip(node.low, query)] + [max(x - b, 0.0) for x, b in zip(query, node.high)])"
INSERT = "        self.insert(index, reading, *self.winner(walk, reading, words))\n        return index, len(walk)"

# the rule, what is misread, then each text of rules.py and the text in its place
MISREADINGS = [
    ("1", "a share of minus zero is refused", "0.0 <= x <= 1.0", "0.0 <= x <= 1.0 and not is_minus_zero(x)"),
    ("1", "9 channels are refused", "1 <= channels <= 32", "1 <= channels <= 8"),
    ("1", "32 channels are refused", "1 <= channels <= 32", "1 <= channels < 32"),
    ("1", "33 channels are taken", "1 <= channels <= 32", "1 <= channels <= 33"),
    ("1", "capacity 256 is refused", "2 <= capacity <= 256", "2 <= capacity < 256"),
    ("2", "minus zero is a coordinate", "abs(x) <= EDGE and not is_minus_zero(x)", "abs(x) <= EDGE"),
    ("2", "1,048,576 is no coordinate", "abs(x) <= EDGE", "abs(x) < EDGE"),
    ("2", "1,048,577 is a coordinate", "EDGE = 1048576", "EDGE = 1048577"),
    ("2", "a fraction is a coordinate", "x == int(x) and ", ""),
    ("2", "index 1,023 is refused", "INDICES = 1024", "INDICES = 1023"),
    ("2", "index 1,024 is taken", "INDICES = 1024", "INDICES = 1025"),
    ("2", "8 before 6 and 7", *swapped(CHECK, "refuse(8, index in self.leaves)")),
    ("2", "a written index is refused", "refuse(8, index in self.leaves)", "refuse(8, index in self.readings)"),
    ("2", "7 before 6", *swapped("refuse(6, len(coordinates) != self.channels)", "refuse(7, not all(map(is_coordinate, coordinates)))")),
    ("3", "all 64 bits of a word count", "(word >> 11) / 2.0**53", "word / 2.0**64"),
    ("5", "an equal coordinate goes right", "reading[self.channel] <= self.cut", "reading[self.channel] < self.cut"),
    ("6", "no word where the box holds the reading", INSERT,
     "        taken = sum(not holds(node, reading) for node in walk)\n" + INSERT.replace("len(walk)", "taken")),
    ("6", "words from the root to the leaf", "zip(walk, words):", "zip(walk, words[: len(walk)][::-1]):"),
    ("6", "the lowest cut that parts wins", "if parts(node", "if found is None and parts(node"),
    ("6", "the new leaf always left", "(leaf, node) if reading[channel] <= cut else", "(leaf, node) if True else"),
    ("6", "an equal reading answers its own index", "return walk[0].index, 0", "return index, 0"),
    ("6", "an equal reading takes words", "return walk[0].index, 0", "return walk[0].index, len(walk)"),
    ("6", "10 before the walk", WALK, "        refuse(10, len(self.leaves) == self.capacity)\n" + WALK),
    ("6", "11 before 10", *swapped("refuse(10, len(self.leaves) == self.capacity)", "refuse(11, len(words) < len(walk))")),
    ("7", "the node's own upper end", "upper = tuple(map(max, node.high, reading))", "upper = node.high"),
    ("7.1", "the product is not rounded", "sum(sides) * factor(word)", "Fraction(sum(sides)) * Fraction(factor(word))",
     "a + narrowed(rest)", "a + nearest(rest, False)"),
    ("7.1", "the product is rounded to f32", "sum(sides) * factor(word)", "narrowed(sum(sides) * factor(word))"),
    ("7.2", "a side that leaves 0 is passed", "if rest <= side:", "if rest < side:"),
    ("7.2", "a side of 0 is cut", "if side > 0:", "if True:"),
    ("7.3", "the place is counted from the upper end", "narrowed(a + narrowed(rest))", "narrowed(b - narrowed(rest))"),
    ("7.3", "the rest is not narrowed", "narrowed(a + narrowed(rest))", "narrowed(a + rest)"),
    ("7.3", "the sum stays an f64", "narrowed(a + narrowed(rest))", "a + narrowed(rest)"),
    ("7.3", "ties go away from zero", 'struct.unpack("<f", struct.pack("<f", x))[0]', "nearest(x, True)"),
    ("7.3", "the upper end is a place", "a < place < b", "a < place <= b"),
    ("7.3", "the upper end in place of the lower", "if a < place < b else a", "if a < place < b else b"),
    ("7.4", "a cut at the reading does not part", "x <= cut < node.low", "x < cut < node.low"),
    ("7.4", "a cut at the box does not part", "node.high[channel] <= cut", "node.high[channel] < cut"),
    ("8", "a leaf of k > 1 copies has the mass k - 1", "return self.copies", LESS, SUM, "self.mass = self.copies"),
    ("8", "a leaf of two copies counts once", "return self.copies", "return 1 if self.copies == 2 else self.copies"),
    ("8", "every leaf counts once", "return self.copies", "return 1"),
    ("8", "a branch's mass is the number of leaves below it", SUM,
     "self.leaves = getattr(self.left, 'leaves', 1) + getattr(self.right, 'leaves', 1)\n        self.mass = self.leaves"),
    ("8", "a new branch does not count its new leaf", SUM, "self.mass = self.copies - (not hasattr(self, 'mass'))"),
    ("8", "a branch made above a leaf of k > 1 copies has the mass k", SUM,
     "self.less = getattr(self, 'less', any(getattr(side, 'less', side.copies > 1) for side in (self.left, self.right)))\n"
     "        self.mass = self.copies - self.less"),
    ("8", "a copy more is not counted above its leaf", "            self.renew_above(walk[0])\n", ""),
    ("9", "a freed number does not join at the start", "if self.stack and self.stack[-1][0] == number + 1:", "if False:"),
    ("9", "a freed number does not join at the end", "elif self.stack and self.stack[-1][1] == number - 1:", "elif False:"),
    ("9", "the interval freed first is on top", "self.stack.append([number, number])", "self.stack.insert(0, [number, number])"),
    ("9", "the least free number", "        top = self.stack[-1]\n", "        self.stack.sort(reverse=True)\n        top = self.stack[-1]\n"),
    ("10", "a delete answers the index it is given", "return leaf.index", "return index"),
    ("10", "13 by the index", "refuse(13, leaf.low != reading)", "refuse(13, index not in self.leaves)"),
    ("10", "boxes above are not repaired", "self.renew_above(sibling)", "pass"),
    ("10", "12 before 9", *swapped("reading = self.reading(index)", EMPTY)),
    ("11", "a leaf by its index", "refuse(16, id - self.capacity not", "refuse(16, id not", "self.leaves[id - self.capacity]", "self.leaves[id]"),
    ("12", "an entry rises past an equal weight", "self.heavier(i, (i - 1) // 2)", "not self.heavier((i - 1) // 2, i)"),
    ("12", "of two equal ones the right rises", "self.heavier(below + 1, below)", "not self.heavier(below, below + 1)"),
    ("12", "an entry sinks below an equal weight", "if not self.heavier(below, i):", "if self.heavier(i, below):"),
    ("12", "a right one at the end is overlooked", "if below + 1 < len(self.entries) and", "if below + 2 < len(self.entries) and"),
    ("13", "the chance falls by the fill alone", "if fill < share:", "if False:", "if share == 1:", "if False:",
     "(fill - share) / (1.0 - share)", "fill"),
    ("13", "the chance is (1 - fill) / (1 - share)", "1.0 - (fill - share) / (1.0 - share)", "(1.0 - fill) / (1.0 - share)"),
    ("14", "a word at the chance starts", "factor(word) < starting_chance", "factor(word) <= starting_chance"),
    ("14", "an equal weight evicts", "if not weight < self.sample", "if not weight <= self.sample"),
    ("14", "none is evicted before the sample is full", "if not weight < self", "if len(self.sample.entries) < self.capacity or not weight < self"),
    ("14", "the add comes before the delete", "            self.delete(evicted)\n        kept, _ = self.add(index, words)",
     "        kept, _ = self.add(index, words)\n        if evicted is not None:\n            self.delete(evicted)"),
    ("14", "the sample keeps the arrival's own index", "self.sample.into(weight, kept)", "self.sample.into(weight, index)"),
    ("14", "a weight of minus zero is taken", " or is_minus_zero(weight)", ""),
    ("14", "11 before 14", *swapped(WEIGHT, "refuse(11, len(words) < self.capacity)")),
    ("14", "fewer words than the capacity are taken", "refuse(11, len(words) < self.capacity)", "refuse(11, len(words) < 1)"),
    ("15", "depths grow from the leaf up", "len(walk) - 1 - height", "height"),
    ("15", "12 before 6 and 7", *swapped(QUERY, EMPTY)),
    ("15", "a leaf is never equal to the query", "return 0.0 if node.low == query else 1.0", "return 1.0"),
    ("15", "only what lies above counts", "narrowed(above + below)", "above"),
    ("15", "distances are added up in f64", "total = narrowed(total + distance)", "total += distance", "narrowed(above + below)", "above + below"),
    ("15", "the sum of distances is rounded once", "total = narrowed(total + distance)", "total += distance"),
    ("15", "the two sums are added in f64", "narrowed(above + below)", "above + below"),
    ("15", "below and above in one chain", ONE_SUM, IN_ONE_CHAIN),
    ("15", "from the last channel on", "for distance in distances:", "for distance in distances[::-1]:"),
    ("15", "below first, then above on top of it", ONE_SUM, BELOW_ON_TOP),
    ("15", "S / W", "outside / (sides + outside)", "outside / sides"),
    ("15", "1 - W / (W + S)", "outside / (sides + outside)", "1.0 - sides / (sides + outside)"),
]


def nearest(x, away):
    """a number rounded to f32 at once; ties go to even, or away from zero"""
    x = Fraction(x)
    bits = struct.unpack("<I", struct.pack("<f", abs(float(x))))[0]
    near = [(n, Fraction(struct.unpack("<f", struct.pack("<I", n))[0])) for n in range(max(bits - 1, 0), bits + 2)]
    _, _, value = min((abs(value - abs(x)), -n if away else n % 2, value) for n, value in near)
    return float(-value if x < 0 else value)


def module(name, source, **names):
    made = types.ModuleType(name)
    made.__dict__.update(names)
    exec(compile(source, name, "exec"), made.__dict__)
    return made


def misread(edits):
    """carry_out by rules.py with these edits made"""
    source = (HERE / "rules.py").read_text()
    for old, new in zip(edits[::2], edits[1::2]):
        assert source.count(old) == 1, old
        source = source.replace(old, new)
    sys.modules["rules"] = module("rules", source, Fraction=Fraction, nearest=nearest)
    return module("run", (HERE / "run.py").read_text()).carry_out


def differs(carry_out, returned, given, written):
    """whether an answer is another; that a misreading stops does not count"""
    try:
        return carry_out(given, LENT)[:2] != (returned, written)
    except Exception:
        return False


def main(path):
    runs = [record[1:] for record in records(open(path, "rb").read()) if record[0] == 2]
    unnoticed = 0
    for rule, name, *edits in MISREADINGS:
        carry_out = misread(edits)
        if not any(differs(carry_out, *record) for record in runs):
            unnoticed += 1
            print(f"not noticed: rule {rule}, {name}")
    print(f"misread: {len(MISREADINGS)} misreadings, {unnoticed} not noticed")
    return 1 if unnoticed else 0


if __name__ == "__main__":
    sys.exit(main(sys.argv[1]))
