#!/usr/bin/env python3
"""Draws a printed tree as SVG, each leaf with its reading.

    crates/treelist/out/treelist < TEXT | docs/draw_tree.py TEXT > PICTURE.svg
    crates/treelist/out/treelist < TEXT | docs/draw_tree.py TEXT --mark 5 > PICTURE.svg
    crates/regrow/out/regrow < TEXT | docs/draw_tree.py TEXT > PICTURE.svg

TEXT is what the program was given: it says which reading an index is. Without it a leaf is drawn with its id alone. What is printed
before the tree is skipped, and refused rows are left out of the picture.
"""
import argparse
import html
import math
import re
import struct
import sys
from collections import namedtuple

TREE_NAMES = "id dimension cut left right mass"
TREE_ROW = re.compile(r"(\d+) (?:(\d+) ([0-9A-F]{8}) (\d+) (\d+)|- - - -) (\d+)")
TEXT_HEAD = re.compile(r"dimensions capacity cache16(?: initial16)?\n\d+ (\d+)(?: \d+)+\nop index rest\n")
PUT = re.compile(r"0 (\d+)((?: -?\d+)*)")
REFUSED = re.compile(r"refused \d+ (\d+)")

DEEPEST = 255  # a tree has at most 256 leaves, so no walk has more branches
MARGIN, GAP, DOWN, LINE, LETTER = 24, 20, 44, 18, 7.6

Node = namedtuple("Node", "channel cut left right mass")  # of a leaf all but its mass are None
Picture = namedtuple("Picture", "tree lines spots column marked")


class Unfit(Exception):
    """What was given can't be drawn; the message says why."""


class NoTree(Unfit):
    def __init__(self, why):
        super().__init__(f"no tree on standard input: {why}")


def is_leaf(node):
    return node.channel is None


def sides(node):
    return [] if is_leaf(node) else [node.left, node.right]


def number(bits):
    """The f32 of these digits."""
    return struct.unpack(">f", bytes.fromhex(bits))[0]


def read_tree(lines):
    """The nodes by their ids, the root first, and the numbers of the rows that were refused."""
    if TREE_NAMES not in lines:
        raise NoTree(f"it has no line '{TREE_NAMES}', and begins with {lines[0][:40]!a}")
    start = lines.index(TREE_NAMES)
    refused = {int(found[1]) for line in lines[:start] if (found := REFUSED.fullmatch(line))}
    tree = {}
    for line in filter(None, lines[start + 1:]):
        found = TREE_ROW.fullmatch(line)
        if not found or found[1] in tree or (found[3] and not math.isfinite(number(found[3]))):
            raise NoTree(f"{line[:60]!a} is no row of one, or an id's second")
        tree[found[1]] = Node(found[2], found[3] and number(found[3]), found[4], found[5], found[6])
    return tree, refused


def read_text(path, refused):
    """The capacity, and each index's reading: the last that was put and not refused."""
    try:
        with open(path, encoding="ascii") as file:
            text = file.read()
    except OSError as error:
        raise Unfit(f"{path}: {error.strerror}")
    except UnicodeDecodeError:
        text = ""
    head = TEXT_HEAD.match(text)
    if not head:
        raise Unfit(f"{path} is no text of treelist or regrow: its first three lines are others")
    rows = enumerate(text[head.end():].splitlines(), 1)
    puts = [found for at, row in rows if at not in refused and (found := PUT.fullmatch(row))]
    return int(head[1]), {int(put[1]): put[2].split() for put in puts}


def place(tree, id, depth, spots):
    """Leaves stand side by side, a branch above the middle of its sides."""
    if id not in tree:
        raise NoTree(f"{id} is a side, but has no row")
    if id in spots or depth > DEEPEST:
        raise NoTree(f"{id} is a side of two branches or below itself, or deeper than {DEEPEST} branches")
    before = sum(is_leaf(tree[other]) for other in spots)
    spots[id] = None
    below = [place(tree, side, depth + 1, spots) for side in sides(tree[id])]
    across = sum(below) / 2 if below else before
    spots[id] = (across, depth)
    return across


def placed(tree):
    spots = {}
    if tree:
        place(tree, next(iter(tree)), 0, spots)
    if len(spots) < len(tree):
        raise NoTree("it has rows that its root does not lead to")
    return spots


def cut_words(node):
    """A cut to two places, rounded down: so every reading, a whole number, is on the side that it is drawn on."""
    return f"channel {node.channel} at {math.floor(node.cut * 100) / 100:.2f}".rstrip("0").rstrip(".")


def leaf_lines(id, archive, path):
    if archive is None:
        return [f"leaf {id}"]
    capacity, table = archive
    index = int(id) - capacity
    if index not in table:
        raise Unfit(f"{path} puts no reading for leaf {id}: this tree is of another text")
    return [f"reading {index}", f"({', '.join(table[index])})"]


def marks(tree, archive, indices):
    """The ids of the marked leaves."""
    if indices and archive is None:
        raise Unfit("--mark needs TEXT, which says which reading a leaf is")
    ids = {str(index + archive[0]): index for index in indices}
    for id, index in ids.items():
        if id not in tree or not is_leaf(tree[id]):
            raise Unfit(f"reading {index} can't be marked: it is no leaf of this tree")
    return set(ids)


def picture(tree, archive, path, indices, word):
    """What each node's box says, first line first, and where it stands."""
    lines = {id: leaf_lines(id, archive, path) if is_leaf(node) else [f"branch {id}, mass {node.mass}", cut_words(node)] for id, node in tree.items()}
    marked = marks(tree, archive, indices)
    for id in marked:
        lines[id].append(word)
    widest = max((width(lines[id]) for id in tree if is_leaf(tree[id])), default=width(["an empty tree"]))
    return Picture(tree, lines, placed(tree), widest + GAP, marked)


def width(lines):
    return max(100, LETTER * max(map(len, lines)) + 16)


def middle(pic, id):
    """The middle of a box's upper edge."""
    across, depth = pic.spots[id]
    return MARGIN + pic.column * (across + 0.5), MARGIN + depth * (2 * LINE + 12 + DOWN)


def bottom(pic, id):
    return middle(pic, id)[1] + LINE * len(pic.lines[id]) + 12


def text(x, y, words, style="", anchor="middle"):
    return f'<text x="{x:.0f}" y="{y:.0f}" text-anchor="{anchor}"{style}>{html.escape(words)}</text>'


def box(pic, id):
    x, y = middle(pic, id)
    wide, high = width(pic.lines[id]), bottom(pic, id) - y
    kind = "marked" if id in pic.marked else "leaf" if is_leaf(pic.tree[id]) else "branch"
    corner = 0 if kind == "branch" else 8
    parts = [f'<rect x="{x - wide / 2:.0f}" y="{y:.0f}" width="{wide:.0f}" height="{high:.0f}" rx="{corner}" class="{kind}"/>']
    last = len(pic.lines[id]) - 1
    for at, words in enumerate(pic.lines[id]):
        style = ' class="word"' if kind == "marked" and at == last else ' font-weight="bold"' if at == 0 else ""
        parts.append(text(x, y + LINE * (at + 1), words, style))
    return parts


def leads_to_mark(pic, id):
    return id in pic.marked or any(leads_to_mark(pic, side) for side in sides(pic.tree[id]))


def lines_down(pic, id):
    """The lines from a branch to its sides: down, across and down. The words stand above the line across, at either hand of the first."""
    x, y = middle(pic, id)[0], bottom(pic, id)
    across = y + DOWN / 2 + 4
    parts = []
    for side in sorted(sides(pic.tree[id]), key=lambda side: leads_to_mark(pic, side)):
        to_x, to_y = middle(pic, side)
        style = ' class="way"' if leads_to_mark(pic, side) else ""
        parts.append(f'<path d="M{x:.0f} {y:.0f}V{across:.0f}H{to_x:.0f}V{to_y:.0f}"{style}/>')
    return parts + [text(x - 8, across - 6, "at or below", anchor="end"), text(x + 8, across - 6, "above", anchor="start")]


def drawn(pic):
    leaves = sum(map(is_leaf, pic.tree.values()))
    wide = 2 * MARGIN + pic.column * max(leaves, 1)
    high = MARGIN + max((bottom(pic, id) for id in pic.tree), default=MARGIN + LINE)
    yield f'<svg xmlns="http://www.w3.org/2000/svg" role="img" width="{wide:.0f}" height="{high:.0f}" viewBox="0 0 {wide:.0f} {high:.0f}" font-family="sans-serif" font-size="12">'
    yield f"<title>A tree of {leaves} leaves</title>"
    yield "<style>rect{stroke:#345}.page{fill:#fff;stroke:none}.leaf{fill:#fff3c4}.branch{fill:#dfe8f2}.marked{fill:#ffd9cf;stroke:#b3261e;stroke-width:3}"
    yield ".word{fill:#8c1d18;font-weight:bold}path{stroke:#789;fill:none}.way{stroke:#b3261e;stroke-width:3}</style>"
    yield f'<rect class="page" width="{wide:.0f}" height="{high:.0f}"/>'
    if not pic.tree:
        yield text(MARGIN, MARGIN + LINE, "an empty tree", anchor="start")
    for id, node in pic.tree.items():
        yield from [] if is_leaf(node) else lines_down(pic, id)
    for id in pic.tree:
        yield from box(pic, id)
    yield "</svg>"


def asked():
    parser = argparse.ArgumentParser(description=__doc__, formatter_class=argparse.RawDescriptionHelpFormatter)
    parser.add_argument("text", metavar="TEXT", nargs="?", help="the text that the tree was grown from")
    parser.add_argument("--mark", metavar="INDEX", type=int, action="append", default=[], help="mark this reading, and the way to it, by colour and a word; may be given more than once")
    parser.add_argument("--word", default="the odd one", help="the word for marked readings (default: %(default)s)")
    return parser


def main():
    parser = asked()
    options = parser.parse_args()
    given = "" if sys.stdin is None or sys.stdin.isatty() else sys.stdin.buffer.read().decode("ascii", "replace")
    if not given:
        parser.print_help(sys.stderr)
        return 1
    try:
        tree, refused = read_tree(given.splitlines())
        archive = None if options.text is None else read_text(options.text, refused)
        lines = list(drawn(picture(tree, archive, options.text, options.mark, options.word)))
    except Unfit as unfit:
        print(f"draw_tree: {unfit}", file=sys.stderr)
        return 1
    print("\n".join(lines))
    return 0


sys.exit(main())
