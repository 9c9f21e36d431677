#!/usr/bin/env python3
"""Draws the crates of crates.txt as SVG, in layers from the bottom up.

    docs/draw_map.py < crates.txt > docs/map.svg

A comment line of crates.txt opens a layer. A line is drawn from a crate to each crate that it needs by itself: not to those that it
needs only through another, and not to those of the lowest layer, which nearly all need.
"""
import sys

WIDE, HIGH, GAP, MARGIN, LABEL = 140, 30, 16, 16, 200


def read(lines):
    """The layers, each a heading and its crates, and what each crate is listed with."""
    layers, needs = [], {}
    for line in lines:
        if line.startswith("# "):
            layers.append((line[2:].strip().rstrip("."), []))
        elif ":" in line:
            name, rest = line.split(":", 1)
            # a static library has that word behind its name
            name = name.split()[0]
            layers[-1][1].append(name)
            needs[name] = rest.split()
    return [layer for layer in layers if layer[1]], needs


def direct(needs):
    """What each crate needs by itself."""
    def through(name, seen):
        for other in needs.get(name, []):
            if other not in seen:
                seen.add(other)
                through(other, seen)
        return seen

    below = {name: through(name, set()) for name in needs}
    return {name: [other for other in mine if other in needs and not any(other in below[third] for third in mine if third in needs)] for name, mine in needs.items()}


def rows(crates, lines):
    """The crates of a layer in rows: one that stands on another of its layer is in a row above it."""
    height = {}
    for name in crates:
        height[name] = max((height[other] + 1 for other in lines[name] if other in height), default=0)
    return [[name for name in crates if height[name] == at] for at in range(max(height.values()) + 1)]


def place(layers, lines):
    """Where each crate stands, the first layer lowest, and the bands of the layers. Every second row is set in, so that lines pass beside crates."""
    spots, bands, y, turn = {}, [], MARGIN, 0
    for heading, crates in reversed(layers):
        top = y
        for row in reversed(rows(crates, lines)):
            for at, name in enumerate(row):
                spots[name] = (LABEL + at * (WIDE + GAP) + turn % 2 * (WIDE // 2 + GAP), y + GAP)
            y += HIGH + GAP
            turn += 1
        y += GAP
        bands.append((heading, top, y))
        y += GAP
    return spots, bands, y


def wrapped(text, most=26):
    line, lines = "", []
    for word in text.split():
        if line and len(line) + 1 + len(word) > most:
            lines.append(line)
            line = word
        else:
            line = f"{line} {word}".strip()
    return lines + [line]


def main():
    layers, needs = read(sys.stdin.read().splitlines())
    lines = direct(needs)
    spots, bands, height = place(layers, lines)
    width = max(x for x, _ in spots.values()) + WIDE + MARGIN
    print(f'<svg xmlns="http://www.w3.org/2000/svg" width="{width}" height="{height}" font-family="sans-serif" font-size="12">')
    print("<style>.band{fill:#f4f6f8}.crate{fill:#dfe8f2;stroke:#345}path{stroke:#9ab;fill:none}text{fill:#123}</style>")
    for heading, top, bottom in bands:
        print(f'<rect class="band" x="0" y="{top}" width="{width}" height="{bottom - top}"/>')
        for at, part in enumerate(wrapped(heading)):
            print(f'<text x="{MARGIN}" y="{top + 24 + 15 * at}">{part}</text>')
    lowest = layers[0][1]
    for name, others in lines.items():
        x, y = spots[name]
        for other in (crate for crate in others if crate not in lowest):
            u, v = spots[other]
            print(f'<path d="M{x + WIDE // 2} {y + HIGH} C{x + WIDE // 2} {y + HIGH + 24} {u + WIDE // 2} {v - 24} {u + WIDE // 2} {v}"/>')
    for name, (x, y) in spots.items():
        print(f'<rect class="crate" x="{x}" y="{y}" width="{WIDE}" height="{HIGH}" rx="4"/>')
        print(f'<text x="{x + WIDE // 2}" y="{y + 19}" text-anchor="middle">{name}</text>')
    print("</svg>")


main()
