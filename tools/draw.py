#!/usr/bin/env python3
"""Draws the pictures of the pages: docs/layers.svg, docs/cut.svg and docs/proofs.svg.

usage: tools/draw.py    writes all three, the same bytes each time; needs Python alone

The layers are checked against crates.txt: each library is drawn, and stands above the libraries that it is made of.
"""

import pathlib
import sys

TOP = pathlib.Path(__file__).resolve().parent.parent
INK, PALE, LINE, SOFT = "#1f2933", "#f4f1ea", "#8a94a0", "#52606d"
GROUND, NODE, TREE, BOOK, CALL, OUTER = "#dfe8d5", "#d7e3ee", "#efe3cc", "#eadbe6", "#d9d6ec", "#e6e8eb"


class Drawing:
    """An SVG drawing that is put together line by line."""

    def __init__(self, width, height, title):
        self.lines = [
            f'<svg xmlns="http://www.w3.org/2000/svg" width="{width}" height="{height}" viewBox="0 0 {width} {height}"'
            f' font-family="DejaVu Sans, Verdana, sans-serif" font-size="13" fill="{INK}" role="img">',
            f"<title>{title}</title>",
            '<defs><marker id="tip" viewBox="0 0 8 8" refX="7" refY="4" markerWidth="8" markerHeight="8" orient="auto">'
            f'<path d="M0 0 L8 4 L0 8 z" fill="{SOFT}"/></marker></defs>',
            f'<rect width="{width}" height="{height}" fill="#ffffff"/>',
        ]

    def box(self, x, y, w, h, fill, dashed=False):
        dash = ' stroke-dasharray="5 4"' if dashed else ""
        self.lines.append(f'<rect x="{x}" y="{y}" width="{w}" height="{h}" rx="4" fill="{fill}" stroke="{LINE}"{dash}/>')

    def text(self, x, y, words, size=13, anchor="middle", bold=False, color=INK):
        weight = ' font-weight="bold"' if bold else ""
        words = words.replace("&", "&amp;").replace("<", "&lt;")
        self.lines.append(
            f'<text x="{x}" y="{y}" font-size="{size}" text-anchor="{anchor}"{weight} fill="{color}">{words}</text>'
        )

    def line(self, x1, y1, x2, y2, tip=False, dashed=False):
        end = ' marker-end="url(#tip)"' if tip else ""
        dash = ' stroke-dasharray="5 4"' if dashed else ""
        self.lines.append(f'<path d="M{x1} {y1} L{x2} {y2}" stroke="{SOFT}" fill="none"{end}{dash}/>')

    def write(self, name):
        path = TOP / "docs" / name
        path.write_text("\n".join(self.lines + ["</svg>", ""]))
        print(path.relative_to(TOP))


# ---- the layers

# From the top down: the layer, its color, and its crates with a word on each.
LAYERS = [
    ("programs", OUTER, [("shift", "a day"), ("replay", "scripts"), ("replay_shared", "of two callers"), ("garbage", "anything"), ("bench", "times")]),
    ("over the bank", OUTER, [("bounds", "how many nodes"), ("bank_c", "from C, Rust"), ("shared", "two callers"), ("replaying", "both replays")]),
    ("the bank", CALL, [("bank", "checks, refusals, all calls, lists of calls")]),
    ("books", BOOK, [("acts", "a call at one place"), ("audit", "is it in good form")]),
    ("", BOOK, [("calls", "the rule of each call, runs"), ("books", "places, books, good form")]),
    ("one tree", TREE, [("insertion", "with splits"), ("cut", "in two")]),
    ("", TREE, [("map", "lookup, least entry, one node"), ("repair", "of a border"), ("walk", "steps, release")]),
    ("", TREE, [("rules", "insertion on trees"), ("parts", "cuts on trees")]),
    ("one node", NODE, [("node", "heads, keys and values in the caller's tables; split, merge, move over, recount")]),
    ("ground", GROUND, [("trial", "node numbers in the order of a list"), ("spares", "can so many be had")]),
    ("", GROUND, [("order", "keys, queries, search"), ("supply", "node numbers: chain, bitmap, shares")]),
]


def crates():
    """Each crate of crates.txt with the crates of the repository that it stands on."""
    found = {}
    for line in (TOP / "crates.txt").read_text().splitlines():
        if line.strip() and not line.startswith("#"):
            name, below = line.split(":")
            found[name.split()[0]] = below.split()
    return {name: [b for b in below if b in found] for name, below in found.items()}


def check_layers():
    """Refuses a drawing that lacks a library, or has one beside or below what it stands on."""
    row = {name: at for at, (_, _, boxes) in enumerate(LAYERS) for name, _ in boxes}
    wrong = []
    for name, below in crates().items():
        if name.endswith("_tests"):
            continue
        if name not in row:
            wrong.append(f"{name} is not drawn")
            continue
        # within one row a box may stand on another, as parts on rules
        wrong += [f"{name} is drawn below {b}, on which it stands" for b in below if b in row and row[b] < row[name]]
    if wrong:
        sys.exit("layers: " + "; ".join(wrong))


def layers():
    check_layers()
    left, width, step, high = 120, 760, 62, 48
    drawing = Drawing(900, 40 + step * len(LAYERS), "The crates, each above those that it stands on")
    for at, (layer, color, boxes) in enumerate(LAYERS):
        y = 24 + at * step
        gap = 10
        wide = (width - gap * (len(boxes) - 1)) // len(boxes)
        if layer:
            drawing.text(left - 14, y + 29, layer, anchor="end", color=SOFT)
        for k, (name, says) in enumerate(boxes):
            x = left + k * (wide + gap)
            drawing.box(x, y, wide, high, color)
            drawing.text(x + wide // 2, y + 21, name, bold=True)
            drawing.text(x + wide // 2, y + 38, says, size=11, color=SOFT)
    drawing.write("layers.svg")


# ---- a cut

CELL, HIGH = 20, 24


def node(drawing, x, y, number, keys, dashed=False, fill=NODE):
    """A node with its number and its keys; answers the middle of its top and of its foot."""
    wide = max(1, len(keys)) * CELL + 12
    drawing.box(x, y, wide, HIGH, fill, dashed)
    for k, key in enumerate(keys):
        drawing.text(x + 6 + k * CELL + CELL // 2, y + 17, str(key), size=12)
    drawing.text(x - 5, y + 17, str(number), size=10, anchor="end", color=SOFT)
    return (x + wide // 2, y), (x + wide // 2, y + HIGH)


def edge(drawing, foot, top, dashed=False):
    drawing.line(foot[0], foot[1], top[0], top[1], tip=True, dashed=dashed)


def cut():
    drawing = Drawing(900, 420, "The tree of 1 to 12 cut at 7, over its spine")
    drawing.text(24, 30, "Before: the tree of height 1, and a spine of two empty nodes, taken first", anchor="start", bold=True)
    _, foot = node(drawing, 190, 48, 2, [7])
    low, _ = node(drawing, 60, 104, 0, [1, 2, 3, 4, 5, 6])
    high, _ = node(drawing, 250, 104, 1, [8, 9, 10, 11, 12])
    edge(drawing, foot, low)
    edge(drawing, foot, high)
    _, foot = node(drawing, 590, 48, 4, [], True, PALE)
    top, _ = node(drawing, 590, 104, 3, [], True, PALE)
    edge(drawing, foot, top, True)
    drawing.text(632, 66, "spine, height 1", size=11, anchor="start", color=SOFT)
    drawing.text(632, 122, "spine, height 0", size=11, anchor="start", color=SOFT)

    drawing.text(24, 170, "The way down: from the root the key 7 and the edge behind it go over, from the leaf 0 nothing", anchor="start", bold=True)
    _, foot = node(drawing, 190, 188, 2, [])
    top, _ = node(drawing, 60, 244, 0, [1, 2, 3, 4, 5, 6])
    edge(drawing, foot, top)
    _, foot = node(drawing, 630, 188, 4, [7], False, PALE)
    top, _ = node(drawing, 560, 244, 3, [], False, PALE)
    edge(drawing, foot, top)
    top, _ = node(drawing, 690, 244, 1, [8, 9, 10, 11, 12])
    edge(drawing, foot, top)

    drawing.text(24, 310, "Afterwards: both borders repaired, and two nodes out", anchor="start", bold=True)
    node(drawing, 60, 330, 0, [1, 2, 3, 4, 5, 6])
    drawing.text(60, 376, "the root 2 has no key: taken off, given back", size=11, anchor="start", color=SOFT)
    node(drawing, 560, 330, 3, [7, 8, 9, 10, 11, 12], False, PALE)
    drawing.text(560, 376, "0 + 5 + 1 fit into one node: 3, the key 7 and 1 merged,", size=11, anchor="start", color=SOFT)
    drawing.text(560, 392, "1 given back; then the root 4 has no key: given back too", size=11, anchor="start", color=SOFT)
    for top, foot in ((48, 134), (188, 274), (330, 396)):
        drawing.line(470, top, 470, foot, dashed=True)
    drawing.text(24, 408, "first place", size=11, anchor="start", color=SOFT)
    drawing.text(876, 408, "second place", size=11, anchor="end", color=SOFT)
    drawing.write("cut.svg")


# ---- how a promise is proved

CHAIN = [
    ("rule", "on trees: insert, left_part, step .. compute", "rules, parts, walk: specs/", TREE),
    ("code", "in tables that hold the tree, it leaves the rule's tree", "node, map, insertion, repair, cut, walk: src/", NODE),
    ("act", "at one place: from book to book, by the rule", "acts: src/", BOOK),
    ("call", "of the bank: checks, then the act; other books stay", "bank: src/, the contract Performs", CALL),
    ("run", "of calls from a granted laying out on", "perform, perform_all: fields runs, even, low", CALL),
]
LAWS = {
    "rule": ("laws of the rule", "formed, in order, the list, the numbers", "rules, parts, walk: specs/Laws.antt"),
    "call": ("what the rule means", "an ordered map's answer, for the lists", "calls: specs/Meaning.antt"),
    "run": ("law over runs", "entries and nodes come out even", "calls: specs/Runs.antt, Laws.antt"),
}


def proofs():
    drawing = Drawing(900, 462, "How a promise is proved: the rule, its laws, the code, the call and the runs")
    step, high, wide = 90, 62, 470
    for at, (name, says, where, color) in enumerate(CHAIN):
        y = 20 + at * step
        drawing.box(24, y, wide, high, color)
        drawing.text(40, y + 36, name, anchor="start", bold=True, size=15)
        drawing.text(100, y + 27, says, anchor="start", size=12)
        drawing.text(100, y + 46, where, anchor="start", size=11, color=SOFT)
        if at + 1 < len(CHAIN):
            drawing.line(24 + wide // 2, y + high, 24 + wide // 2, y + step, tip=True)
        if name in LAWS:
            title, says, where = LAWS[name]
            drawing.box(560, y, 316, high, PALE)
            drawing.text(576, y + 20, title, anchor="start", bold=True)
            drawing.text(576, y + 37, says, anchor="start", size=12)
            drawing.text(576, y + 53, where, anchor="start", size=11, color=SOFT)
            drawing.line(24 + wide, y + high // 2, 560, y + high // 2, tip=True)
    drawing.write("proofs.svg")


if __name__ == "__main__":
    layers()
    cut()
    proofs()
