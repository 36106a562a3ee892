"""Formulas drawn as trees, as SVG: each node a word, each `@` a disc.

A tree is [word, fate, below]: what a node says of itself; of an `@` its fate, one of COLOURS; the trees of its parts.
"""

from html import escape

import formulas

LETTER, GAP, LEVEL, HEIGHT = 8.5, 18, 50, 24  # pixels: a letter, between two nodes, between two levels, a node
COLOURS = {"put": "#1a7f37", "written": "#0969da", "dropped": "#8c959f"}
FONT = "font-family='ui-monospace,Menlo,Consolas,DejaVu Sans Mono,monospace' font-size='14'"


def tree(node, cell):
    """The tree of a formula, whose `@`s were put by import or written by hand."""
    fate = ("put" if node[1] else "written") if node[0] == "at" else None
    return [formulas.label(node, cell), fate, [tree(it, cell) for it in formulas.parts(node)]]


def tree_of_export(imported, exported, cell):
    """The tree of an imported formula, where each `@` that its export lacks is dropped."""
    is_dropped = imported[0] == "at" and exported[0] != "at"
    word, fate, _ = tree(imported, cell)
    others = [exported] if is_dropped else formulas.parts(exported)
    below = [tree_of_export(one, other, cell) for one, other in zip(formulas.parts(imported), others)]
    return [word, "dropped" if is_dropped else fate, below]


def place(tree, left=0.0, depth=0):
    """The tree's boxes, as dicts with the middle of each, and how far they reach to the right."""
    word, fate, below = tree
    width = HEIGHT if fate else max(HEIGHT, len(word) * LETTER + 14)
    boxes, edge = [], left
    for it in below:
        box, edge = place(it, edge, depth + 1)
        boxes.append(box)
        edge += GAP
    middle = (boxes[0]["x"] + boxes[-1]["x"]) / 2 if boxes else left + width / 2
    shift = max(0.0, left + width / 2 - middle)
    for it in boxes:
        move(it, shift)
    box = {"x": middle + shift, "y": depth * LEVEL + HEIGHT / 2 + 2, "width": width, "word": word, "fate": fate, "below": boxes}
    return box, max(edge - GAP + shift if boxes else left, box["x"] + width / 2)


def move(box, by):
    box["x"] += by
    for it in box["below"]:
        move(it, by)


def marks_of_lines(box):
    for it in box["below"]:
        yield f"<path d='M{box['x']:.1f} {box['y']:.1f}L{it['x']:.1f} {it['y']:.1f}' stroke='#8c959f' fill='none'/>"
        yield from marks_of_lines(it)


def marks_of_words(box):
    x, y, ink = box["x"], box["y"], "#1f2328"
    if box["fate"]:
        ink = colour = COLOURS[box["fate"]]
        look = "fill='#fff' stroke-dasharray='3 3'" if box["fate"] == "dropped" else f"fill='{colour}'"
        ink = colour if box["fate"] == "dropped" else "#fff"
        yield f"<circle cx='{x:.1f}' cy='{y:.1f}' r='12' stroke='{colour}' {look}/>"
    else:
        width = box["width"]
        yield (
            f"<rect x='{x - width / 2:.1f}' y='{y - HEIGHT / 2:.1f}' width='{width:.1f}' height='{HEIGHT}' rx='5' "
            "fill='#f6f8fa' stroke='#d0d7de'/>"
        )
    yield f"<text x='{x:.1f}' y='{y + 5:.1f}' text-anchor='middle' fill='{ink}' {FONT}>{escape(box['word'])}</text>"
    for it in box["below"]:
        yield from marks_of_words(it)


def drawn(tree):
    """The marks of a drawing of a tree, its width and its height."""
    box, width = place(tree, 1.0)

    def depth_of(box):
        return 1 + max(map(depth_of, box["below"]), default=0)

    return "".join([*marks_of_lines(box), *marks_of_words(box)]), width + 1, (depth_of(box) - 1) * LEVEL + HEIGHT + 4


def picture(marks, width, height):
    size = f"width='{width:.0f}' height='{height:.0f}' viewBox='0 0 {width:.0f} {height:.0f}'"
    return f"<svg xmlns='http://www.w3.org/2000/svg' {size} role='img'>{marks}</svg>"
