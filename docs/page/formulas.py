"""Formulas as trees: their text as a sheet writes it, and the parts that the page draws.

A formula is a node of docs/REQUEST.md, as `json` reads it. `cell` is [sheet, row, column].
"""

OPERATORS = {
    "concat": "&", "pow": "^", "add": "+", "sub": "-", "mul": "*", "div": "/", "oprange": ":",
    "lt": "<", "gt": ">", "eq": "=", "le": "<=", "ge": ">=", "ne": "<>",
}  # fmt: skip
STRENGTHS = [
    {"lt", "gt", "eq", "le", "ge", "ne"}, {"concat"}, {"add", "sub"}, {"mul", "div"}, {"pow"}, {"neg"}, {"percent"},
    {"at"}, {"oprange"},
]  # fmt: skip


def column_name(number):
    name = ""
    while number:
        number, letter = divmod(number - 1, 26)
        name = chr(ord("A") + letter) + name
    return name


def end_text(cell, row_is_absolute, column_is_absolute, row, column):
    """One end of a reference: a flag says whether its row, its column is a number of the sheet or a difference to the cell."""
    row = ("$", row) if row_is_absolute else ("", cell[1] + row)
    column = ("$", column) if column_is_absolute else ("", cell[2] + column)
    return f"{column[0]}{column_name(column[1])}{row[0]}{row[1]}"


def number_text(millionths):
    whole, rest = divmod(abs(millionths), 1000000)
    return ("-" if millionths < 0 else "") + f"{whole}.{rest:06}".rstrip("0").rstrip(".")


def value_text(value):
    """A value of a cell or of an array."""
    if value is None:
        return "blank"
    if isinstance(value, bool):
        return "TRUE" if value else "FALSE"
    if isinstance(value, int):
        return number_text(value)
    return value["error"] if isinstance(value, dict) else f'"{value}"'


def parts(node):
    """The formulas that a node is made of, in their order."""
    tag = node[0]
    if tag in OPERATORS or tag in ("neg", "percent", "spill"):
        return node[1:]
    if tag == "at":
        return [node[2]]
    return node[2:] if tag == "call" else []


def label(node, cell):
    """What a node says of itself, without its parts."""
    tag = node[0]
    if tag in OPERATORS:
        return OPERATORS[tag]
    if tag in ("ref", "range"):
        sheet = "" if node[2] is None else f"'{node[2]}'!"
        ends = [end_text(cell, *node[3 + 4 * i : 7 + 4 * i]) for i in range(1 if tag == "ref" else 2)]
        return sheet + ":".join(ends)
    if tag == "num":
        return number_text(node[1])
    if tag == "array":
        return "{" + ";".join(",".join(map(value_text, row)) for row in node[1]) + "}"
    if tag == "call":
        return node[1]
    return {"neg": "-", "percent": "%", "spill": "#", "at": "@"}.get(tag) or value_text(node[1])


def strength(node):
    return next((i for i, tags in enumerate(STRENGTHS) if node[0] in tags), len(STRENGTHS))


def text(node, cell):
    """The formula as a sheet writes it, without its `=`."""

    def part(inner, least):
        written = text(inner, cell)
        return f"({written})" if strength(inner) < least else written

    tag, own = node[0], strength(node)
    if tag in OPERATORS:
        return part(node[1], own) + OPERATORS[tag] + part(node[2], own + 1)
    if tag in ("neg", "at"):
        return label(node, cell) + part(parts(node)[0], own)
    if tag in ("percent", "spill"):
        return part(node[1], own) + label(node, cell)
    if tag == "call":
        return f"{node[1]}({','.join(text(it, cell) for it in parts(node))})"
    return label(node, cell)
