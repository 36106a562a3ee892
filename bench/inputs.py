#!/usr/bin/env python3
"""Writes requests for measuring import and export, and the reading of calls.

usage: inputs.py FOLDER

calls.json, adds.json    500000 nodes, as calls of SUM by name and as sums, of one size in bytes
wide_W.json              SUM over W arguments ABS(A1:A3)
deep_D.json              SUM over 100 arguments, each ABS nested D deep over A1:A3
kept_N_K.json            N nodes, K of them `@`s that can't go: SUM(@A1:A3)
put_N_K.json             N nodes, over K of which import puts an `@` that export can drop
tried_N_K.json           as put_N_K, with one `@` that looks as if import had put it and can't go, so that each `@` is tried
all_kept_K.json          K `@`s that can't go and nothing else: sums of SUM(@A1:A3); all_put_K, sums of A1:A3, over which import
                         puts one; all_tried_K, so with one that looks put and can't go
row_NAME_W.json          a call of NAME over W arguments, each under an `@`, of which that of the last one has to stay: @(A1:A3+1)
row_tried_W.json         CONCATENATE over W arguments as import leaves them, and one that looks put and can't go
rising_choose_W.json     ABS(CHOOSE(1,IF(@A1:A2,1),..)+1) with W alternatives, each one row longer than the one before, and one `@`
                         that looks put and can't go
rising_chain_D.json      ATAN2(@r,ATAN2(@r,..)), D deep, each range one row longer than the one below, and such an `@`
"""

import sys
from pathlib import Path

HEAD = '{"sheets":["Sheet1"],"cells":[],"cell":[0,3,3],"formula":'
RANGE = '["range",0,null,true,true,1,1,true,true,3,1]'
KEPT = f'["call","SUM",["at",false,{RANGE}]]'
LOOKS_PUT = f'["call","SUM",["at",true,{RANGE}]]'


def balanced(leaves, over):
    """One formula over all leaves, its depth the logarithm of their number."""
    row = leaves
    while len(row) > 1:
        pairs = [over(row[i], row[i + 1]) for i in range(0, len(row) - 1, 2)]
        row = pairs + row[len(row) - len(row) % 2 :]
    return row[0]


def add(left, right):
    return f'["add",{left},{right}]'


def sums(left, right):
    return f'["call","SUM",{left},{right}]'


def nested(depth):
    formula = RANGE
    for _ in range(depth):
        formula = f'["call","ABS",{formula}]'
    return formula


def rows(count):
    return f'["range",0,null,true,true,1,1,true,true,{count},1]'


def row(name, wide):
    argument = f'["at",false,{RANGE}]'
    last = f'["at",false,["add",{RANGE},["num",1]]]'
    return f'["call","{name}",' + ",".join([argument] * (wide - 1) + [last]) + "]"


def row_tried(wide):
    argument = f'["at",true,{RANGE}]'
    return '["call","CONCATENATE",' + ",".join([argument] * (wide - 1) + [LOOKS_PUT]) + "]"


def rising_choose(wide):
    parts = [f'["call","IF",["at",true,{rows(2 + number)}],["num",1]]' for number in range(wide)]
    chosen = '["call","ABS",["add",["call","CHOOSE",["num",1],' + ",".join(parts) + '],["num",1]]]'
    return add(chosen, LOOKS_PUT)


def rising_chain(deep):
    formula = '["num",1]'
    for number in range(deep):
        formula = f'["call","ATAN2",["at",true,{rows(2 + number)}],{formula}]'
    return add(formula, LOOKS_PUT)


def of_nodes(nodes, some, nodes_each):
    """A sum of so many nodes in all, of which some are given, each of so many nodes, and the others are numbers."""
    numbers = (nodes + 1 - len(some) * (nodes_each + 1)) // 2
    step = max(1, numbers // max(1, len(some)))
    leaves = []
    for place in range(numbers):
        leaves.append('["num",7]')
        if some and place % step == step - 1:
            leaves.append(some.pop())
    return balanced(leaves + some, add)


def requests():
    leaves = 250000
    calls = balanced(['["num",1]'] * leaves, sums)
    # A call takes seven bytes more than a sum, so every leaf of the sums is a longer number.
    adds = balanced(['["num",10000000]'] * (leaves - 1) + ['["num",1]'], add)
    yield "calls", calls
    yield "adds", adds
    for wide in (1000, 10000, 100000):
        yield f"wide_{wide}", '["call","SUM",' + ",".join(['["call","ABS",' + RANGE + "]"] * wide) + "]"
    for deep in (15, 30, 60, 120):
        yield f"deep_{deep}", '["call","SUM",' + ",".join([nested(deep)] * 100) + "]"
    for nodes, ats in ((10000, 100), (20000, 100), (10000, 200)):
        yield f"kept_{nodes}_{ats}", of_nodes(nodes, [KEPT] * ats, 3)
        yield f"put_{nodes}_{ats}", of_nodes(nodes, [RANGE] * ats, 1)
        yield f"tried_{nodes}_{ats}", of_nodes(nodes, [LOOKS_PUT] + [RANGE] * (ats - 1), 1)
    for ats in (1200, 12000, 200000):
        yield f"all_kept_{ats}", balanced([KEPT] * ats, add)
    for ats in (2000, 20000, 310000):
        yield f"all_put_{ats}", balanced([RANGE] * ats, add)
        yield f"all_tried_{ats}", balanced([LOOKS_PUT] + [RANGE] * (ats - 1), add)
    for wide in (1000, 10000, 100000):
        yield f"row_tried_{wide}", row_tried(wide)
        for name in ("CONCATENATE", "SUM", "CHOOSE"):
            yield f"row_{name}_{wide}", row(name, wide)
    for wide in (100, 1000, 10000):
        yield f"rising_choose_{wide}", rising_choose(wide)
    for deep in (15, 30, 60, 120):
        yield f"rising_chain_{deep}", rising_chain(deep)


def main():
    folder = Path(sys.argv[1])
    folder.mkdir(parents=True, exist_ok=True)
    for name, formula in requests():
        (folder / f"{name}.json").write_text(HEAD + formula + "}")


if __name__ == "__main__":
    main()
