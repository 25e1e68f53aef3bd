#!/usr/bin/env python3
"""Sheets of several blocks, the pivots that `factor` prints for them and the solution's list, as crates/worked_cases has them.

Written from document 01 with Python's doubles (call_list.py has the arithmetic); no line of it comes from the definitions that it is compared with.
Prints each sheet's lines, its output lines and the words of its solution. Numbers are drawn by a fixed generator, so that a run prints the same again.
"""
import os
import random
import sys

sys.path.insert(0, os.path.dirname(os.path.abspath(__file__)))
import call_list


def word(x):
    return "%016x" % call_list.word(x)


def sheet(seed, m, p, n, cross):
    """A campaign's cross-products: cross(block, level, block, level) says which cells of Z'Z are present."""
    rng = random.Random(seed)
    draw = lambda low, high: round(rng.uniform(low, high), 3)
    q = sum(m)
    owner = [(b, l) for b, levels in enumerate(m) for l in range(levels)]
    zz = {}
    for i in range(q):
        zz[i, i] = draw(3, 9)
        for j in range(i):
            if owner[i][0] != owner[j][0] and cross(*owner[j], *owner[i]):
                zz[i, j] = zz[j, i] = draw(0.1, 0.9)
    zx = [[draw(-1, 1) for _ in range(p)] for _ in range(q)]
    zy = [draw(-1, 1) for _ in range(q)]
    xx = [[draw(-1, 1) + (9 if r == c else 0) for c in range(r + 1)] for r in range(p)]
    xy = [draw(-1, 1) for _ in range(p)]
    yy = draw(20, 30)
    theta = [draw(0.3, 1.9) for _ in m]
    return dict(n=n, p=p, m=m, q=q, zz=zz, zx=zx, zy=zy, xx=xx, xy=xy, yy=yy, theta=theta)


def text(s):
    out = [f"size {s['n']} {s['p']} {s['q']} {len(s['m'])} 1"]
    out += [f"block {m} 1" for m in s["m"]]
    out += [f"zz {c} {r} {word(x)}" for (c, r), x in sorted(s["zz"].items())]
    out += [f"zx {r} {c} {word(x)}" for r, row in enumerate(s["zx"]) for c, x in enumerate(row)]
    out += [f"zy {r} {word(x)}" for r, x in enumerate(s["zy"])]
    out += [f"xx {r} {c} {word(x)}" for r, row in enumerate(s["xx"]) for c, x in enumerate(row)]
    out += [f"xy {r} {word(x)}" for r, x in enumerate(s["xy"])]
    out += [f"yy {word(s['yy'])}"]
    out += [f"theta {i} {word(t)}" for i, t in enumerate(s["theta"])]
    return out


def workspace(s, sparse=False):
    """What load makes of the sheet; with its pair stored sparse, which load never does with one this small."""
    lines = [line for line in text(s) if not line.startswith("theta")]
    w = call_list.workspace_of("".join(line.replace(" ", "\t") + "\n" for line in lines).encode())
    if not sparse:
        return w
    rows = [next(r for r in range(w.m[1]) if w.loaded[1, 0][r, c] != 0) for c in range(w.m[0])]
    v = call_list.Workspace(w.n, w.p, w.m, w.order, True, True, rows)
    for t, block in v.loaded.items():
        v.loaded[t] = {c: w.loaded[t][c] for c in block}
    return v


def outputs(s, sparse=False):
    """The pivots' lines, and the words of the solution."""
    w = workspace(s, sparse)
    pivots = call_list.pivots(w, s["theta"]).replace("\t", " ").splitlines()
    return pivots, [word(x) for x in w.solution(False)[2]]


SHEETS = [
    ("dense", sheet(1, [2, 3], 2, 40, lambda *at: True)),
    ("diagonal", sheet(2, [2, 3], 1, 30, lambda b, l, c, r: (l + r) % 2 == 0 if r < 2 else l == 1)),
    ("wide", sheet(4, [3, 7], 2, 60, lambda b, l, c, r: l == (r * r + 1) % 3)),
    ("three", sheet(3, [1, 2, 2], 1, 25, lambda b, l, c, r: (b + l + r) % 3 != 0)),
]

if __name__ == "__main__":
    for name, s in SHEETS:
        print(name)
        print("\n".join(text(s)))
        for lines in outputs(s):
            print("\n".join(lines))
    # the rules for a sparse pair
    print("\n".join(outputs(dict(SHEETS)["wide"], sparse=True)[1]))
