#!/usr/bin/env python3
"""Prints the rows of `line` and `curve`, two functions of the crate `square_root`, module inverse_table.

The inverse root of u, for u from 1 to 4, in units of 2^-31, as a polynomial of degree 4 on each of 16 equal stretches from 1 to 2 and 16 from
2 to 4: the one that has the inverse root's values at the Chebyshev nodes.  Its constant is 5 lower, so that the estimate lies below the root.
A row of `line` is a * 2^32 + b, and one of `curve` c * 2^40 + e * 2^20 + f, for a - b d + c d^2 - e d^3 + f d^4.
"""
import mpmath as mp

mp.mp.prec = 200
NODES = [(1 + mp.cos(mp.pi * (2 * j + 1) / 10)) / 2 for j in range(5)]


def row(low, width):
    values = mp.matrix([1 / mp.sqrt(low + width * d) for d in NODES])
    powers = mp.matrix([[d**k for k in range(5)] for d in NODES])
    polynomial = mp.lu_solve(powers, values)
    return [int(mp.nint(polynomial[k] * (-1) ** k * 2**31 - (5 if k == 0 else 0))) for k in range(5)]


rows = [row(mp.mpf(2) ** b * (1 + mp.mpf(i) / 16), mp.mpf(2) ** b / 16) for b in range(2) for i in range(16)]
for i, (a, b, c, e, f) in enumerate(rows):
    print("line ", i, a << 32 | b)
for i, (a, b, c, e, f) in enumerate(rows):
    print("curve", i, c << 40 | e << 20 | f)
