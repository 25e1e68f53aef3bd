#!/usr/bin/env python3
"""Writes the test vectors of the kernels.

    kernel_list.py STDIN STDOUT

STDIN gets the cases that the program `kernel_tests` reads, and STDOUT what it must print of them.

How the list is made.  Written from document 01, Records 4 and 7, with Python's doubles, which are IEEE 754's, one operation at a time in the
paper's order; no line of it comes from the kernels or from the definitions that they are proved equal to.  A root is math.sqrt.  The
logarithm is the project's whole-number one (crates/logarithm/specs/Ln.antt), worked out here in whole numbers.

A case is a kernel's number, its whole-number arguments, two doubles, the lists w and v of doubles and h of row numbers, and what the kernel
must leave and answer.  The kernel works on w; v is only read.  Blocks lie in the middle of the lists with other doubles before, between and
behind them, and the whole of w is printed.  A kernel that takes no offset is lent the lists from its blocks on.  A dense block lies by
columns, cell (r, c) at its offset + c * rows + r, a triangle by rows.

Numbers are drawn by a fixed generator, so the list is the same at each run: numbers of ordinary size, of far apart magnitudes, with many
zeros of either sign, subnormal ones, and with infinities and NaN among them.  Sizes are 1 to 7 in each direction, a few times 0, and 9, 12,
16, 37, 21 and 13, with a few blocks of 60 and 316 rows and a diagonal of 8200.

STDIN is lines of 16 lower-case hexadecimal digits, a word each.  A case is

     0       its number, which counts from 1
     1       the kernel's number, its place in KERNELS
     2 to 8  its whole-number arguments in their order, 0 where it has fewer
     9, 10   its doubles, 0 where it has fewer
    11, 12   where w and v begin for the kernel
    13, 14   where the doubles of w begin that are not printed, and how many: the block of a refused C
    15 to 17 the lengths of w, v and h
    18       their sum
    then     w, v and h

STDOUT has a line for each case, with its number, the kernel's number and the word of the answer: a refused pivot's row, counted from 1, or
the word of the double that it answers, and 0 where it answers neither.  Then comes a line for each double that the kernel leaves in w, but
those that are not printed: its word.  Each number and each word has a blank before it.

Every NaN is the word 7ff8000000000000.
"""
import math
import random
import struct
import sys

NAN, INF = math.nan, math.inf
HEAD = 19


def word(x):
    return 0x7FF8000000000000 if x != x else struct.unpack(">Q", struct.pack(">d", x))[0]


# ---- arithmetic: what Python's doubles leave out

def over(a, b):
    if b != 0:
        return a / b
    return NAN if a == 0 or a != a else math.copysign(INF, a) * math.copysign(1, b)


def ln(x):
    """(u - 1074) ln 2 + 2 artanh ((m - c) / (m + c)) in units of 2^-62, each step cut down, and one rounding."""
    if x != x or x == INF:
        return x
    if x == 0:
        return -INF
    if x < 0:
        return NAN
    bits = word(x)
    m, e = bits % 2**52, (bits >> 52) + 51
    if e == 51:
        e = 52
        while m < 2**52:
            m, e = 2 * m, e - 1
    else:
        m += 2**52
    near = m < 3 * 2**51
    c, u = (2**52, e) if near else (2**53, e + 1)
    unit = 2**62
    z = abs(m - c) * unit // (m + c)
    t = z * z // unit
    horner = 0
    for k in reversed(range(10)):
        horner = unit // (2 * k + 1) + horner * t // unit
    series = 2 * (z * horner // unit)
    whole = abs(u - 1074) * 3196577161300663914
    total = (whole if u >= 1074 else -whole) + (series if m >= c else -series)
    return total / unit


def dot(a, b):
    total = 0.0
    for x, y in zip(a, b, strict=True):
        total = total + x * y
    return total


def chain(start, a, b):
    for x, y in zip(a, b, strict=True):
        start = start - x * y
    return start


# ---- the steps and the solves

def cholesky(a):
    """C, column by column: the factor, or the row of the refused pivot."""
    n = len(a)
    factor = [[0.0] * (r + 1) for r in range(n)]
    for c in range(n):
        radicand = chain(a[c][c], factor[c][:c], factor[c][:c])
        if radicand <= 0:
            return None, c
        factor[c][c] = math.sqrt(radicand)
        for r in range(c + 1, n):
            factor[r][c] = over(chain(a[r][c], factor[r][:c], factor[c][:c]), factor[c][c])
    return factor, None


def forward(b, factor):
    row = []
    for c, x in enumerate(b):
        row.append(over(chain(x, row, factor[c][:c]), factor[c][c]))
    return row


def backward(b, factor):
    z = list(b)
    for i in reversed(range(len(b))):
        below = range(i + 1, len(b))
        z[i] = over(chain(b[i], [factor[r][i] for r in below], [z[r] for r in below]), factor[i][i])
    return z


def logs(s, pivots):
    for x in pivots:
        s = s + ln(x)
    return s


def pivots_of(triangle):
    return [row[-1] for row in triangle]


# ---- numbers

class Draw:
    """The numbers of one case."""

    def __init__(self, rng, kind):
        self.rng, self.kind = rng, kind
        self.rare = rng.choice([0.02, 0.05, 0.1, 0.25])

    def special(self):
        return self.rng.choice([
            0.0, -0.0, 0.0, -0.0, 5e-324, -5e-324, 2.0**-1022, -(2.0**-1022), 2.225073858507201e-308, sys.float_info.max,
            -sys.float_info.max, 1.0, -1.0, 2.0**1000, -(2.0**600), 2.0**-600, INF, -INF, NAN])

    def number(self):
        rng, kind = self.rng, self.kind
        x = rng.uniform(-2, 2)
        if kind == "plain":
            return x
        if kind == "magnitudes":
            return x * 10.0 ** rng.randint(-9, 9)
        if kind == "far":
            return math.ldexp(x, rng.randint(-560, 500))
        if kind == "zeros":
            return rng.choice([0.0, -0.0]) if rng.random() < 0.4 else x
        if kind == "subnormal":
            return math.ldexp(x, rng.randint(-1074, -1000)) if rng.random() < 0.4 else math.ldexp(x, rng.randint(-545, -500))
        return self.special() if rng.random() < self.rare else x * 10.0 ** rng.randint(-2, 2)

    def above(self):
        """A pivot: above 0, or in special cases one that passes all the same, as NaN does."""
        if self.kind == "special" and self.rng.random() < self.rare:
            return self.rng.choice([INF, NAN, 5e-324, 1.0, sys.float_info.max])
        x = abs(self.number())
        return x if 0 < x < INF else self.rng.uniform(0.5, 2)

    def numbers(self, n):
        return [self.number() for _ in range(n)]

    def block(self, rows, cols):
        return [self.numbers(cols) for _ in range(rows)]

    def triangle(self, n):
        return [self.numbers(r + 1) for r in range(n)]

    def factor(self, n):
        """A triangle with pivots to divide by, most of them not small against the cells beside them."""
        t = self.triangle(n)
        for r in range(n):
            t[r][r] = self.above() if self.kind == "special" or self.rng.random() < 0.3 else self.rng.uniform(1, 9)
        return t

    def definite(self, n):
        """A positive definite triangle, its rows of several magnitudes."""
        b = [[self.rng.uniform(-1, 1) for _ in range(n)] for _ in range(n)]
        d = [2.0 ** self.rng.randint(*{"far": (-240, 240), "subnormal": (-520, -500)}.get(self.kind, (-6, 6))) for _ in range(n)]
        odd = [self.rng.uniform(0.3, 1.7) for _ in range(n)]
        return [[(dot(b[r], b[c]) + (self.rng.uniform(0.2, 2) if r == c else 0.0)) * odd[r] * odd[c] * d[r] * d[c]
                 for c in range(r + 1)] for r in range(n)]


KINDS = ["plain", "magnitudes", "special", "zeros", "far", "special", "subnormal"]


def dense(block):
    """The cells of a dense block by columns."""
    return [row[c] for c in range(len(block[0]) if block else 0) for row in block]


def packed(triangle):
    return [x for row in triangle for x in row]


def arranged(draw, **blocks):
    """A list with the blocks in it in any order, other doubles before, between and behind them, and where each block begins."""
    rng = draw.rng
    w, at = [], {}
    names = list(blocks)
    rng.shuffle(names)
    for name in names:
        w += draw.numbers(rng.choice([0, 1, 1, 2, 3]))
        at[name] = len(w)
        w += blocks[name]
    w += draw.numbers(rng.choice([0, 1, 2, 3]))
    return w, at


def stored(w, off, cells):
    return w[:off] + cells + w[off + len(cells):]


class Case:
    def __init__(self, w, after, numbers, v=(), h=(), s=0.0, t=0.0, row=0, value=0.0, free=(0, 0)):
        self.w, self.after, self.numbers, self.v, self.h = w, after, numbers, v, h
        self.s, self.t, self.row, self.value, self.free = s, t, row, value, free

    def words(self, number, kernel):
        """The case's lines of STDIN."""
        assert len(self.w) <= 8704 and len(self.v) <= 8704 and len(self.h) <= 1024 and len(self.numbers) <= 7
        k = LENT.get(KERNELS[kernel][0], 0)
        lent, given = self.numbers[:k], self.numbers[k:]
        head = [number, kernel, *given, *[0] * (7 - len(given)), word(self.s), word(self.t), *lent, *[0] * (2 - k)]
        lists = [word(x) for x in self.w] + [word(x) for x in self.v] + list(self.h)
        head += [*self.free, len(self.w), len(self.v), len(self.h), len(lists)]
        assert len(head) == HEAD
        return head + lists

    def printed(self, number, kernel):
        """The case's lines of STDOUT."""
        assert len(self.w) == len(self.after) and not (self.row and word(self.value))
        at, n = self.free
        yield f" {number} {kernel} {self.row or word(self.value):016x}\n"
        yield from (f" {word(x):016x}\n" for i, x in enumerate(self.after) if not at <= i < at + n)


# ---- sizes

SMALL = range(1, 8)
LARGE = [9, 12, 16, 21, 37]


def one_size():
    """n, several times each."""
    yield from [0, *SMALL, *SMALL, *SMALL, *SMALL, *SMALL, *SMALL, *SMALL, *SMALL, *LARGE, *LARGE]


def two_sizes():
    yield from ((a, b) for a in SMALL for b in SMALL)
    yield from [(0, 3), (3, 0), (9, 12), (12, 9), (16, 9), (9, 16), (12, 16), (1, 16), (16, 1), (13, 5), (5, 13), (8, 8), (37, 21), (37, 13)]


def three_sizes(rng):
    yield from ((a, b, rng.randint(1, 7)) for a in SMALL for b in SMALL)
    yield from [(0, 3, 2), (3, 0, 2), (3, 2, 0), (9, 12, 16), (16, 9, 12), (12, 16, 9), (9, 9, 9), (8, 8, 8), (4, 12, 3), (13, 5, 9), (37, 21, 13)]


# ---- the kernels' cases, by name

def chol_cases(draws):
    large = set()
    for n in [*one_size(), 60]:
        draw = next(draws)
        a = draw.definite(n)
        turn = draw.rng.random()
        # the first of each large size stays positive definite
        if n > 7 and n not in large:
            large.add(n)
            turn = 1
        if n and turn < 0.3:
            # refused, or passed with a NaN or an infinity
            r = draw.rng.randrange(n)
            a[r][r] = draw.rng.choice([0.0, -0.0, -1.5, -INF, NAN, NAN, INF, 5e-324, -5e-324, a[r][r] / 64])
        elif n > 1 and turn < 0.5:
            r = draw.rng.randrange(1, n)
            c = draw.rng.randrange(r)
            a[r][c] = draw.rng.choice([NAN, INF, 0.0, -0.0, a[r][c] * 64, 5e-324])
        w, at = arranged(draw, t=packed(a))
        factor, refused = cholesky(a)
        if factor is None:
            yield Case(w, w, [at["t"], n], row=refused + 1, free=(at["t"], n * (n + 1) // 2))
        else:
            yield Case(w, stored(w, at["t"], packed(factor)), [at["t"], n])


def chol_diagonal_cases(draws):
    for n in one_size():
        draw = next(draws)
        d = [draw.above() for _ in range(n)]
        if n and draw.rng.random() < 0.3:
            d[draw.rng.randrange(n)] = draw.rng.choice([0.0, -0.0, -1.5, -INF, -5e-324, NAN, INF])
        w, at = arranged(draw, t=d)
        bad = [r for r, x in enumerate(d) if x <= 0]
        if bad:
            yield Case(w, w, [at["t"], n], row=bad[0] + 1, free=(at["t"], n))
        else:
            yield Case(w, stored(w, at["t"], [math.sqrt(x) for x in d]), [at["t"], n])


def log_numbers(draw, n):
    pick = [1.0, 1.0, math.nextafter(1, 2), math.nextafter(1, 0), 2.0, 0.5, 5e-324, 2.0**-1022, sys.float_info.max, 1.4999999999999998, 1.5]
    odd = [0.0, -0.0, -1.0, INF, NAN, -INF]
    out = []
    for _ in range(n):
        turn = draw.rng.random()
        out.append(draw.rng.choice(odd) if draw.kind == "special" and turn < draw.rare else draw.rng.choice(pick) if turn < 0.3 else draw.above())
    return out


def log_start(draw):
    return draw.rng.choice([0.0, 0.0, -0.0, draw.number(), draw.rng.uniform(-99, 99)])


def log_cases(diagonal, later):
    def cases(draws):
        for n in one_size():
            draw = next(draws)
            pivots = log_numbers(draw, n)
            t = draw.triangle(n)
            for r in range(n):
                t[r][r] = pivots[r]
            w, at = arranged(draw, t=pivots if diagonal else packed(t))
            s = log_start(draw)
            yield Case(w, w, [at["t"], n], s=s, value=s + logs(0.0, pivots) if later else logs(s, pivots))
    return cases


def solve_cases(solve):
    """A vector in w, the factor in v."""
    def cases(draws):
        for n in [*one_size(), 60]:
            draw = next(draws)
            b, factor = draw.numbers(n), draw.factor(n)
            w, at = arranged(draw, b=b)
            v, l = arranged(draw, l=packed(factor))
            yield Case(w, stored(w, at["b"], solve(b, factor)), [at["b"], l["l"], n], v)
    return cases


def divide_cases(draws):
    for n in one_size():
        draw = next(draws)
        b, d = draw.numbers(n), [draw.number() for _ in range(n)]
        w, at = arranged(draw, b=b)
        v, l = arranged(draw, l=d)
        yield Case(w, stored(w, at["b"], [over(x, y) for x, y in zip(b, d)]), [at["b"], l["l"], n], v)


def get_cases(draws):
    for n in one_size():
        if n:
            draw = next(draws)
            t = draw.triangle(n)
            w, at = arranged(draw, t=packed(t))
            r = draw.rng.randrange(n)
            c = draw.rng.randrange(r + 1)
            yield Case(w, w, [at["t"], r, c], value=t[r][c])


def set_cases(draws):
    for n in one_size():
        if n:
            draw = next(draws)
            t = draw.triangle(n)
            w, at = arranged(draw, t=packed(t))
            r = draw.rng.randrange(n)
            c = draw.rng.randrange(r + 1)
            x = t[r][c] = draw.number()
            yield Case(w, stored(w, at["t"], packed(t)), [at["t"], r, c], s=x)


def divide_columns_cases(draws):
    for rows, cols in two_sizes():
        draw = next(draws)
        b, d = draw.block(rows, cols), draw.numbers(cols)
        w, at = arranged(draw, b=dense(b), d=d)
        yield Case(w, stored(w, at["b"], dense([[over(x, y) for x, y in zip(row, d)] for row in b])), [at["b"], rows, cols, at["d"]])


def solve_rows_cases(draws):
    for rows, cols in two_sizes():
        draw = next(draws)
        b, factor = draw.block(rows, cols), draw.factor(cols)
        w, at = arranged(draw, b=dense(b), l=packed(factor))
        yield Case(w, stored(w, at["b"], dense([forward(row, factor) for row in b])), [at["b"], rows, cols, at["l"]])


def scale_cases(twice):
    def cases(draws):
        for n in one_size():
            draw = next(draws)
            a = draw.numbers(n)
            s, t = draw.number(), draw.number() if twice else 0.0
            after = [(x * s) * t for x in a] if twice else [x * s for x in a]
            w, at = arranged(draw, t=draw.numbers(n), a=a)
            yield Case(w, stored(w, at["t"], after), [at["t"], at["a"], n], s=s, t=t)
    return cases


def rows_of(draw, n, m):
    """A row below m for each of n columns, and the list of row numbers that has them from `first` on."""
    rows = [draw.rng.randrange(m) for _ in range(n)]
    before = [draw.rng.randrange(2**32) for _ in range(draw.rng.randint(0, 3))]
    behind = [draw.rng.randrange(2**32) for _ in range(draw.rng.randint(0, 3))]
    return rows, before + rows + behind, len(before)


def subtract_sparse_cases(draws):
    for rows, cols, inner in three_sizes(random.Random("sparse")):
        if cols == 0:
            continue
        draw = next(draws)
        t, a, entry = draw.block(rows, cols), draw.block(rows, inner), draw.numbers(inner)
        row, h, first = rows_of(draw, inner, cols)
        after = [[chain(t[r][c], [a[r][x] for x in range(inner) if row[x] == c], [entry[x] for x in range(inner) if row[x] == c])
                  for c in range(cols)] for r in range(rows)]
        w, at = arranged(draw, t=dense(t), a=dense(a), e=entry)
        yield Case(w, stored(w, at["t"], dense(after)), [at["t"], rows, cols, at["a"], at["e"], inner, first], h=h)


def subtract_dense_cases(draws):
    for rows, cols, inner in [*three_sizes(random.Random("dense")), (316, 2, 3)]:
        draw = next(draws)
        t, a, b = draw.block(rows, cols), draw.block(rows, inner), draw.block(cols, inner)
        after = [[t[r][c] - dot(a[r], b[c]) for c in range(cols)] for r in range(rows)]
        w, at = arranged(draw, t=dense(t), a=dense(a), b=dense(b))
        yield Case(w, stored(w, at["t"], dense(after)), [at["t"], rows, cols, at["a"], at["b"], inner])
    # both sources one block
    for n, inner in [(3, 4), (5, 7), (9, 12)]:
        draw = next(draws)
        t, a = draw.block(n, n), draw.block(n, inner)
        after = [[t[r][c] - dot(a[r], a[c]) for c in range(n)] for r in range(n)]
        w, at = arranged(draw, t=dense(t), a=dense(a))
        yield Case(w, stored(w, at["t"], dense(after)), [at["t"], n, n, at["a"], at["a"], inner])


def rank_cases(cell):
    """S of a triangle by one block."""
    def cases(draws):
        for rows, inner in [*two_sizes(), (60, 2)]:
            draw = next(draws)
            t, a = draw.triangle(rows), draw.block(rows, inner)
            after = [[cell(t[r][c], a[r], a[c]) for c in range(r + 1)] for r in range(rows)]
            w, at = arranged(draw, t=packed(t), a=dense(a))
            yield Case(w, stored(w, at["t"], packed(after)), [at["t"], rows, at["a"], inner])
    return cases


def matvec_sub_cases(draws):
    for rows, cols in two_sizes():
        draw = next(draws)
        y, z, x = draw.numbers(rows), draw.numbers(cols), draw.block(rows, cols)
        w, at = arranged(draw, y=y, z=z)
        v, l = arranged(draw, x=dense(x))
        yield Case(w, stored(w, at["y"], [y[r] - dot(x[r], z) for r in range(rows)]), [at["y"], rows, at["z"], cols, l["x"]], v)


def matvec_t_sub_cases(draws):
    for rows, cols in two_sizes():
        draw = next(draws)
        y, z, x = draw.numbers(cols), draw.numbers(rows), draw.block(rows, cols)
        w, at = arranged(draw, y=y, z=z)
        v, l = arranged(draw, x=dense(x))
        yield Case(w, stored(w, at["y"], [y[c] - dot([row[c] for row in x], z) for c in range(cols)]), [at["y"], cols, at["z"], rows, l["x"]], v)


def sparse_matvec_sub_cases(draws):
    for rows, cols in two_sizes():
        if rows == 0:
            continue
        draw = next(draws)
        y, z, x = draw.numbers(rows), draw.numbers(cols), draw.numbers(cols)
        row, h, first = rows_of(draw, cols, rows)
        after = list(y)
        for c in range(cols):
            if z[c] != 0:
                after[row[c]] = after[row[c]] - x[c] * z[c]
        w, at = arranged(draw, y=y, z=z)
        v, l = arranged(draw, x=x)
        yield Case(w, stored(w, at["y"], after), [at["y"], rows, at["z"], cols, l["x"], first], v, h)


def sparse_matvec_t_sub_cases(draws):
    for rows, cols in two_sizes():
        if rows == 0:
            continue
        draw = next(draws)
        y, z, x = draw.numbers(cols), draw.numbers(rows), draw.numbers(cols)
        row, h, first = rows_of(draw, cols, rows)
        after = [y[c] - dot([x[c]], [z[row[c]]]) for c in range(cols)]
        w, at = arranged(draw, y=y, z=z)
        v, l = arranged(draw, x=x)
        yield Case(w, stored(w, at["y"], after), [at["y"], cols, at["z"], rows, l["x"], first], v, h)


def init_cases(diagonal):
    def cases(draws):
        for n in one_size():
            draw = next(draws)
            a, t = draw.numbers(n), draw.number()
            d = [(t * t) * x + 1 for x in a]
            after = d if diagonal else packed([[0.0] * r + [d[r]] for r in range(n)])
            w, at = arranged(draw, t=draw.numbers(len(after)), a=a)
            yield Case(w, stored(w, at["t"], after), [at["t"], n, at["a"]], s=t)
    return cases


def loaded_cells(draw, n):
    """Loaded cells: finite, many of them ±0."""
    return [draw.rng.choice([0.0, -0.0]) if draw.rng.random() < 0.35 else draw.rng.choice([1.0, -3.5, 5e-324, 1e300, draw.rng.uniform(-2, 2)])
            for _ in range(n)]


def rank_diagonal_cases(draws):
    for n, inner in [*two_sizes(), (316, 2)]:
        draw = next(draws)
        t, a = draw.numbers(n), draw.block(n, inner)
        loaded = [loaded_cells(draw, inner) for _ in range(n)]
        after = []
        for r in range(n):
            cells = [a[r][x] for x in range(inner) if loaded[r][x] != 0]
            after.append(t[r] - dot(cells, cells))
        w, at = arranged(draw, t=t, a=dense(a), l=dense(loaded))
        yield Case(w, stored(w, at["t"], after), [at["t"], n, at["a"], inner, at["l"]])


def rank_diagonal_sparse_cases(draws):
    # at last many rows, and entries in the last of them
    for n, inner in [*two_sizes(), (8200, 9)]:
        draw = next(draws)
        t, a, loaded = draw.numbers(n), draw.numbers(inner), loaded_cells(draw, inner)
        # an entry of no row changes none
        row, h, first = rows_of(draw, inner, n + 2 if n < 8200 else 16)
        if n == 8200:
            row = [8184 + r for r in row]
            h = h[:first] + row + h[first + inner:]
        after = []
        for r in range(n):
            cells = [a[x] for x in range(inner) if row[x] == r and loaded[x] != 0]
            after.append(t[r] - dot(cells, cells))
        w, at = arranged(draw, t=t, a=a, l=loaded)
        yield Case(w, stored(w, at["t"], after), [at["t"], n, at["a"], inner, at["l"], first], h=h)


KERNELS = [
    ("cholesky::chol", chol_cases),
    ("diagonal_chol::chol_diagonal", chol_diagonal_cases),
    ("pivot_logs::log_pivots", log_cases(False, False)),
    ("pivot_logs::log_diagonal", log_cases(True, False)),
    ("substitution::solve_row", solve_cases(forward)),
    ("back_substitution::backward", solve_cases(backward)),
    ("triangle_cells::get", get_cases),
    ("triangle_cells::set", set_cases),
    ("divide_columns::divide_columns", divide_columns_cases),
    ("sparse_schur::subtract_sparse", subtract_sparse_cases),
    ("scaling::scale_twice", scale_cases(True)),
    ("scaling::scale_once", scale_cases(False)),
    ("cross_block::solve_rows", solve_rows_cases),
    ("schur_dense::subtract_dense", subtract_dense_cases),
    ("dense_triangle::rank_sub", rank_cases(lambda t, a, b: t - dot(a, b))),
    ("last_triangle::subtract_last", rank_cases(chain)),
    ("cross_matvec::matvec_sub", matvec_sub_cases),
    ("matvec_t::matvec_t_sub", matvec_t_sub_cases),
    ("sparse_matvec::sparse_matvec_sub", sparse_matvec_sub_cases),
    ("sparse_matvec_t::sparse_matvec_t_sub", sparse_matvec_t_sub_cases),
    ("triangle_init::init", init_cases(False)),
    ("diagonal_init::init_diagonal", init_cases(True)),
    ("re_factor::chol", chol_cases),
    ("re_factor::chol_diagonal", chol_diagonal_cases),
    ("block_logs::log_pivots", log_cases(False, False)),
    ("block_logs::log_diagonal", log_cases(True, False)),
    ("block_logs::logs_later", log_cases(False, True)),
    ("block_logs::logs_later_diagonal", log_cases(True, True)),
    ("block_solve::forward", solve_cases(forward)),
    ("block_solve::backward", solve_cases(backward)),
    ("block_divide::divide", divide_cases),
    ("rank_diagonal::rank_sub_diagonal", rank_diagonal_cases),
    ("rank_diagonal_sparse::rank_sub_diagonal_sparse", rank_diagonal_sparse_cases),
]


# How many of the first numbers of a case say where w and v begin, for the kernels that take no offset.
LENT = {
    "cholesky::chol": 1,
    "diagonal_chol::chol_diagonal": 1,
    "pivot_logs::log_pivots": 1,
    "pivot_logs::log_diagonal": 1,
    "substitution::solve_row": 2,
    "back_substitution::backward": 2,
    "triangle_cells::get": 1,
    "triangle_cells::set": 1,
}


# The draws of these kernels are named after their first names, so that the list stays as it was.
FIRST_NAMES = {
    "cross_matvec::matvec_sub": "matvec::less_product",
    "matvec_t::matvec_t_sub": "matvec::less_product_t",
    "sparse_matvec::sparse_matvec_sub": "sparse_matvec::less_sparse",
    "diagonal_chol::chol_diagonal": "re_lower::chol_diagonal",
    "pivot_logs::log_pivots": "substitution::log_pivots",
    "pivot_logs::log_diagonal": "substitution::log_diagonal",
    "back_substitution::backward": "substitution::backward",
    "triangle_cells::get": "re_lower::get",
    "triangle_cells::set": "re_lower::set",
    "divide_columns::divide_columns": "cross_block::divide_columns",
    "schur_dense::subtract_dense": "schur::subtract_dense",
    "dense_triangle::rank_sub": "schur::rank_sub",
    "last_triangle::subtract_last": "schur::subtract_last",
    "sparse_matvec_t::sparse_matvec_t_sub": "sparse_matvec::less_sparse_t",
    "triangle_init::init": "diagonal_init::init",
    "block_logs::log_pivots": "re_factor::log_pivots",
    "block_logs::log_diagonal": "re_factor::log_diagonal",
    "block_logs::logs_later": "re_factor::logs_later",
    "block_logs::logs_later_diagonal": "re_factor::logs_later_diagonal",
    "block_divide::divide": "block_solve::divide",
    "rank_diagonal_sparse::rank_sub_diagonal_sparse": "rank_diagonal::rank_sub_diagonal_sparse",
}


def draws_of(name):
    rng = random.Random(FIRST_NAMES.get(name, name))
    k = 0
    while True:
        yield Draw(rng, KINDS[k % len(KINDS)])
        k += 1


def main(arguments):
    if len(arguments) != 2:
        sys.exit(__doc__)
    cases, printed, number = [], [], 0
    for kernel, (name, made) in enumerate(KERNELS):
        for case in made(draws_of(name)):
            number += 1
            cases += [f"{x:016x}\n" for x in case.words(number, kernel)]
            printed += case.printed(number, kernel)
    for path, lines in zip(arguments, (cases, printed), strict=True):
        with open(path, "w", encoding="ascii", newline="\n") as out:
            out.writelines(lines)


main(sys.argv[1:])
