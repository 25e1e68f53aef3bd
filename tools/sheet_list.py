#!/usr/bin/env python3
"""The test sheets of load and replace_response, for call_list.py.

    sheet_list.py --loaded SHEET OUT

writes what load must leave of a file with a sheet and its theta lines: the counts of numbers and of doubles, the numbers and the
doubles, all lowest byte first.

The stored list of call_list.py was made with eight sheets of the Rust original's generator beside those that are written here; that generator is in
the original's folder, which is kept apart from this repository (call_list.py): `gen.py` with
12,7 2 40 1 crossed; 20,5 3 60 2 nested; 5,20 2 60 3 nested; 9,9,4 2 50 4 crossed; 6 1 20 5 crossed; 40,30,20 3 60 6 crossed;
3,2,2,1,1,1,1,1 1 30 7 crossed; 15,15 4 80 8 crossed --exact.

How the cases are made.  `read`, `judge`, `lay` and `load` below are written from document 01 (Records 1 to 3, "Refused because of the input", number
20) and document 02 (the line that 9 names, item 1) alone, as they read: whole lines, split at tabs, dictionaries for the entries.  They share nothing with the proved reader.  Where
document 01 leaves the memory's order open, docs/DECISIONS.md has it (points 22 to 24).  The sheets are written here: a few whole ones, and from
them, line by line and field by field, damaged ones.

A case: a sheet, the lengths of the heading and of the doubles that load is lent, and what load must answer and leave.  The lists are filled
with a pattern before, and a refused call must leave it.  An accepted one may go on: numbers of the heading are altered, both
slices are cut, and replace_response is called with three lists; what it must answer and leave follows.
"""
import itertools
import random
import re
import struct
import sys

NUMBER = re.compile(rb"(0|[1-9][0-9]*)\Z")
WORD = re.compile(rb"[0-9a-f]{16}\Z")
PATTERN_U32 = 0xA5A5A5A5
PATTERN_F64 = 0x4045ABCDEF012345


class Refused(Exception):
    def __init__(self, number, *places):
        super().__init__(number)
        places = list(places) + [0, 0]
        self.answer = (number, places[0], places[1])


# ---- Record 1

def infinite(w):
    return (w >> 52) & 0x7FF == 0x7FF


def lines_of(text):
    """The lines that an LF ends, and what stands behind the last LF."""
    parts = text.split(b"\n")
    return parts[:-1], parts[-1]


class Sheet:
    pass


def fields(line, tag, numbers, words):
    """The numbers and words of a line in form, else None."""
    if line is None:
        return None
    f = line.split(b"\t")
    if len(f) != 1 + numbers + words or f[0] != tag:
        return None
    if not all(NUMBER.match(x) for x in f[1:1 + numbers]) or not all(WORD.match(x) for x in f[1 + numbers:]):
        return None
    return [int(x) for x in f[1:1 + numbers]] + [int(x, 16) for x in f[1 + numbers:]]


def read(text):
    """Refusals 1 to 4."""
    if len(text) > 16777216:
        raise Refused(1)
    lines, rest = lines_of(text)

    def line(number):
        return lines[number - 1] if number <= len(lines) else None

    at = 1
    size = fields(line(at), b"size", 5, 0)
    if size is None:
        raise Refused(2, at)
    s = Sheet()
    s.n, s.p, s.q, s.k, s.flag = size
    if not (1 <= s.n <= 10**9 and 1 <= s.p <= 32 and s.q <= 524280 and s.k <= 8 and s.flag <= 1):
        raise Refused(4, at)
    s.blocks = []
    for _ in range(s.k):
        at += 1
        b = fields(line(at), b"block", 2, 0)
        if b is None:
            raise Refused(2, at)
        if not (1 <= b[0] <= 65535 and 1 <= b[1] <= 16):
            raise Refused(4, at)
        s.blocks.append(tuple(b))
    s.zz = {}
    s.zz_line = {}
    last = None
    while True:
        here = line(at + 1)
        if here is None or here.split(b"\t")[0] != b"zz":
            break
        at += 1
        e = fields(here, b"zz", 2, 1)
        if e is None or (last is not None and (e[0], e[1]) <= last):
            raise Refused(2, at)
        if infinite(e[2]):
            raise Refused(3, at)
        if e[0] >= s.q or e[1] >= s.q:
            raise Refused(4, at)
        last = (e[0], e[1])
        s.zz[last] = e[2]
        s.zz_line[last] = at

    def due(tag, *index):
        nonlocal at
        at += 1
        f = fields(line(at), tag, len(index), 1)
        if f is None or tuple(f[:-1]) != index:
            raise Refused(2, at)
        if infinite(f[-1]):
            raise Refused(3, at)
        return f[-1]

    s.zx = [[due(b"zx", r, c) for c in range(s.p)] for r in range(s.q)]
    s.zy = [due(b"zy", r) for r in range(s.q)]
    s.xx = [[due(b"xx", r, c) for c in range(r + 1)] for r in range(s.p)]
    s.xy = [due(b"xy", r) for r in range(s.p)]
    s.yy = due(b"yy")
    if len(lines) > at or rest:
        raise Refused(2, at + 1)
    return s


# ---- 5 to 9

def judge(s):
    if s.flag == 0:
        raise Refused(5)
    if s.k == 0:
        raise Refused(6)
    if any(e != 1 for m, e in s.blocks):
        raise Refused(7)
    if s.q != sum(m for m, e in s.blocks):
        raise Refused(8)
    block = [b for b, (m, e) in enumerate(s.blocks) for _ in range(m)]
    faulty = []
    for (col, row), w in s.zz.items():
        zero = w & 0x7FFFFFFFFFFFFFFF == 0
        inside = col != row and block[col] == block[row]
        if zero or inside or s.zz.get((row, col)) != w:
            faulty.append(s.zz_line[(col, row)])
    if faulty:
        raise Refused(9, min(faulty))


# ---- Record 2

class Layout:
    pass


def lay(s):
    y = Layout()
    y.order = sorted(range(s.k), key=lambda b: -s.blocks[b][0])
    y.m = [s.blocks[b][0] for b in y.order]
    starts = [sum(m for m, e in s.blocks[:b]) for b in range(s.k)]
    y.start = [starts[b] for b in y.order]
    y.sparse = y.diagonal = False
    rows_of = {}
    for col, row in s.zz:
        rows_of.setdefault(col, []).append(row)

    def column(i, j, c):
        """The rows, in block i, of the entries of level c of block j."""
        return [row - y.start[i] for row in rows_of.get(y.start[j] + c, []) if 0 <= row - y.start[i] < y.m[i]]

    y.column = column
    for j in range(1, s.k):
        for jj in range(j):
            cells = y.m[j] * y.m[jj]
            each = s.k == 2 and all(len(column(j, jj, c)) == 1 for c in range(y.m[jj]))
            if cells > 100000:
                if s.k > 2:
                    raise Refused(10, j, jj)
                entries = sum(len(column(j, jj, c)) for c in range(y.m[jj]))
                if not each or not entries / cells <= 0.35:
                    raise Refused(11, j, jj)
                y.sparse = True
            if s.k == 2:
                y.diagonal = each
    return y


def triangle(m):
    return m * (m + 1) // 2


def needs(s, y):
    """Doubles and numbers: the formula."""
    x = sum(y.m[jj] if y.sparse else y.m[j] * y.m[jj] for j in range(1, s.k) for jj in range(j))
    f = s.q * (s.p + 1) + triangle(s.p + 1)
    d = y.m[0] + sum(m if y.diagonal else triangle(m) for m in y.m[1:])
    return s.q + s.k + d + 2 * x + 2 * f + 1, 128 + (x if y.sparse else 0)


# ---- Record 3

def steps(k):
    return (k + 1) + (k + 1) * k // 2 + k * (k + 1) * (k + 2) // 6


def load(s, y):
    pad = [0] * (8 - s.k)
    heading = [s.n, s.p, s.q, s.k] + y.m + pad + y.order + pad + [int(y.sparse), int(y.diagonal), 0, steps(s.k)] + [0] * 45 + [0] * 59
    w = []
    for j in range(s.k):
        w += [s.zz.get((y.start[j] + c, y.start[j] + c), 0) for c in range(y.m[j])]
    for j in range(1, s.k):
        for jj in range(j):
            for c in range(y.m[jj]):
                if y.sparse:
                    row, = y.column(j, jj, c)
                    heading.append(row)
                    w.append(s.zz[(y.start[jj] + c, y.start[j] + row)])
                else:
                    w += [s.zz.get((y.start[jj] + c, y.start[j] + r), 0) for r in range(y.m[j])]
    for j in range(s.k):
        for c in range(y.m[j]):
            w += s.zx[y.start[j] + c] + [s.zy[y.start[j] + c]]
    for row in s.xx:
        w += row
    w += s.xy + [s.yy]
    doubles, numbers = needs(s, y)
    assert len(heading) == numbers
    return heading, w + [0] * (doubles - len(w))


def respond(s, y, zy, xy, yy):
    """Index and word of each double of the response."""
    at = s.q + sum(y.m[jj] if y.sparse else y.m[j] * y.m[jj] for j in range(1, s.k) for jj in range(j))
    changed = []
    for j in range(s.k):
        for c in range(y.m[j]):
            changed.append((at + s.p, zy[y.start[j] + c]))
            at += s.p + 1
    at += triangle(s.p)
    return changed + [(at + c, xy[c]) for c in range(s.p)] + [(at + s.p, yy[0])]


# ---- cases

class Case:
    """One call of load, and perhaps one of replace_response."""

    def __init__(self, text, heading=None, doubles=None):
        self.text = text
        self.answer = (0, 0, 0)
        self.heading = self.doubles = []
        self.after = None
        try:
            self.sheet = read(text)
            judge(self.sheet)
            self.layout = lay(self.sheet)
            d, n = needs(self.sheet, self.layout)
            self.room = (n + heading if heading is not None else n + 2, d + doubles if doubles is not None else d + 3)
            if self.room[0] < n or self.room[1] < d:
                raise Refused(12)
            self.heading, self.doubles = load(self.sheet, self.layout)
        except Refused as r:
            self.answer = r.answer
            if r.answer[0] != 12:
                self.room = (130, 60)

    def then(self, lists, altered=(), numbers=0, doubles=0, broken=False):
        """replace_response, the lent slices longer or shorter than the formula by so many; broken: the heading is no longer a workspace's."""
        n, d = len(self.heading) + numbers, len(self.doubles) + doubles
        assert n <= self.room[0] and d <= self.room[1] and self.answer[0] == 0
        zy, xy, yy = lists
        wanted = (self.sheet.q, self.sheet.p, 1)
        changed = []
        if broken:
            answer = (20, 0, 0)
        else:
            answer = None
            for i, l in enumerate(lists):
                if answer is None and len(l) != wanted[i]:
                    answer = (13, i, 0)
            for i, l in enumerate(lists):
                for j, w in enumerate(l):
                    if answer is None and infinite(w):
                        answer = (14, i, j)
            if answer is None:
                answer = (0, 0, 0)
                changed = respond(self.sheet, self.layout, zy, xy, yy)
        self.after = (list(altered), n, d, lists, answer, changed)
        return self


def bits(x):
    return struct.unpack(">Q", struct.pack(">d", x))[0]


def word(x):
    return b"%016x" % (x if isinstance(x, int) else bits(x))


def write(n, p, blocks, zz, rng, flag=1, q=None):
    """A sheet in form: zz a dictionary of words by (col, row); the other words are drawn."""
    q = sum(m for m, e in blocks) if q is None else q
    out = [b"size\t%d\t%d\t%d\t%d\t%d" % (n, p, q, len(blocks), flag)]
    out += [b"block\t%d\t%d" % b for b in blocks]
    out += [b"zz\t%d\t%d\t%s" % (c, r, word(w)) for (c, r), w in sorted(zz.items())]

    def draw():
        return word(rng.choice([rng.gauss(0, 1), float(rng.randint(-9, 9)), -0.0, 5e-324, 1.7e308, rng.gauss(0, 1e-300)]))

    out += [b"zx\t%d\t%d\t%s" % (r, c, draw()) for r in range(q) for c in range(p)]
    out += [b"zy\t%d\t%s" % (r, draw()) for r in range(q)]
    out += [b"xx\t%d\t%d\t%s" % (r, c, draw()) for r in range(p) for c in range(r + 1)]
    out += [b"xy\t%d\t%s" % (r, draw()) for r in range(p)]
    out += [b"yy\t%s" % draw()]
    return out


def join(lines):
    return b"".join(l + b"\n" for l in lines)


# Faults of number 9, each at the entry (c, r) of zz.

def plus_zero(zz, at, sizes):
    return {**zz, at: 0.0}


def minus_zero(zz, at, sizes):
    return {**zz, at: -0.0}


def opposite_zeros(zz, at, sizes):
    """The entry +0 and its mirror -0; on the diagonal -0."""
    return {**zz, at: 0.0, at[::-1]: -0.0}


def equal_zeros(zz, at, sizes):
    """The entry and its mirror +0: equal bits, and two faults."""
    return {**zz, at: 0.0, at[::-1]: 0.0}


def last_bit(zz, at, sizes):
    """A bit of the word is another: off the diagonal its mirror is at fault too."""
    if at not in zz:
        return plus_zero(zz, at, sizes)
    return {**zz, at: (zz[at] if isinstance(zz[at], int) else bits(zz[at])) ^ 1}


def absent(zz, at, sizes):
    """The entry is left out: its mirror has none."""
    return {e: w for e, w in zz.items() if e != at}


def inside(zz, at, sizes):
    """Two equal mirrors inside a block: the first of at least two levels that is not before the entry's, else the last such."""
    starts = [sum(sizes[:b]) for b in range(len(sizes))]
    wide = [b for b, m in enumerate(sizes) if m > 1]
    if not wide:
        return plus_zero(zz, at, sizes)
    b = next((b for b in wide if starts[b] + sizes[b] > at[0]), wide[-1])
    c, r = starts[b], starts[b] + sizes[b] - 1
    return {**zz, (c, r): 3.0, (r, c): 3.0}


def inside_alone(zz, at, sizes):
    """The one above the diagonal of these two, without its mirror."""
    two = inside(zz, at, sizes)
    new = sorted(e for e in two if e not in zz)
    return absent(two, new[0], sizes) if new else two


FAULTS = (plus_zero, minus_zero, opposite_zeros, equal_zeros, last_bit, absent, inside, inside_alone)


def one_of_each(zz, order, unequal):
    """The three kinds of fault in this order of blocks 0 to 2, which have two levels each: a zero, an entry inside a block, one without its mirror."""
    for b, kind in enumerate(order):
        c = 2 * b
        if kind == "zero":
            zz[(c, c)] = -0.0
        elif kind == "inside":
            zz[(c, c + 1)] = zz[(c + 1, c)] = 2.0
        elif unequal:
            zz[(c, 5 if b < 2 else 1)] = 77.0
        else:
            del zz[(4, c) if b < 2 else (1, 4)]
    return zz


def symmetric(sizes, rng, density, one_each=False):
    """Entries of blocks of these sizes: some diagonals, mirrored pairs."""
    zz = {}
    starts = [sum(sizes[:b]) for b in range(len(sizes))]
    for b, m in enumerate(sizes):
        for i in range(m):
            if rng.random() < 0.8:
                zz[(starts[b] + i, starts[b] + i)] = float(rng.randint(1, 9))
    big = max(range(len(sizes)), key=lambda b: (sizes[b], -b))
    for a in range(len(sizes)):
        for b in range(a):
            for i in range(sizes[a]):
                for j in range(sizes[b]):
                    if not one_each and rng.random() < density:
                        zz[(starts[a] + i, starts[b] + j)] = zz[(starts[b] + j, starts[a] + i)] = rng.choice([1.5, -2.0, 5e-324, 1e300])
    if one_each:
        other = 1 - big
        for c in range(sizes[big]):
            r = rng.randrange(sizes[other])
            zz[(starts[big] + c, starts[other] + r)] = zz[(starts[other] + r, starts[big] + c)] = float(rng.randint(1, 5))
    return zz


WORKED = [b"size\t3\t1\t1\t1\t1", b"block\t1\t1", b"zz\t0\t0\t4008000000000000", b"zx\t0\t0\t4000000000000000", b"zy\t0\t4010000000000000",
          b"xx\t0\t0\t4014000000000000", b"xy\t0\t4018000000000000", b"yy\t4022000000000000"]


def damaged(lines):
    """Each field of each line damaged, one at a time."""
    for i, l in enumerate(lines):
        f = l.split(b"\t")
        for j, x in enumerate(f):
            bad = [b"", x + b" ", b"+" + x, x + b"\r"]
            if j == 0:
                bad += [x.upper(), x + b"x"]
            elif len(x) == 16:
                bad += [x[:-1], x + b"0", x.upper() if x.upper() != x else b"g" + x[1:], b"7ff0000000000000", b"fff8000000000000"]
            else:
                bad += [b"0" + x, b"-" + x, x + b"0", b"18446744073709551617", b"99999999999999999999999"]
            for b in bad:
                yield lines[:i] + [b"\t".join(f[:j] + [b] + f[j + 1:])] + lines[i + 1:]
        yield lines[:i] + [l + b"\t"] + lines[i + 1:]
        yield lines[:i] + [l.replace(b"\t", b"\t\t", 1)] + lines[i + 1:]
        yield lines[:i] + [l.replace(b"\t", b" ", 1)] + lines[i + 1:]
        yield lines[:i] + [b"\0" + l] + lines[i + 1:]
        yield lines[:i] + lines[i + 1:]
        yield lines[:i] + [l] + lines[i:]
        yield lines[:i] + [b""] + lines[i:]


def size(lines, **changes):
    f = lines[0].split(b"\t")
    for name, x in changes.items():
        f[1 + "npqk".index(name) if name in "npqk" else 5] = b"%d" % x
    return [b"\t".join(f)] + lines[1:]


def cases(accepted):
    rng = random.Random(20261115)
    out = []

    def case(lines, **room):
        c = Case(lines if isinstance(lines, bytes) else join(lines), **room)
        out.append(c)
        return c

    # the worked sheet whole, cut after each line and after each byte of one line, without its last LF, with CR, empty
    case(WORKED)
    case(b"")
    case(b"\n")
    case(join(WORKED)[:-1])
    case(join(WORKED) + b"\n")
    case(join(WORKED) + b"theta\t0\t3ff0000000000000\n")
    case(join(WORKED) + b"\0")
    case(b"\r\n".join(WORKED) + b"\r\n")
    for i in range(1, len(WORKED)):
        case(WORKED[:i])
        case(join(WORKED[:i]) + WORKED[i])
    for i in range(1, 14):
        case(join(WORKED)[:-i])
    for lines in damaged(WORKED):
        case(lines)

    # a sheet of two blocks, the smaller one first, and one of two fixed effects
    two = write(9, 2, [(2, 1), (3, 1)], symmetric([2, 3], rng, 0.7), rng)
    case(two)
    picked = list(damaged(two))
    for lines in picked[::11]:
        case(lines)

    # ranges: the ends, and one beyond
    for n in (1, 10**9, 10**9 + 1, 0):
        case(size(WORKED, n=n))
    for p in (0, 33, 32):
        case(size(WORKED, p=p))
    case(write(5, 32, [(1, 1)], {(0, 0): 2.0}, rng))
    for q in (524280, 524281, 0, 2):
        case(size(WORKED, q=q))
    for k in (0, 2, 8, 9):
        case(size(WORKED, k=k))
    for flag in (0, 2):
        case(size(WORKED, flag=flag))
    for m, e in ((0, 1), (65535, 1), (65536, 1), (1, 0), (1, 16), (1, 17), (2, 1), (1, 2)):
        case(WORKED[:1] + [b"block\t%d\t%d" % (m, e)] + WORKED[2:])

    # orders of refusals: 2 before 3 before 4 on a line, an earlier line before a later one, 5 to 9 after every line and in turn
    inf = b"7ff0000000000000"
    for bad in (b"zz\t9\t0\t" + inf, b"zz\t0\t9\t4000000000000000", b"zz\t9\t9\t7ff0000000000000 ", b"zz\t00\t9\t" + inf, b"zz\t0\t0\t" + inf):
        case(WORKED[:2] + [bad] + WORKED[3:])
        case(WORKED[:2] + [bad] + WORKED[3:-1])
    case(WORKED[:3] + [b"zz\t0\t0\t" + inf] + WORKED[3:])
    case(WORKED[:3] + [b"zx\t0\t1\t" + inf] + WORKED[4:])
    case(WORKED[:3] + [b"zx\t7\t0\t" + inf] + WORKED[4:])
    case(size(WORKED, n=0, flag=0)[:2])
    for flag in (0, 1):
        for blocks in ([], [(2, 1)], [(1, 2)], [(2, 2)], [(1, 1)]):
            for q in (0, 1, 3):
                for zz in ({}, {(0, 0): -0.0} if q else {}):
                    case(write(4, 1, blocks, zz, rng, flag=flag, q=q))
                case(write(4, 1, blocks, {}, rng, flag=flag, q=q)[:-1])

    # number 9: words of 0, entries inside a block, mirrors missing, unequal, and of another sign or zero
    base = symmetric([3, 2], rng, 1.0)
    pairs = [(c, r) for c, r in sorted(base) if c > r and (r < 3) != (c < 3)]
    for z in (0.0, -0.0):
        for at in sorted(base)[::3]:
            case(write(9, 1, [(3, 1), (2, 1)], {**base, at: z}, rng))
    for c, r in pairs:
        case(write(9, 1, [(3, 1), (2, 1)], {e: w for e, w in base.items() if e != (c, r)}, rng))
        case(write(9, 1, [(3, 1), (2, 1)], {**base, (c, r): 7.0}, rng))
        case(write(9, 1, [(3, 1), (2, 1)], {**base, (r, c): bits(base[(c, r)]) ^ 1}, rng))
    for e in ((0, 1), (1, 2), (4, 3)):
        case(write(9, 1, [(3, 1), (2, 1)], {**base, e: 1.0, e[::-1]: 1.0}, rng))
        case(write(9, 1, [(3, 1), (2, 1)], {**base, e: 1.0}, rng))
    case(write(9, 1, [(3, 1), (2, 1)], {**base, (0, 1): 0.0, (4, 0): -0.0}, rng))

    # the first of several faults: each fault at each entry where it is one, alone and with another behind or before it; the three kinds in each
    # order; several at once, eight blocks too
    own = random.Random(9)
    sizes = [2, 1, 2]
    several = symmetric(sizes, own, 1.0)
    places = sorted(several)
    each = [(at, fault) for at in places for fault in FAULTS if at[0] != at[1] or fault not in (last_bit, absent)]
    for at, fault in each:
        case(write(9, 1, [(m, 1) for m in sizes], fault(dict(several), at, sizes), own))
    for at, fault in each:
        other, then = own.choice(places), own.choice(FAULTS)
        case(write(9, 1, [(m, 1) for m in sizes], then(fault(dict(several), at, sizes), other, sizes), own))
    for sizes in ([2, 2, 2], [2, 2, 2, 1, 1, 1, 1, 1]):
        full = {(c, r): float(1 + min(c, r)) for c in range(sum(sizes)) for r in range(sum(sizes)) if c == r or (c // 2 != r // 2 or min(c, r) > 5)}
        for order in itertools.permutations(("zero", "inside", "mirror")):
            for unequal in (False, True):
                case(write(9, 1, [(m, 1) for m in sizes], one_of_each(dict(full), order, unequal), own))
    for sizes in ([1] * 8, [2, 1, 3, 1, 2, 3, 1, 2], [9, 4]):
        for many in (1, 2, 3, 5, 9):
            for _ in range(3):
                zz = symmetric(sizes, own, 0.4)
                for _ in range(many):
                    if zz:
                        zz = own.choice(FAULTS)(zz, own.choice(sorted(zz)), sizes)
                case(write(9, 1, [(m, 1) for m in sizes], zz, own))

    # zz lines out of sequence
    full = write(9, 1, [(3, 1), (2, 1)], base, rng)
    for i in range(3, 3 + len(base) - 1, 2):
        case(full[:i] + [full[i + 1], full[i]] + full[i + 2:])
        case(full[:i] + [full[i]] + full[i:])

    # the gate by counts alone: 10 and 11; [60000, 2] and [2, 50001] have only their size and block lines and are answered 2 at line 4
    for blocks in ([400, 300], [300, 400], [60000, 2], [2, 50001], [317, 316]):
        sizes = [(m, 1) for m in blocks]
        lines = [b"size\t9\t1\t%d\t%d\t1" % (sum(blocks), len(blocks))] + [b"block\t%d\t1" % m for m in blocks]
        if sum(blocks) < 1000:
            case(write(9, 1, sizes, {}, rng))
        else:
            case(lines)
    for blocks in ([400, 300, 2], [2, 300, 400], [1, 320, 1, 320]):
        case(write(9, 1, [(m, 1) for m in blocks], {}, rng))

    # accepted: shapes, orders, equal levels, one entry a column, absent diagonals, room to spare, none, and one short
    shapes = [[1], [4], [2, 2], [3, 2], [2, 3], [5, 1], [1, 1, 1], [2, 3, 2], [1, 2, 3], [3, 3, 3], [2, 4, 3, 4], [1] * 8, [2, 1, 3, 1, 2, 3, 1, 2], [12, 7]]
    for sizes in shapes:
        for p in (1, 3):
            zz = symmetric(sizes, rng, 0.5)
            lines = write(20, p, [(m, 1) for m in sizes], zz, rng)
            for room in ((0, 0), (0, -1), (-1, 0), (3, 5)):
                case(lines, heading=room[0], doubles=room[1])
            case(write(20, p, [(m, 1) for m in sizes], {}, rng))
    nested = []
    for sizes in ([5, 2], [2, 5], [4, 4], [9, 1]):
        lines = write(20, 2, [(m, 1) for m in sizes], symmetric(sizes, rng, 0, one_each=True), rng)
        nested.append(lines)
        for room in ((0, 0), (0, -1), (2, 4)):
            case(lines, heading=room[0], doubles=room[1])

    # replace_response: its lists, their order, and a heading that no load wrote
    def draws(n, bad=None):
        l = [bits(rng.choice([rng.gauss(0, 1), -0.0, 5e-324, 1e308])) for _ in range(n)]
        if bad is not None:
            l[bad[0]] = bad[1]
        return l

    INF, NAN = 0x7FF0000000000000, 0xFFF8000000000001
    for lines in (WORKED, two, nested[0], write(9, 3, [(2, 1), (3, 1), (2, 1)], symmetric([2, 3, 2], rng, 0.5), rng)):
        q, p = int(lines[0].split(b"\t")[3]), int(lines[0].split(b"\t")[2])

        def ready(**room):
            return case(lines, heading=3, doubles=4)

        ready().then((draws(q), draws(p), draws(1)))
        ready().then((draws(q), draws(p), draws(1)), numbers=3, doubles=4)
        for off in (-1, 1):
            ready().then((draws(q + off), draws(p), draws(1)))
            ready().then((draws(q), draws(p + off), draws(1)))
            ready().then((draws(q), draws(p), draws(1 + off)))
            ready().then((draws(q, (q - 1, INF)), draws(p + off), draws(1)))
            ready().then((draws(q, (0, NAN)), draws(p), draws(1 + off)))
        ready().then((draws(q, (q - 1, INF)), draws(p, (0, NAN)), draws(1)))
        ready().then((draws(q), draws(p, (p - 1, NAN)), draws(1, (0, INF))))
        ready().then((draws(q), draws(p), draws(1, (0, INF))))
        ready().then((draws(q, (0, INF)), draws(p + 1), draws(1)), numbers=-1, broken=True)
        ready().then((draws(q), draws(p), draws(1)), doubles=-1, broken=True)
        k = int(lines[0].split(b"\t")[4])
        left = steps(k)
        # an update under way with C(0) done, and a finished one, are workspaces as well; a response ends them
        ready().then((draws(q), draws(p), draws(1)), altered=[(22, 1)])
        ready().then((draws(q), draws(p), draws(1)), altered=[(22, 1), (23, left - 1), (24, 1)])
        done = [(24 + triangle(i) + j, j + 1) for i in range(k + 1) for j in range(i + 1)]
        ready().then((draws(q), draws(p), draws(1)), altered=[(22, 2), (23, 0)] + done)
        for altered in ([(0, 0)], [(0, 10**9 + 1)], [(1, 0)], [(1, 33)], [(2, q + 1)], [(3, 0)], [(3, 9)], [(4, 0)], [(4, 65536)], [(12, 1 if k == 1 else 7)],
                        [(20, 2)], [(21, 2)], [(20, 1)], [(22, 3)], [(22, 2)], [(23, left - 1)], [(22, 1), (23, left - 1)], [(22, 1), (24, 1)],
                        [(22, 1), (23, left - 1), (25, 1)], [(22, 1), (23, left - 1), (24, 2)], [(24, 1), (23, left - 1)], [(22, 2), (23, 0)] + done[:-1], [(22, 1), (23, 0)] + done,
                        [(3, 4294967295)], [(4, 4294967295)], [(2, 4294967295)]):
            ready().then((draws(q), draws(p), draws(1)), altered=altered, broken=True)

    for path in accepted:
        with open(path, "rb") as f:
            text = f.read()
        c = case(text[:text.index(b"theta\t")])
        assert c.answer[0] == 0, path

    # accepted: five, six and seven blocks, with room to spare, none, and one short, and another response
    rng = random.Random(567)
    for sizes in ([2, 1, 3, 1, 2], [1, 2, 2, 1, 3, 1], [2, 1, 1, 3, 1, 2, 1]):
        for p in (1, 3):
            lines = write(20, p, [(m, 1) for m in sizes], symmetric(sizes, rng, 0.5), rng)
            for room in ((0, 0), (0, -1), (-1, 0)):
                case(lines, heading=room[0], doubles=room[1])
            case(lines, heading=3, doubles=4).then((draws(sum(sizes)), draws(p), draws(1)))
    return out


def loaded(path, out):
    with open(path, "rb") as f:
        text = f.read()
    s = read(text[:text.index(b"theta\t")])
    judge(s)
    heading, doubles = load(s, lay(s))
    with open(out, "wb") as f:
        f.write(struct.pack("<QQ%dI%dQ" % (len(heading), len(doubles)), len(heading), len(doubles), *heading, *doubles))


def main():
    if len(sys.argv) != 4 or sys.argv[1] != "--loaded":
        sys.exit(__doc__.split("\n\n")[1])
    loaded(sys.argv[2], sys.argv[3])


if __name__ == "__main__":
    main()
