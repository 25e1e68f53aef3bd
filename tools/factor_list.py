#!/usr/bin/env python3
"""Writes the test inputs of the program `factor`, each with what it must print.

    factor_list.py STDIN STDOUT
    factor_list.py --original DRIVER
    factor_list.py --run PROGRAM
    factor_list.py --print INPUT

STDIN gets the inputs, which the program `factor_tests` reads, and STDOUT what that program must print: for each input a line with its number, and
then what `factor` must print.  The second form holds the pivots, and the refused pivots' places, of every case to the Rust original's driver; it
names those that differ because the original leaves out a diagonal subtraction, and ends with 1 where another differs; call_list.py says what the
original is, and that it is kept apart from this repository.  The third form gives each input to PROGRAM and compares.  The last form prints what
`factor` must print for one input.

How the list is made.  `factor` below is written from document 01 alone ("Worked sheets"; the readings are those of docs/DECISIONS.md), on
sheet_list.py, which has Records 1 to 3 and the refusals 1 to 12 of a load, and on call_list.py, which has Record 4, one operation of a
Python float at a time and in that document's orders.  All three are written from that document and share nothing with the proved code.
Square roots are math.sqrt, which rounds correctly.  The inputs are the sheets of the load tests with theta lines behind them; sheets of
simulated readings, and of drawn words, of one to eight blocks; sheets with pivots refused in each block; theta lines damaged field by field,
missing, left over; and the sizes on either side of what the program holds, 32,768 bytes and 4,096 doubles.

The stored list was held to the Rust original: of its 579 inputs without another refusal, 278 have the original's pivots and 295 its refused
pivot, bit for bit; six differ, all with a diagonal block 1, where the original's `rank_sub_diagonal` leaves out S(1,1,0) (a difference that
docs/DIFFERENCES.md lists), and they are the original's pivots once `Original` below leaves it out too.

STDIN is lines of 16 lower-case hexadecimal digits, a word each.  A case is

    how many bytes of the input before begin this input too
    where this input ends, how many words follow, and the words: its bytes behind those, eight to a word, the first highest; the last word is
             taken over and over to the end
"""
import os
import random
import subprocess
import sys
import tempfile

sys.path.insert(0, os.path.dirname(os.path.abspath(__file__)))
import call_list
import sheet_list
from call_list import pair, sheet, simulated, wild
from sheet_list import Refused, bits, join, symmetric

BYTES, DOUBLES = 32768, 4096
# as the program has it: the bytes of the longest input
ROOM = 65536


# ---- what the program must print

def sheet_lines(lines):
    """How many lines the sheet at the head of the input has, as far as its counts tell, else None."""
    size = sheet_list.fields(lines[0] if lines else None, b"size", 5, 0)
    if size is None:
        return None
    n, p, q, k, flag = size
    zz = 1 + k
    while zz < len(lines) and lines[zz].split(b"\t")[0] == b"zz":
        zz += 1
    return zz + q * p + q + p * (p + 1) // 2 + p + 1


def theta_part(text, at, k):
    """The words of the k lines behind the sheet's own, of which there are `at`."""
    lines, rest = sheet_list.lines_of(text)
    words = []
    for i in range(k):
        f = sheet_list.fields(lines[at + i] if at + i < len(lines) else None, b"theta", 1, 1)
        if f is None or f[0] != i:
            raise Refused(2, at + i + 1)
        words.append(f[1])
    if len(lines) > at + k or rest:
        raise Refused(2, at + k + 1)
    return words


def factor(text, arithmetic=call_list.Workspace):
    """Number of the refusal, or 0, and the output."""
    try:
        if len(text) > BYTES:
            raise Refused(12)
        lines, _ = sheet_list.lines_of(text)
        count = sheet_lines(lines)
        whole = count is None or count > len(lines)
        own = text if whole else join(lines[:count])
        s = sheet_list.read(own)
        sheet_list.judge(s)
        y = sheet_list.lay(s)
        doubles, _ = sheet_list.needs(s, y)
        if doubles > DOUBLES:
            raise Refused(12)
        theta = theta_part(text, count, s.k)
        for i, w in enumerate(theta):
            if sheet_list.infinite(w):
                raise Refused(14, 0, i)
        return 0, pivots(own, theta, arithmetic)
    except Refused as r:
        return r.answer[0], b"refused\t%d\t%d\t%d\n" % r.answer


def pivots(own, theta, arithmetic):
    """A pivot's line for each row of each block, after the whole factor is made."""
    w = call_list.workspace_of(own)
    w.__class__ = arithmetic
    w.begin([call_list.double(t) for t in theta])
    try:
        for step in call_list.rust_order(w.k):
            w.take(step)
    except call_list.Pivot as p:
        raise Refused(26, *p.place)
    out = []
    for j in range(w.k + 1):
        for r in range(w.m[j] if j < w.k else w.p + 1):
            out.append(b"pivot\t%d\t%d\t%016x\n" % (j, r, call_list.word(w.working[j, j][r, r])))
    return b"".join(out)


# ---- cases

class Case:
    """An input: the given bytes, and a byte behind them so many times."""

    def __init__(self, given, byte=0, times=0):
        self.text = given + bytes([byte]) * times
        self.number, self.output = factor(self.text)

    def words(self, before):
        """The case's words, where `before` is the input of the case before."""
        kept = len(os.path.commonprefix([before, self.text]))
        assert len(self.text) <= ROOM
        return [kept] + packed(self.text, kept)


def packed(text, kept):
    """Where a text ends, how many words it has behind its first `kept` bytes, and the words."""
    words = [text[i:i + 8] for i in range(kept, len(text), 8)]
    if words:
        filler = words[-2] if len(words) > 1 else b"\0" * 8
        words[-1] += filler[len(words[-1]):]
    while len(words) > 1 and words[-1] == words[-2]:
        words.pop()
    return [len(text), len(words)] + [int.from_bytes(w, "big") for w in words]


def theta_lines(theta):
    return b"".join(b"theta\t%d\t%016x\n" % (i, bits(t) if isinstance(t, float) else t) for i, t in enumerate(theta))


INF, NINF, QUIET, SIGNAL = 0x7FF0000000000000, 0xFFF0000000000000, 0xFFF8000000000001, 0x7FF0000000000001
WORKED = join(sheet_list.WORKED)
# thetas whose squares or products overflow, underflow, or lose a sign
ODD = [0.0, -0.0, -1.0, -0.25, 3.0, 5e-324, 2.2250738585072014e-308, 1e-200, 1e-162, 1e-154, 1e154, 1.4e154, 1e200, 1.7976931348623157e308, -1.7976931348623157e308]


def blocks_of(text):
    """k, by a size line in form, else 1."""
    lines, _ = sheet_list.lines_of(text)
    f = sheet_list.fields(lines[0] if lines else None, b"size", 5, 0)
    return f[3] if f and f[3] <= 8 else 1


def cases():
    rng = random.Random("inputs of document 01")
    out, seen = [], set()

    def case(stored, byte=0, times=0):
        key = stored + bytes([byte]) * times
        if key not in seen:
            seen.add(key)
            out.append(Case(stored, byte, times))

    def thetas(k, odd=0.0):
        return [rng.choice(ODD) if rng.random() < odd else rng.choice([0.5, 1.0, rng.uniform(0, 2)]) for _ in range(k)]

    # the worked sheet of document 01 comes first; then with other thetas
    case(WORKED + theta_lines([1.0]))
    for t in ODD + [0.5, 2.0, 1e-8, 1e8] + [call_list.drawn(rng) for _ in range(8)]:
        case(WORKED + theta_lines([t]))

    # nothing, a theta line alone, and the worked sheet up to each line, with and without its LF, alone and with the theta line next
    for text in (b"", b"\n", b"\0", theta_lines([1.0]), theta_lines([1.0]) + WORKED, b"\n" + WORKED + theta_lines([1.0]), WORKED + WORKED + theta_lines([1.0])):
        case(text)
    for i in range(1, len(sheet_list.WORKED) + 1):
        for end in (b"", b"\n", b"\n" + theta_lines([1.0])):
            case(join(sheet_list.WORKED[:i])[:-1] + end)

    # the theta part of one, two and three blocks: damaged field by field, lines missing, doubled, out of sequence, left over; cut after each byte
    two = sheet(9, [2, 3], {(0, 0): 2.0, (1, 1): 3.0, (2, 2): 1.0, (4, 4): 2.0, (0, 2): 1.0, (2, 0): 1.0, (1, 3): 0.5, (3, 1): 0.5}, [[1.0]] * 5, [0.5] * 5, [[50.0]], [1.0], 90.0)
    three = simulated(rng, [2, 3, 1], 1, 12)
    for own, k in ((WORKED, 1), (two, 2), (three, 3)):
        good = theta_lines([0.5] * k).split(b"\n")[:-1]
        damaged = list(sheet_list.damaged(good))
        for lines in damaged[::k]:
            case(own + join(lines))
        part = join(good)
        for cut in range(0, len(part) + 1) if k == 1 else range(0, len(part) + 1, 7):
            case(own + part[:cut])
        for extra in (b"\n", b"\0", b" ", b"\t", b"t", b"theta", b"\r", b"theta\t%d\t3ff0000000000000\n" % k, b"yy\t4022000000000000\n", b"\n\n", b"0" * 40, b"\xff"):
            case(own + part + extra)
            case(own + extra + part)
        for index in (b"1", b"8", b"00", b"-0", b"", b"4294967296", b"18446744073709551616", b"18446744073709551617", b"99999999999999999999999999"):
            case(own + part.replace(b"theta\t0\t", b"theta\t" + index + b"\t"))
        case(own.rstrip(b"\n") + part)
        case(own + part.replace(b"\n", b"\r\n"))
        case(own + part.replace(b"theta", b"THETA"))
    for order in ([1, 0], [0, 0], [1, 1], [0, 2], [2, 1, 0], [0, 2, 1], [0, 1, 3], [0, 1, 1]):
        own = two if len(order) == 2 else three
        case(own + b"".join(b"theta\t%d\t3fe0000000000000\n" % i for i in order))

    # infinite and NaN words, the first of them named; every 2 of the theta part comes before
    for w in (INF, NINF, QUIET, SIGNAL, 0x7FF8000000000000, 0xFFFFFFFFFFFFFFFF, 0x7FEFFFFFFFFFFFFF, 0xFFEFFFFFFFFFFFFF):
        case(WORKED + theta_lines([w]))
        case(two + theta_lines([1.0, w]))
        case(three + theta_lines([0.5, w, INF]))
        case(three + theta_lines([0.5, 0.5, w]))
    case(WORKED + theta_lines([INF]) + b"\n")
    case(WORKED + theta_lines([INF])[:-1])
    case(two + theta_lines([INF, 1.0])[:-1])
    case(two + theta_lines([INF]))
    case(two + theta_lines([INF, NINF, 1.0]))
    case(three + theta_lines([INF, 1.0, 1.0]).replace(b"theta\t2", b"theta\t3"))
    eight = simulated(rng, [2, 1, 2, 1, 1, 2, 1, 1], 1, 20)
    for i in range(8):
        t = [0.5] * 8
        t[i] = QUIET if i % 2 else NINF
        case(eight + theta_lines(t))
        case(eight + theta_lines([0.5] * i))
    case(eight + theta_lines([0.5] * 9))

    # the sheets of the load tests, with good theta lines; every fifth refused one with none, and with one out of form
    loads = {c.text: c for c in sheet_list.cases([]) if len(c.text) <= BYTES}
    for number, c in enumerate(loads.values()):
        k = blocks_of(c.text)
        case(c.text + theta_lines(thetas(k)))
        if c.answer[0] in (5, 6, 7, 8, 9) and number % 5 == 0:
            case(c.text)
            case(c.text + b"theta\t7\t7ff0000000000000\n")
        if c.answer[0] == 0 and len(c.text) < 6000:
            case(c.text + theta_lines(thetas(k, 0.4)))

    # what load refuses comes before the theta part, whatever that is
    for lines in ([b"size\t3\t1\t1\t1\t0"] + sheet_list.WORKED[1:], sheet_list.WORKED[:1] + [b"block\t1\t2"] + sheet_list.WORKED[2:],
                  sheet_list.WORKED[:1] + [b"block\t2\t1"] + sheet_list.WORKED[2:], sheet_list.WORKED[:2] + [b"zz\t0\t0\t8000000000000000"] + sheet_list.WORKED[3:],
                  sheet_list.WORKED[:3] + [b"zx\t0\t0\t7ff0000000000000"] + sheet_list.WORKED[4:], sheet_list.WORKED[:-1] + [b"yy\tfff0000000000000"],
                  sheet_list.WORKED[:2] + [b"zz\t0\t1\t4008000000000000"] + sheet_list.WORKED[3:]):
        for part in (theta_lines([1.0]), b"", b"theta\t1\t3ff0000000000000\n", theta_lines([INF]), b"\0", theta_lines([1.0])[:-1]):
            case(join(lines) + part)

    # pivots of simulated readings: k from 1 to 8, crossed and nested, smaller blocks first, whole numbers throughout, theta 0, negative and odd
    shapes = [([1], 1, 5), ([5], 1, 20), ([7], 3, 30), ([30], 2, 60), ([6, 4], 2, 40), ([3, 5], 2, 40), ([4, 4], 1, 25), ([12, 9], 4, 90), ([9, 16], 1, 90),
              ([5, 3, 4], 2, 50), ([2, 6, 3], 3, 50), ([4, 4, 4], 1, 40), ([4, 3, 2, 3], 2, 60), ([1, 2, 3, 4, 5], 1, 60), ([2, 2, 2, 3, 1, 1], 2, 60),
              ([3, 1, 2, 2, 1, 1, 2], 1, 60), ([1] * 8, 1, 30), ([3, 2, 2, 1, 3, 1, 2, 2], 2, 60), ([2], 8, 40)]
    for sizes, p, readings in shapes:
        k = len(sizes)
        own = simulated(rng, sizes, p, readings)
        for t in ([0.5] * k, thetas(k), [0.0] * k, [-x for x in thetas(k)], thetas(k, 0.5)):
            case(own + theta_lines(t))
        case(simulated(rng, sizes, p, readings, exact=True) + theta_lines([rng.choice([1.0, 2.0, -1.0, 0.0]) for _ in range(k)]))
    for sizes, p in (([6, 2], 1), ([2, 7], 2), ([4, 4], 3), ([20, 5], 2), ([1, 3], 1)):
        own = simulated(rng, sizes, p, 40, nested=True)
        assert call_list.workspace_of(own).diagonal
        for t in ([0.5, 0.5], thetas(2), [0.0, 1.0], [1.0, 0.0], [-0.5, 2.0], thetas(2, 0.5)):
            case(own + theta_lines(t))
    large = simulated(rng, [20, 16, 12], 2, 90)
    case(large + theta_lines([0.7, 0.9, 1.1]))

    # sheets of any words: infinities and NaNs pass, refused pivots
    for sizes, p, n, each in (([3], 1, 5, False), ([6], 2, 9, False), ([4, 3], 1, 10, False), ([3, 4], 3, 10, False), ([5, 2], 2, 10, True), ([3, 3], 1, 10, True),
                              ([3, 2, 2], 2, 20, False), ([2, 2, 3, 2], 1, 20, False), ([2, 1, 1, 1, 1, 1, 1, 1], 1, 20, False)):
        for _ in range(5):
            own = wild(rng, sizes, p, n, one_each=each)
            for odd in (0.0, 0.3):
                case(own + theta_lines(thetas(len(sizes), odd)))

    # overflow to infinity and to NaN in each kind of cell, and underflow: a theta of 1e154 to 1e308 against small and large words
    for word in (1e-300, 1.0, 1e150, 1e300, -1e300, 5e-324):
        for t in ((1e160, 1e160), (1e200, 1e-200), (1e-200, 1e200), (1e154, 1e154), (1e-170, 1e-170), (1.7e308, 0.0), (-1e200, 1e200)):
            own = sheet(9, [2, 1], {(0, 0): 2.0, (0, 2): word, (2, 0): word, (2, 2): 3.0}, [[1.0], [2.0]] + [[0.5]], [1.0, 0.5, 0.25], [[60.0]], [1.0], 90.0)
            case(own + theta_lines(list(t)))

    # absent diagonals, and theta squared infinite: NaN, which passes
    for zz in ({}, {(0, 0): 1.0}, {(2, 2): 1.0}, {(0, 2): 1.0, (2, 0): 1.0}):
        own = sheet(9, [2, 2], zz, [[1.0]] * 4, [1.0] * 4, [[60.0]], [1.0], 90.0)
        for t in ((1.0, 1.0), (1e200, 1.0), (1.0, 1e200), (1e200, 1e200), (0.0, 1e200)):
            case(own + theta_lines(list(t)))

    # where the Rust leaves out a diagonal subtraction: a cell that underflowed in scaling, one in the division of T(1,0), a NaN column
    for own, t in ((pair(20, 3, 2, [0, 1, 0], [1e150, 1e-200, 0.5], [3.0, 3.0, 3.0], [3.0, 3.0]), (1e-150, 1.0)),
                   (pair(20, 3, 2, [0, 1, 0], [1.0, 1e-180, 0.5], [3.0, 1e300, 3.0], [3.0, 3.0]), (1.0, 1.0)),
                   (pair(20, 3, 2, [0, 1, 0], [1.0, 2.0, 0.5], [3.0, None, 3.0], [3.0, 3.0]), (1e200, 1e-200)),
                   (pair(20, 4, 2, [0, 1, 0, 1], [1.0, 2.0, 0.5, 5e-324], [3.0, 2.0, None, 1.0], [3.0, None], 2), (1e170, 0.5))):
        case(own + theta_lines(list(t)))
        case(own + theta_lines([0.5, 0.25]))

    # a pivot refused in each row of each block, by a diagonal far below 0, and in the last block by x'x and y'y; radicands of +0 and -0
    for sizes, each in (([3], False), ([3, 2], False), ([2, 3], False), ([4, 2], True), ([3, 2, 2], False), ([2, 2, 2, 1], False), ([2, 1, 1, 2, 1, 1, 1, 1], False)):
        k, q = len(sizes), sum(sizes)
        zz = symmetric(sizes, rng, 0, one_each=each) if each else {}
        for i in range(q):
            zz[i, i] = 3.0
        starts = [sum(sizes[:b]) for b in range(k)]
        for a in range(k):
            for b in range(a):
                if not each:
                    zz[starts[a], starts[b]] = zz[starts[b], starts[a]] = 0.25
        for bad in range(q):
            case(sheet(9, sizes, {**zz, (bad, bad): -900.0}, [[0.25, 0.5]] * q, [0.5] * q, [[70.0], [0.5, 60.0]], [0.5, 0.25], 90.0) + theta_lines([1.0] * k))
        for x0, x1, yy in ((-70.0, 60.0, 90.0), (70.0, 0.0, 90.0), (70.0, 60.0, 0.0), (70.0, 60.0, -1.0), (0.0, 0.0, 0.0), (5e-324, 5e-324, 5e-324)):
            case(sheet(9, sizes, zz, [[0.25, 0.5]] * q, [0.5] * q, [[x0], [0.5, x1]], [0.5, 0.25], yy) + theta_lines([1.0] * k))
    for a in (-1.0, -0.9999999999999999, -1.0000000000000002):
        case(sheet(9, [2], {(0, 0): 3.0, (1, 1): a}, [[0.0]] * 2, [0.0] * 2, [[1.0]], [0.0], 1.0) + theta_lines([1.0]))
    for x, y in ((0.0, 1.0), (-0.0, 1.0), (1.0, 0.0), (1.0, -0.0), (5e-324, 5e-324), (1.7e308, 1.7e308)):
        case(sheet(9, [2], {(0, 0): 3.0}, [[0.0], [-0.0]], [0.0] * 2, [[x]], [0.0], y) + theta_lines([1.0]))
    # the last pivots by a hair: 5 - 4, 4 - 4 and one unit of the last place on either side
    for yy in (8.0, 7.999999999999999, 8.000000000000002):
        case(WORKED.replace(b"yy\t4022000000000000", b"yy\t%016x" % bits(yy)) + theta_lines([1.0]))

    # 4,096 doubles and one more, by shape; the refusal comes before the theta part
    fits, exceeds = [], []
    for m0 in range(1, 90):
        for m1 in range(1, m0 + 1):
            for p in (1, 2, 3):
                f = (m0 + m1) * (p + 1) + (p + 1) * (p + 2) // 2
                need = m0 + m1 + 2 + m0 + m1 * (m1 + 1) // 2 + 2 * m0 * m1 + 2 * f + 1
                if need in (DOUBLES, DOUBLES + 1):
                    (fits if need == DOUBLES else exceeds).append((m0, m1, p))
    assert fits and exceeds
    for m0, m1, p in fits[:1] + fits[-1:] + exceeds[:1] + exceeds[-1:]:
        own = sheet(50, [m1, m0], {(i, i): 2.0 for i in range(0, m0 + m1, 3)}, [[0.5] * p] * (m0 + m1), [0.25] * (m0 + m1),
                    [[0.0] * r + [900.0] for r in range(p)], [1.0] * p, 900.0)
        for part in (theta_lines([0.5, 0.25]), theta_lines([0.5]), theta_lines([INF, 1.0])):
            case(own + part)

    # a pair of more than 100,000 cells: 10 and 11, before 12 and the theta part
    for sizes in ([316, 317], [1, 316, 317]):
        q = sum(sizes)
        own = sheet(9, sizes, {}, [[0.5]] * q, [0.25] * q, [[5.0]], [1.0], 9.0)
        for part in (theta_lines([1.0] * len(sizes)), b"", b"theta\n", theta_lines([INF] * 9)):
            case(own + part)

    # 32,768 bytes and one more: a sheet with its theta lines of that length, and faults behind one of them
    def fitted(total):
        """A sheet of one block that has so many bytes with its theta line: diagonals as many as go, and n with the digits that are left."""
        for q in range(430, 380, -1):
            zz = {}
            while True:
                text = sheet(1, [q], zz, [[0.5]] * q, [0.25] * q, [[5000.0]], [1.0], 9000.0)
                left = total - 25 - len(text)
                if left < 30 or len(zz) == q:
                    break
                zz[len(zz), len(zz)] = 2.0 + len(zz)
            if 0 <= left <= 8:
                return text.replace(b"size\t1", b"size\t1" + b"0" * left, 1)
        raise ValueError(total)

    one = fitted(BYTES)
    case(one + theta_lines([0.5]))
    case(one + theta_lines([0.5])[:-1])
    case(one + theta_lines([0.5]) + b"\n")
    case(one + theta_lines([0.5])[:-1] + b"\r\n")
    case(fitted(BYTES - 1) + theta_lines([0.5]) + b"\n")
    case(fitted(BYTES + 1) + theta_lines([0.5]))
    for byte in (0, 9, 10, 48, 116, 122, 255):
        for stored in (b"", WORKED + theta_lines([1.0]), WORKED, b"size\t3\t1\t1\t1\t0\n"):
            for total in (BYTES - 1, BYTES, BYTES + 1, 2 * BYTES):
                if total in (BYTES, BYTES + 1) or byte == 10:
                    case(stored, byte, total - len(stored))
    case(b"size\t", 49, BYTES - 5)
    case(b"size\t", 49, BYTES - 4)
    case(WORKED + b"theta\t", 48, 20)
    return out


# ---- the comparisons

def run(command, text):
    done = subprocess.run(command, input=text, capture_output=True)
    return done.stdout


def original(driver):
    """Every case that load accepts and whose theta words are finite, against the Rust original."""
    same = {0: 0, 26: 0}
    left_out, strange = [], []
    for number, c in enumerate(cases(), 1):
        if c.number not in same:
            continue
        told = run([driver, "pivots"], c.text)
        if c.number and told == b"err\n":
            told = run([driver, "place"], c.text)
        if told == c.output:
            same[c.number] += 1
        elif told == factor(c.text, Original)[1]:
            left_out.append(number)
        else:
            strange.append(number)
            print("case %d: %r, and the original %r" % (number, c.output[:400], told[:400]))
    print("pivots as in the original, bit for bit: %d; refused places: %d" % (same[0], same[26]))
    print("as in the original but for a diagonal subtraction that it leaves out: %d, cases %s" % (len(left_out), " ".join(map(str, left_out))))
    print("other cases: %d" % len(strange))
    return 1 if strange else 0


class Original(call_list.Workspace):
    """The one place where the original's arithmetic is not document 01's: `rank_sub_diagonal` looks for one cell other than 0 in each column of
    the working block, and where a column has none or several it subtracts nothing."""

    def subtract(self, i, j, h):
        if i == j < self.k and self.is_diagonal(j):
            cells = self.working[i, h]
            if any(sum(cells[r, c] != 0 for r in range(self.m[i])) != 1 for c in range(self.m[h])):
                return
        super().subtract(i, j, h)


def write(stdin, stdout):
    before = b""
    with open(stdin, "w") as f, open(stdout, "wb") as told:
        for number, c in enumerate(cases(), 1):
            f.writelines("%016x\n" % w for w in c.words(before))
            before = c.text
            told.write(b"input %d\n" % number)
            told.write(c.output)


def replay(program):
    """Gives every input to a program, as document 01 has it, and compares its output."""
    wrong = 0
    all_cases = cases()
    for number, c in enumerate(all_cases, 1):
        with tempfile.TemporaryFile() as f:
            f.write(c.text)
            f.seek(0)
            told = subprocess.run([program], stdin=f, capture_output=True).stdout
        if told != c.output:
            wrong += 1
            print("case %d: %r for %r" % (number, told[:200], c.output[:200]))
    print("inputs %d of %d" % (len(all_cases) - wrong, len(all_cases)))
    return 1 if wrong else 0


def main():
    if len(sys.argv) != 3:
        sys.exit(__doc__.split("\n\n")[1])
    if sys.argv[1] == "--original":
        sys.exit(original(sys.argv[2]))
    if sys.argv[1] == "--run":
        sys.exit(replay(sys.argv[2]))
    if sys.argv[1] == "--print":
        with open(sys.argv[2], "rb") as f:
            sys.stdout.buffer.write(factor(f.read())[1])
        return
    write(sys.argv[1], sys.argv[2])


if __name__ == "__main__":
    main()
