#!/usr/bin/env python3
"""Writes the test list of the calls: load, begin, step, replace_response, profile_deviance, deviance_from_factor and solve_profile_blocked.

    call_list.py STDIN STDOUT [ACCEPTED...]
    call_list.py --pivots SHEET
    call_list.py --original DRIVER [SHEETS]

STDIN gets the calls, and STDOUT what the program `call_tests` must print of them.  ACCEPTED are files with a sheet and its theta lines, as
the generator of the Rust original makes them (sheet_list.py says which the stored list was made with); each becomes a sheet that must load.
The second form prints the pivots, or the refusal, of a file with a sheet and its theta lines, as the program `factor` of document 01 does.
The third compares what is computed here with the driver of the Rust original: pivots, refused places, deviances and solutions of each sheet of
the list with each theta that it tries, and of so many SHEETS more, drawn by a fixed generator.  The Rust original is a package that compiles the
published Rust over stand-ins for its array crates (build.rs, standins/, a driver, the generator gen.py); DRIVER is the program that cargo builds of
it.  It is kept apart from this repository, and a plain clone of the Rust will not do.

How the list is made.  The arithmetic below is written from document 01 alone (Records 4 to 7, the book of Record 5, both tables of
refusals), one operation of a Python float, which is an IEEE double, at a time and in that document's orders.  It shares nothing with the
proved code.  Where document 01 leaves the memory's order open, the layout is that of docs/DECISIONS.md, and sheet_list.py has the reading of
a sheet, what load leaves, and the sheets that load and replace_response are tried with.  The square root is math.sqrt, which rounds
correctly; the logarithm is the whole-number definition of crates/logarithm/specs/Ln.antt, in Python's whole numbers.  Every NaN is the word
7ff8000000000000.  When an update is finished, the script holds the factor to the one that the Rust's order makes on a freshly loaded workspace.

The list is lines of 16 lower-case hexadecimal digits, a word each.  Memory is 1,024 numbers of a heading, 8,192 doubles and the 4,096
doubles of a result list, numbered through; a call is lent the first of each.  A call is

     0       what is called: 1 begin, 2 S, 3 C, 4 T, 5 replace_response, 6 profile_deviance, 7 deviance_from_factor; 8 load, before which
             memory is filled with a pattern; 9 solve_profile_blocked; 0 nothing, numbers and doubles are altered, as a stranger to the calls may
     1 to 3  the numbers of the step's name; 1 at 1 for REML; the sheet's bytes at 1 for load
     4 to 6  the lengths of the lists: theta, or Z'y, X'y, y'y, or the result list
     7, 8    how many numbers and doubles are lent
     9       how many words follow
    then     the lists; or the sheet's bytes, eight to a word, the first highest, noughts behind; or places and words by turns

What is printed of a call: a line with word 0, how the answer stands (0 accepted, 1 refused, 2 a value, 3 a refused pivot of
profile_deviance, 4 no scale, 5 a solution), the refusal's number and places (26, block and row of that pivot) and the word of the value or of the
deviance; of a solution then a line with the word of sigma2; then a line for each number and double that is other than before, with its place and
its word.  An alteration has only the latter.

The word 10 ends this part.  In the second the calls are on a workspace of 3 by 33,334 cells, one entry in each column, too large for a list: its
heading and its loaded doubles follow a rule, and behind each call's line stands a sum over all numbers and doubles, of a solve over the numbers and
a result list that was +0.0.

The word 10 ends that part too.  In the third load is tried on sheets of 65,540 rows, too long for a list: all but their zz lines follow a rule.  A
sheet is the word 1, the count of its zz entries, and column, row and word of each.  Each must be refused; its call's line is all that is printed.
"""
import math
import os
import random
import struct
import subprocess
import sys

sys.path.insert(0, os.path.dirname(os.path.abspath(__file__)))
import sheet_list

NUMBERS, DOUBLES, RESULTS = 1024, 8192, 4096
NAN = 0x7FF8000000000000
TWO_PI = struct.unpack(">d", bytes.fromhex("401921fb54442d18"))[0]
BEGIN, SUBTRACT, FACTOR, SOLVE, RESPONSE, PROFILE, DEVIANCE, LOAD, SOLUTION, END = range(1, 11)
ALTER = 0
ACCEPTED, REFUSED, VALUE, PIVOT, NO_SCALE, SOLVED = range(6)


def word(x):
    return NAN if x != x else struct.unpack(">Q", struct.pack(">d", x))[0]


def double(w):
    return struct.unpack(">d", struct.pack(">Q", w))[0]


# ---- the arithmetic that Python does not do as IEEE 754 does

def divide(a, b):
    if b != 0 or b != b:
        return a / b
    if a == 0 or a != a:
        return math.nan
    return math.copysign(math.inf, a) * math.copysign(1.0, b)


def root(x):
    return math.sqrt(x) if x >= 0 else math.nan


LN2 = 3196577161300663914
UNIT = 2 ** 62


def horner(t, k, n):
    return 0 if n == 0 else UNIT // (2 * k + 1) + horner(t, k + 1, n - 1) * t // UNIT


def ln(x):
    """Record 4: fixed by a whole-number definition."""
    if x != x or x == math.inf:
        return x
    if x == 0:
        return -math.inf
    if x < 0:
        return math.nan
    w = word(x)
    field, m = w >> 52, w % 2 ** 52
    t = 0
    if field:
        m, t = m + 2 ** 52, field - 1
    shift = 53 - m.bit_length()
    m, t = m << shift, t + 52 - shift
    # x = m * 2^t / 2^1126, and m / centre is from 3/4 to 3/2
    low = m < 3 * 2 ** 51
    centre, rise = (2 ** 52, t) if low else (2 ** 53, t + 1)
    z = abs(m - centre) * UNIT // (m + centre)
    series = 2 * (z * horner(z * z // UNIT, 0, 10) // UNIT)
    total = (rise - 1074) * LN2 + (series if m >= centre else -series)
    # the quotient of two whole numbers is rounded once, to the nearest double
    return total / UNIT


# ---- the sums and the substitutions of a solution (Record 7)

def dot(a, b):
    s = 0.0
    for x, y in zip(a, b):
        s = s + x * y
    return s


def less(x, a, b):
    """Product by product."""
    for y, z in zip(a, b):
        x = x - y * z
    return x


def forward(v, l):
    out = []
    for c, x in enumerate(v):
        out.append(divide(less(x, out, (l[c, e] for e in range(c))), l[c, c]))
    return out


def backward(v, l):
    out = []
    for c in reversed(range(len(v))):
        out.insert(0, divide(less(v[c], (l[r, c] for r in range(c + 1, len(v))), out), l[c, c]))
    return out


# ---- the steps (Records 4 and 5). A name is (kind, i, j, h) with 0 for what the kind has not.

def subtraction(i, j, h):
    return (SUBTRACT, i, j, h)


def cholesky(j):
    return (FACTOR, j, 0, 0)


def solving(i, j):
    return (SOLVE, i, j, 0)


def is_step(k, s):
    kind, i, j, h = s
    if kind == SUBTRACT:
        return h < j <= i <= k
    if kind == FACTOR:
        return i <= k
    return j < i <= k


def forerunners(s):
    kind, i, j, h = s
    if kind == SUBTRACT:
        first = [subtraction(i, j, h - 1)] if h else []
        return first + [solving(i, h)] + ([solving(j, h)] if j != i else [])
    if kind == FACTOR:
        return [subtraction(i, i, i - 1)] if i else []
    return [cholesky(j)] + ([subtraction(i, j, j - 1)] if j else [])


def rust_order(k):
    out = []
    for j in range(k + 1):
        out += [subtraction(j, j, h) for h in range(j)] + [cholesky(j)]
        for i in range(j + 1, k + 1):
            out += [subtraction(i, j, h) for h in range(j)] + [solving(i, j)]
    return out


# ---- a workspace

class Pivot(Exception):
    def __init__(self, block, row):
        super().__init__(block, row)
        self.place = (block, row)


class Workspace:
    """The loaded numbers by block, the working ones by block, the progress. Blocks are dictionaries by (row, column)."""

    def __init__(self, n, p, m, order, sparse, diagonal, rows):
        self.n, self.p, self.k, self.m, self.order = n, p, len(m), m, order
        self.q = sum(m)
        self.sparse, self.diagonal, self.rows = sparse, diagonal, rows
        self.loaded = {t: {c: 0.0 for c in self.cells(t, True)} for t in self.targets()}
        self.clear()
        self.done = None

    def clear(self):
        """What load and 26 leave of the working doubles."""
        self.theta = [0.0] * self.k
        self.working = {t: {c: 0.0 for c in self.cells(t, False)} for t in self.targets()}
        self.sum = 0.0

    # the layout
    def targets(self):
        k = self.k
        return [(j, j) for j in range(k)] + [(i, j) for i in range(k) for j in range(i)] + [(k, j) for j in range(k)] + [(k, k)]

    def is_diagonal(self, j):
        return j == 0 or (j == 1 and self.k > 1 and self.diagonal)

    def cells(self, t, loaded):
        """The cells of a block as they lie in memory."""
        i, j = t
        if i == self.k:
            rows = range(self.p + 1)
            return [(r, c) for r in rows for c in range(r + 1)] if j == self.k else [(r, c) for c in range(self.m[j]) for r in rows]
        if i == j:
            if loaded or self.is_diagonal(j):
                return [(r, r) for r in range(self.m[j])]
            return [(r, c) for r in range(self.m[j]) for c in range(r + 1)]
        if self.sparse:
            return [(self.rows[c], c) for c in range(self.m[0])]
        return [(r, c) for c in range(self.m[j]) for r in range(self.m[i])]

    def heading(self):
        pad = [0] * (8 - self.k)
        steps = rust_order(self.k)
        done = self.done if self.done is not None else set()
        state = 0 if self.done is None else 2 if len(done) == len(steps) else 1
        stages = [0] * 45
        for kind, i, j, h in done:
            if kind == FACTOR:
                j = h = i
            elif kind == SOLVE:
                h = j
            at = i * (i + 1) // 2 + j
            stages[at] = max(stages[at], h + 1)
        return ([self.n, self.p, self.q, self.k] + self.m + pad + self.order + pad + [int(self.sparse), int(self.diagonal), state,
                len(steps) - len(done)] + stages + [0] * 59 + (self.rows if self.sparse else []))

    def doubles(self):
        out = [x for t in self.targets() for x in self.loaded[t].values()]
        out += self.theta
        out += [x for t in self.targets() for x in self.working[t].values()]
        return [word(x) for x in out + [self.sum]]

    def fill(self, doubles):
        """The doubles as a stranger left them."""
        at = iter(double(w) for w in doubles)
        for t in self.targets():
            for c in self.loaded[t]:
                self.loaded[t][c] = next(at)
        self.theta = [next(at) for _ in range(self.k)]
        for t in self.targets():
            for c in self.working[t]:
                self.working[t][c] = next(at)
        self.sum = next(at)

    # Record 4
    def begin(self, theta):
        k = self.k
        self.theta = list(theta)
        t = [theta[b] for b in self.order]
        for i, j in self.targets():
            a, w = self.loaded[i, j], self.working[i, j]
            if i == j == k:
                for c in w:
                    w[c] = a[c]
            elif i == k:
                for c in w:
                    w[c] = a[c] * t[j]
            elif i == j:
                for r, c in w:
                    w[r, c] = (t[j] * t[j]) * a[r, r] + 1.0 if r == c else 0.0
            else:
                for c in w:
                    w[c] = (a[c] * t[j]) * t[i]
        self.sum = 0.0
        self.done = set()

    def subtract(self, i, j, h):
        k = self.k
        w, a, b = self.working[i, j], self.working[i, h], self.working[j, h]
        inner = range(self.m[h])
        if i == j == k:
            for r, c in w:
                x = w[r, c]
                for e in inner:
                    x = x - a[r, e] * b[c, e]
                w[r, c] = x
        elif i == j and self.is_diagonal(j):
            l = self.loaded[i, h]
            for r, c in w:
                s = 0.0
                for e in inner:
                    if l.get((r, e), 0.0) != 0:
                        s = s + a[r, e] * a[r, e]
                w[r, c] = w[r, c] - s
        elif self.sparse:
            for e in inner:
                c = self.rows[e]
                for r in range(self.p + 1):
                    w[r, c] = w[r, c] - a[r, e] * b[c, e]
        else:
            for r, c in w:
                s = 0.0
                for e in inner:
                    s = s + a[r, e] * b[c, e]
                w[r, c] = w[r, c] - s

    def factor(self, j):
        w = self.working[j, j]
        if self.is_diagonal(j) and j < self.k:
            n = self.m[j]
            for c in range(n):
                if w[c, c] <= 0:
                    raise Pivot(j, c)
                w[c, c] = root(w[c, c])
        else:
            n = self.m[j] if j < self.k else self.p + 1
            for c in range(n):
                x = w[c, c]
                for e in range(c):
                    x = x - w[c, e] * w[c, e]
                if x <= 0:
                    raise Pivot(j, c)
                w[c, c] = root(x)
                for r in range(c + 1, n):
                    x = w[r, c]
                    for e in range(c):
                        x = x - w[r, e] * w[c, e]
                    w[r, c] = divide(x, w[c, c])
        if j == 0:
            for c in range(n):
                self.sum = self.sum + ln(w[c, c])
        elif j < self.k:
            s = 0.0
            for c in range(n):
                s = s + ln(w[c, c])
            self.sum = self.sum + s

    def solve(self, i, j):
        w, l = self.working[i, j], self.working[j, j]
        if self.is_diagonal(j):
            for r, c in w:
                w[r, c] = divide(w[r, c], l[c, c])
            return
        rows = self.p + 1 if i == self.k else self.m[i]
        for r in range(rows):
            for c in range(self.m[j]):
                x = w[r, c]
                for e in range(c):
                    x = x - w[r, e] * l[c, e]
                w[r, c] = divide(x, l[c, c])

    def take(self, s):
        """A ready step."""
        kind, i, j, h = s
        try:
            if kind == SUBTRACT:
                self.subtract(i, j, h)
            elif kind == FACTOR:
                self.factor(i)
            else:
                self.solve(i, j)
        except Pivot:
            self.clear()
            self.done = None
            raise
        self.done.add(s)

    def finished(self):
        return self.done is not None and len(self.done) == len(rust_order(self.k))

    def ready(self):
        return [s for s in rust_order(self.k) if s not in self.done and all(f in self.done for f in forerunners(s))]

    # Record 6
    def deviance(self, reml):
        pivots = [self.working[self.k, self.k][r, r] for r in range(self.p + 1)]
        r2 = pivots[-1] * pivots[-1]
        d = self.freedom(reml)
        if r2 <= 0 or d <= 0:
            return (NO_SCALE, (0, 0, 0), 0)
        return (VALUE, (0, 0, 0), word(self.value(d, divide(r2, d), pivots[:-1], reml)))

    def freedom(self, reml):
        return float(self.n) - float(self.p) if reml else float(self.n)

    def value(self, d, s, pivots, reml):
        v = d * ln(TWO_PI * s) + 2.0 * self.sum + d
        if reml:
            t = 0.0
            for x in pivots:
                t = t + ln(x)
            v = v + 2.0 * t
        return v

    # Record 7
    def solved(self, v):
        """A to the -1 times v, both by sorted blocks."""
        k, l = self.k, self.working
        z = [list(block) for block in v]

        def within(i, substitution):
            if self.is_diagonal(i):
                return [divide(x, l[i, i][c, c]) for c, x in enumerate(z[i])]
            return substitution(z[i], l[i, i])

        for i in range(k):
            for j in range(i):
                if self.sparse:
                    for c, source in enumerate(z[j]):
                        if source != 0:
                            r = self.rows[c]
                            z[i][r] = z[i][r] - l[i, j][r, c] * source
                else:
                    z[i] = [x - dot((l[i, j][r, c] for c in range(self.m[j])), z[j]) for r, x in enumerate(z[i])]
            z[i] = within(i, forward)
        for i in reversed(range(k)):
            for j in range(i + 1, k):
                for c in range(self.m[i]):
                    rows = [self.rows[c]] if self.sparse else range(self.m[j])
                    z[i][c] = z[i][c] - dot((l[j, i][r, c] for r in rows), (z[j][r] for r in rows))
            z[i] = within(i, backward)
        return z

    def result_length(self):
        p, q = self.p, self.q
        return p + 2 * q + p * (p + 1) // 2 + q * (p + 1)

    def solution(self, reml):
        """Deviance, sigma2 and the result list: beta, b, u, L_X by rows, w of y, w of each column."""
        k, p = self.k, self.p

        def by_sheet(blocks):
            return [x for b in range(k) for x in blocks[self.order.index(b)]]

        theta = [self.theta[b] for b in self.order]
        scaled = [[[self.loaded[k, j][r, c] * theta[j] for c in range(self.m[j])] for j in range(k)] for r in range(p + 1)]
        v = [by_sheet(blocks) for blocks in scaled]
        w = [by_sheet(self.solved(blocks)) for blocks in scaled]
        vy, wy = v[p], w[p]
        a = self.loaded[k, k]
        l = {}
        for r in range(p):
            row = forward([a[r, c] - dot(v[r], w[c]) for c in range(r)], l)
            x = less(a[r, r] - dot(v[r], w[r]), row, row)
            if not x > 0:
                raise Pivot(r, 0)
            for c, y in enumerate(row + [root(x)]):
                l[r, c] = y
        right = [a[p, j] - dot(v[j], wy) for j in range(p)]
        beta = backward(forward(right, l), l)
        r2 = (a[p, p] - dot(vy, wy)) - dot(beta, right)
        d = self.freedom(reml)
        sigma2 = divide(r2, d)
        deviance = self.value(d, sigma2, [l[r, r] for r in range(p)], reml)
        u = [x - dot((w[j][i] for j in range(p)), beta) for i, x in enumerate(wy)]
        b = [t * x for t, x in zip(by_sheet([[t] * m for t, m in zip(theta, self.m)]), u)]
        return deviance, sigma2, beta + b + u + list(l.values()) + wy + [x for j in range(p) for x in w[j]]

    # the calls; each gives how the answer stands, number and places, the value's word
    def call_begin(self, theta):
        bad = bad_lists([theta], [self.k])
        if bad:
            return bad
        self.begin([double(w) for w in theta])
        return YES

    def call_step(self, s):
        if self.done is None or self.finished():
            return refusal(22)
        if not is_step(self.k, s):
            return refusal(21)
        if s in self.done:
            return refusal(23)
        if not all(f in self.done for f in forerunners(s)):
            return refusal(24)
        try:
            self.take(s)
        except Pivot as p:
            return refusal(26, *p.place)
        return YES

    def call_response(self, lists):
        bad = bad_lists(lists, [self.q, self.p, 1])
        if bad:
            return bad
        zy, xy, yy = lists
        starts = {}
        at = 0
        sizes = {b: self.m[j] for j, b in enumerate(self.order)}
        for b in range(self.k):
            starts[b] = at
            at += sizes[b]
        for j in range(self.k):
            for c in range(self.m[j]):
                self.loaded[self.k, j][self.p, c] = double(zy[starts[self.order[j]] + c])
        for c in range(self.p):
            self.loaded[self.k, self.k][self.p, c] = double(xy[c])
        self.loaded[self.k, self.k][self.p, self.p] = double(yy[0])
        self.done = None
        return YES

    def call_profile(self, theta, reml):
        bad = bad_lists([theta], [self.k])
        if bad:
            return bad
        self.begin([double(w) for w in theta])
        try:
            for s in rust_order(self.k):
                self.take(s)
        except Pivot as p:
            return (PIVOT, (26, *p.place), 0)
        return self.deviance(reml)

    def call_deviance(self, reml):
        return self.deviance(reml) if self.finished() else refusal(25)

    def call_solve(self, reml, length):
        """The answer with sigma2 behind it, and the words of the result list, none where it is left as it was."""
        if not self.finished():
            return refusal(25), None
        if length != self.result_length():
            return refusal(13), None
        try:
            deviance, sigma2, result = self.solution(reml)
        except Pivot as p:
            return refusal(27, *p.place), [0] * length
        return (SOLVED, (0, 0, 0), word(deviance), word(sigma2)), [word(x) for x in result]


YES = (ACCEPTED, (0, 0, 0), 0)


def refusal(number, first=0, second=0):
    return (REFUSED, (number, first, second), 0)


def bad_lists(lists, lengths):
    for i, l in enumerate(lists):
        if len(l) != lengths[i]:
            return refusal(13, i)
    for i, l in enumerate(lists):
        for j, w in enumerate(l):
            if sheet_list.infinite(w):
                return refusal(14, i, j)
    return None


def workspace_of(text):
    """What load makes of a sheet that it accepts."""
    s = sheet_list.read(text)
    sheet_list.judge(s)
    y = sheet_list.lay(s)
    heading, doubles = sheet_list.load(s, y)
    w = Workspace(s.n, s.p, y.m, y.order, y.sparse, y.diagonal, heading[128:])
    w.fill(doubles)
    assert w.heading() == heading and w.doubles() == doubles
    return w


# ---- cases

class Call:
    pass


class Case:
    """A sheet, and the calls on the workspace that load makes of it. The lists lent are two numbers and three doubles longer than they must be."""

    def __init__(self, text):
        self.text = text
        self.w = workspace_of(text)
        self.fresh = self.w.heading(), self.w.doubles()
        self.heading, self.doubles = self.fresh
        self.room = len(self.heading) + 2, len(self.doubles) + 3
        self.broken = None
        self.calls = []
        # a solve alters no workspace: it is drawn apart, so that the other calls are the same without it
        self.solves = random.Random(text)

    def record(self, kind, numbers, lists, lent, answer, result=()):
        c = Call()
        c.kind, c.numbers, c.lists, c.lent, c.answer, c.result = kind, numbers, lists, lent, answer, result
        heading, doubles = (self.broken or self.w.heading()), self.w.doubles()
        c.heading = [(i, x) for i, (x, old) in enumerate(zip(heading, self.heading)) if x != old]
        c.doubles = [(i, x) for i, (x, old) in enumerate(zip(doubles, self.doubles)) if x != old]
        self.heading, self.doubles = heading, doubles
        self.calls.append(c)
        return answer

    def call(self, kind, numbers=(), lists=(), cut=(2, 3)):
        """A call that is lent so many numbers and doubles more than it needs."""
        w = self.w
        lent = len(self.heading) + cut[0], len(self.doubles) + cut[1]
        if self.broken or min(cut) < 0:
            answer = refusal(20)
        elif kind == BEGIN:
            answer = w.call_begin(*lists)
        elif kind in (SUBTRACT, FACTOR, SOLVE):
            answer = w.call_step((kind, *numbers))
            if w.finished():
                self.hold()
        elif kind == RESPONSE:
            answer = w.call_response(lists)
        elif kind == PROFILE:
            answer = w.call_profile(lists[0], numbers[0])
        else:
            answer = w.call_deviance(numbers[0])
        return self.record(kind, numbers, lists, lent, answer)

    def solve(self, reml, more=0, cut=(2, 3)):
        """A solve that is lent a result list with so many doubles more than it must have."""
        lent = len(self.heading) + cut[0], len(self.doubles) + cut[1]
        length = max(0, self.w.result_length() + more)
        if self.broken or min(cut) < 0:
            answer, result = refusal(20), None
        else:
            answer, result = self.w.call_solve(reml, length)
        return self.record(SOLUTION, (int(reml),), (length,), lent, answer, result or ())

    def hold(self):
        """Demand 3: a finished update leaves what begin and the Rust's order give a freshly loaded workspace with the same numbers and theta."""
        if self.strange:
            return
        v = Workspace(self.w.n, self.w.p, self.w.m, self.w.order, self.w.sparse, self.w.diagonal, self.w.rows)
        for t in v.loaded:
            v.loaded[t] = dict(self.w.loaded[t])
        v.begin(self.w.theta)
        for s in rust_order(v.k):
            v.take(s)
        assert v.doubles() == self.w.doubles() and v.heading() == self.w.heading()

    strange = False

    def begin(self, *theta, **o):
        return self.call(BEGIN, (), ([bits(t) for t in theta],), **o)

    def step(self, s, **o):
        return self.call(s[0], s[1:], (), **o)

    def profile(self, reml, *theta, **o):
        return self.call(PROFILE, (int(reml),), ([bits(t) for t in theta],), **o)

    def deviance(self, reml, **o):
        return self.call(DEVIANCE, (int(reml),), (), **o)

    def respond(self, zy, xy, yy, **o):
        return self.call(RESPONSE, (), tuple([bits(x) for x in l] for l in (zy, xy, yy)), **o)

    def finish(self, rng=None):
        """Ready steps, drawn or as the Rust has them, to the last or a refused pivot."""
        while self.w.done is not None and not self.w.finished():
            ready = self.w.ready()
            answer = self.step(rng.choice(ready) if rng else ready[0])
            assert answer[0] == ACCEPTED or answer[1][0] == 26

    def damage(self, *altered):
        """Numbers of the heading that no call writes so."""
        self.broken = list(self.w.heading())
        for i, x in altered:
            self.broken[i] = x
        return self.record(ALTER, (), (), self.room, YES)

    def mend(self):
        self.broken = None
        return self.record(ALTER, (), (), self.room, YES)

    def alter(self, done, doubles=()):
        """A stranger's progress and doubles, which a heading may well say."""
        self.strange = True
        self.w.done = done
        words = self.w.doubles()
        for i, x in doubles:
            words[i] = bits(x)
        self.w.fill(words)
        return self.record(ALTER, (), (), self.room, YES)

    def write(self, out):
        out.load(self.text, self.room, (0, 0, 0))
        out.left(dict(enumerate(self.fresh[0])), dict(enumerate(self.fresh[1])))
        for c in self.calls:
            if c.kind == ALTER:
                out.alter(dict(c.heading), dict(c.doubles))
            elif c.kind == SOLUTION:
                out.solve(c.numbers, c.lists, c.lent, c.answer)
            else:
                out.call(c.kind, c.numbers, c.lists, c.lent, c.answer)
            out.left(dict(c.heading), dict(c.doubles), dict(enumerate(c.result)))


class Output:
    """The list, and what must be printed of it."""

    def __init__(self):
        self.words = []
        self.lines = []
        self.memory = []

    def head(self, kind, numbers, lengths, lent, body):
        numbers, lengths = list(numbers), list(lengths)
        numbers += [0] * (3 - len(numbers))
        lengths += [0] * (3 - len(lengths))
        self.words += [kind, *numbers, *lengths, *lent, len(body), *body]

    def answer(self, kind, how, places, value, *behind):
        self.lines.append("%d %d %d %d %d %016x\n" % (kind, how, *places, value))
        self.lines += [" %016x\n" % x for x in behind]

    def load(self, text, room, answer):
        self.memory = [sheet_list.PATTERN_U32] * NUMBERS + [sheet_list.PATTERN_F64] * (DOUBLES + RESULTS)
        body = [int.from_bytes(text[i:i + 8].ljust(8, b"\0"), "big") for i in range(0, len(text), 8)]
        self.head(LOAD, [len(text)], [], room, body)
        self.answer(LOAD, int(answer[0] != 0), answer, 0)

    def call(self, kind, numbers, lists, lent, answer):
        self.head(kind, numbers, [len(l) for l in lists], lent, [x for l in lists for x in l])
        self.answer(kind, *answer)

    def solve(self, numbers, lengths, lent, answer):
        self.head(SOLUTION, numbers, lengths, lent, [])
        self.answer(SOLUTION, *answer)

    def alter(self, heading, doubles):
        body = [x for i, w in heading.items() for x in (i, w)] + [x for i, w in doubles.items() for x in (NUMBERS + i, w)]
        self.head(ALTER, [], [], (0, 0), body)

    def left(self, heading, doubles, results=()):
        """The numbers and doubles that the call, or the alteration, must leave so."""
        for at, words in ((0, heading), (NUMBERS, doubles), (NUMBERS + DOUBLES, dict(results))):
            for i in sorted(words):
                if self.memory[at + i] != words[i]:
                    self.memory[at + i] = words[i]
                    self.lines.append("%d %016x\n" % (at + i, words[i]))


def write_sheet(out, c):
    """A case of sheet_list.py: load, and perhaps replace_response behind alterations of the heading."""
    out.load(c.text, c.room, c.answer)
    out.left(dict(enumerate(c.heading)), dict(enumerate(c.doubles)))
    if not c.after:
        return
    altered, n, d, lists, answer, changed = c.after
    if altered:
        out.alter(dict(altered), {})
        out.left(dict(altered), {})
    out.call(RESPONSE, (), lists, (n, d), YES if answer[0] == 0 else refusal(*answer))
    accepted = answer[0] == 0
    out.left({i: c.heading[i] for i in range(22, 69)} if accepted else {}, dict(changed))


def bits(x):
    """A double's word; whole numbers are words already."""
    return x if isinstance(x, int) else struct.unpack(">Q", struct.pack(">d", x))[0]


INF, NINF, QUIET, SIGNAL = 0x7FF0000000000000, 0xFFF0000000000000, 0xFFF8000000000001, 0x7FF0000000000001


def sheet(n, sizes, zz, zx, zy, xx, xy, yy):
    """A sheet's text: zz a dictionary of doubles by (column, row), the others lists."""
    p = len(xx)
    out = ["size\t%d\t%d\t%d\t%d\t1" % (n, p, sum(sizes), len(sizes))]
    out += ["block\t%d\t1" % m for m in sizes]
    out += ["zz\t%d\t%d\t%016x" % (c, r, bits(x)) for (c, r), x in sorted(zz.items())]
    out += ["zx\t%d\t%d\t%016x" % (r, c, bits(x)) for r, row in enumerate(zx) for c, x in enumerate(row)]
    out += ["zy\t%d\t%016x" % (r, bits(x)) for r, x in enumerate(zy)]
    out += ["xx\t%d\t%d\t%016x" % (r, c, bits(x)) for r, row in enumerate(xx) for c, x in enumerate(row)]
    out += ["xy\t%d\t%016x" % (r, bits(x)) for r, x in enumerate(xy)]
    out += ["yy\t%016x" % bits(yy)]
    return "".join(l + "\n" for l in out).encode()


def simulated(rng, sizes, p, readings, nested=False, n=None, exact=False):
    """The cross-products of drawn readings. Each level of the larger of two nested blocks belongs to one of the other."""
    start = [sum(sizes[:b]) for b in range(len(sizes))]
    q = sum(sizes)
    big = max(range(len(sizes)), key=lambda b: sizes[b])
    parent = [rng.randrange(sizes[1 - big]) for _ in range(sizes[big])] if nested else None
    zz, zx, zy = {}, [[0.0] * p for _ in range(q)], [0.0] * q
    xx, xy, yy = [[0.0] * (r + 1) for r in range(p)], [0.0] * p, 0.0
    for i in range(readings):
        levels = [i % m if i < m and nested else rng.randrange(m) for m in sizes]
        if nested:
            levels[1 - big] = parent[levels[big]]
        x = [1.0] + [float(rng.randint(-3, 3)) if exact else rng.gauss(0, 1) for _ in range(p - 1)]
        v = float(rng.randint(-5, 5)) if exact else rng.gauss(0, 2) + sum(x)
        rows = [s + l for s, l in zip(start, levels)]
        for a in rows:
            for b in rows:
                zz[a, b] = zz.get((a, b), 0.0) + 1.0
            for c in range(p):
                zx[a][c] += x[c]
            zy[a] += v
        for r in range(p):
            for c in range(r + 1):
                xx[r][c] += x[r] * x[c]
            xy[r] += x[r] * v
        yy += v * v
    return sheet(n if n is not None else readings, sizes, zz, zx, zy, xx, xy, yy)


ODD = [0.0, -0.0, 5e-324, -5e-324, 1e-200, 1e-160, 1e155, -1e155, 1e200, 1.7e308, -1.7e308, -0.7, -3.0, 2.2250738585072014e-308]


def drawn(rng):
    """A finite double: of any word, an odd one, or an everyday one."""
    if rng.random() < 0.15:
        while True:
            w = rng.randrange(2 ** 64)
            if not sheet_list.infinite(w):
                return double(w)
    return rng.choice(ODD) if rng.random() < 0.3 else rng.gauss(0, 3)


def wild(rng, sizes, p, n, density=0.7, one_each=False):
    """A sheet of any words: diagonals absent, negative, huge; pairs with any cells, or one in each column of the larger."""
    start = [sum(sizes[:b]) for b in range(len(sizes))]
    q = sum(sizes)
    zz = {}

    def some():
        x = drawn(rng)
        return x if x != 0 else 1.5

    for b, m in enumerate(sizes):
        for i in range(m):
            if rng.random() < 0.8:
                zz[start[b] + i, start[b] + i] = rng.choice([float(rng.randint(1, 30)), some()])
    big = max(range(len(sizes)), key=lambda b: (sizes[b], -b))
    for a in range(len(sizes)):
        for b in range(a):
            if one_each:
                for c in range(sizes[big]):
                    r = rng.randrange(sizes[1 - big])
                    zz[start[big] + c, start[1 - big] + r] = zz[start[1 - big] + r, start[big] + c] = rng.choice([1.0, 0.25, some()])
                continue
            for i in range(sizes[a]):
                for j in range(sizes[b]):
                    if rng.random() < density:
                        zz[start[a] + i, start[b] + j] = zz[start[b] + j, start[a] + i] = rng.choice([1.0, 0.25, some()])
    xx = [[drawn(rng) for _ in range(r)] + [rng.choice([50.0, drawn(rng)])] for r in range(p)]
    return sheet(n, sizes, zz, [[drawn(rng) for _ in range(p)] for _ in range(q)], [drawn(rng) for _ in range(q)], xx,
                 [drawn(rng) for _ in range(p)], rng.choice([90.0, drawn(rng)]))


def thetas(rng, k, odd):
    return [rng.choice(ODD) if rng.random() < odd else rng.choice([0.5, 1.0, rng.uniform(0, 2)]) for _ in range(k)]


def any_name(rng, k):
    """A step's name of any numbers."""
    def number():
        return rng.choice([rng.randrange(k + 3), rng.randrange(12), 2 ** 32 + rng.randrange(k + 1), 2 ** 64 - 1 - rng.randrange(3), rng.randrange(2 ** 64)])
    kind = rng.choice([SUBTRACT, FACTOR, SOLVE])
    return (kind, number(), number() if kind != FACTOR else 0, number() if kind == SUBTRACT else 0)


def bad_theta(rng, k):
    t = thetas(rng, k, 0.2)
    if rng.random() < 0.5:
        return t[:-1] if rng.random() < 0.5 else t + [rng.choice([1.0, INF])]
    for _ in range(rng.randint(1, 2)):
        t[rng.randrange(k)] = rng.choice([INF, NINF, QUIET, SIGNAL])
    return t


def response(rng, w, odd, bad=False):
    lists = [[rng.choice(ODD) if rng.random() < odd else rng.gauss(0, 3) for _ in range(n)] for n in (w.q, w.p, 1)]
    if not bad:
        lists[2][0] = abs(lists[2][0]) + 100.0 if odd == 0 else lists[2][0]
        return lists
    i = rng.randrange(3)
    if rng.random() < 0.5:
        lists[i] = lists[i][:-1] if rng.random() < 0.5 else lists[i] + [1.0]
    if rng.random() < 0.7 or bad_lists([[bits(x) for x in l] for l in lists], [w.q, w.p, 1]) is None:
        i = rng.randrange(3)
        lists[i] = lists[i] or [0.0]
        lists[i][rng.randrange(len(lists[i]))] = rng.choice([INF, NINF, QUIET, SIGNAL])
    return lists


def wander(c, rng, count, odd=0.15):
    """Calls of all kinds, drawn."""
    w = c.w
    for _ in range(count):
        if c.solves.random() < 0.02:
            c.solve(c.solves.random() < 0.5, c.solves.choice([0, 0, 0, -1, 1]))
        x = rng.random()
        steps = rust_order(w.k)
        o = {} if rng.random() < 0.97 else {"cut": rng.choice([(-1, 3), (2, -1), (-128, 0)])}
        under = w.done is not None and not w.finished()
        if x < (0.02 if under else 0.35):
            c.begin(*thetas(rng, w.k, odd), **o)
        elif x < 0.64 and under:
            c.step(rng.choice(w.ready()), **o)
        elif x < 0.72:
            c.step(rng.choice(steps), **o)
        elif x < 0.78:
            c.step(any_name(rng, w.k), **o)
        elif x < 0.83:
            done = sorted(w.done) if w.done else steps
            c.step(rng.choice(done), **o)
        elif x < 0.86:
            c.deviance(rng.random() < 0.5, **o)
        elif x < 0.89:
            c.profile(rng.random() < 0.5, *thetas(rng, w.k, odd), **o)
            if rng.random() < 0.5:
                c.deviance(rng.random() < 0.5)
        elif x < 0.90:
            c.respond(*response(rng, w, odd), **o)
        elif x < 0.93:
            c.respond(*response(rng, w, odd, bad=True), **o)
        elif x < 0.96:
            c.begin(*bad_theta(rng, w.k), **o)
        else:
            c.profile(rng.random() < 0.5, *bad_theta(rng, w.k), **o)


def whole(c, rng, orders, odd=0.0):
    """Updates to their end in drawn orders, with both deviances, each after another theta."""
    for _ in range(orders):
        c.begin(*thetas(rng, c.w.k, odd))
        c.finish(rng)
        c.deviance(False)
        c.deviance(True)
    if c.w.finished():
        solve(c)


def solve(c):
    """Both solutions, one behind the other."""
    c.solve(False)
    c.solve(True)


def damaged(c, rng):
    """Headings that no call leaves: every call answers 20 and writes nothing."""
    w = c.w
    k, left = w.k, len(rust_order(w.k))
    alterations = [[(0, 0)], [(0, 10 ** 9 + 1)], [(1, 0)], [(1, 33)], [(2, w.q + 1)], [(3, 0)], [(3, 9)], [(4, 65536)], [(12, 7)], [(20, 2)], [(21, 3)], [(22, 3)],
                   [(23, left + 1)], [(22, 1), (23, left - 1), (25, 1)], [(22, 2), (23, left)], [(3, 2 ** 32 - 1)]]
    if w.sparse:
        alterations += [[(128, w.m[1])], [(128 + w.m[0] - 1, 2 ** 32 - 1)]]
    for altered in alterations:
        c.damage(*altered)
        t = thetas(rng, k, 0)
        calls = [lambda: c.begin(*t), lambda: c.step(cholesky(0)), lambda: c.profile(False, *t), lambda: c.deviance(True),
                 lambda: c.respond(*response(rng, w, 0)), lambda: c.begin(*t[1:]), lambda: c.profile(True, INF, *t[1:]), lambda: c.step(any_name(rng, k))]
        for call in rng.sample(calls, 3):
            call()
        c.solve(c.solves.random() < 0.5, c.solves.choice([0, 1]))
        c.mend()
        c.step(rng.choice(rust_order(k)))


def altered(c):
    """Solutions on a finished factor with doubles that a stranger wrote: X'X not above 0 in each row, NaN, ±0; infinities and NaN anywhere."""
    w, rng = c.w, c.solves
    solve(c)
    last = sum(len(b) for b in w.loaded.values()) - (w.p + 1) * (w.p + 2) // 2
    steps = set(rust_order(w.k))
    for r in range(w.p):
        at = last + r * (r + 1) // 2 + r
        kept = c.doubles[at]
        for x in (-1e6, QUIET, -0.0, INF):
            c.alter(steps, [(at, x)])
            c.solve(rng.random() < 0.5)
        c.alter(steps, [(at, kept)])
    kept = list(enumerate(c.doubles))
    for odd in ([INF], [0.0, -0.0], [INF, NINF, QUIET, 0.0, 1e200, -1e-200]):
        for most in (1, 3):
            c.alter(steps, [(rng.randrange(len(kept)), rng.choice(odd)) for _ in range(rng.randint(1, most))])
            c.solve(rng.random() < 0.5)
            c.alter(steps, kept)


def collinear(p):
    """Three levels, each with four readings whose columns of X are multiples of one another."""
    base = [1.0, 2.0, 5.0]
    zz = {(i, i): 4.0 for i in range(3)}
    squares = 4.0 * sum(x * x for x in base)
    return sheet(12, [3], zz, [[4.0 * x * (c + 1) for c in range(p)] for x in base], [3.0, -2.0, 1.0],
                 [[squares * (r + 1) * (c + 1) for c in range(r + 1)] for r in range(p)], [7.0 * (c + 1) for c in range(p)], 90.0)


# fixed effects and a theta
COLLINEAR = [(2, 1.7), (3, 2.1), (4, 6.1)]


def worked():
    return sheet(3, [1], {(0, 0): 3.0}, [[2.0]], [4.0], [[5.0]], [6.0], 9.0)


def pair(n, m0, m1, rows, cells, diagonal0, diagonal1, p=1, xx=5000.0, yy=9000.0, null=None):
    """k = 2 with one entry in each column: rows and cells by column of block 0; a diagonal of None is absent. Z'X is -0 in row `null` of block 1
    and in the columns that have their entry there."""
    zz = {}
    for c in range(m0):
        if diagonal0[c] is not None:
            zz[c, c] = diagonal0[c]
        zz[c, m0 + rows[c]] = zz[m0 + rows[c], c] = cells[c]
    for r in range(m1):
        if diagonal1[r] is not None:
            zz[m0 + r, m0 + r] = diagonal1[r]
    q = m0 + m1
    zx = [[-0.0 if (rows[r] if r < m0 else r - m0) == null else 0.5 + r + c for c in range(p)] for r in range(q)]
    return sheet(n, [m0, m1], zz, zx, [1.0 + r for r in range(q)], [[0.25] * r + [xx + r] for r in range(p)], [1.5] * p, yy)


def cases():
    rng = random.Random("calls of document 01")
    out = []

    def case(text):
        c = Case(text)
        out.append(c)
        return c

    # the worked sheet: refusals before begin, both deviances, theta 0, REML with n = p, a lent list too short
    c = case(worked())
    for s in (cholesky(0), solving(1, 0), subtraction(9, 9, 9), cholesky(2 ** 64 - 1)):
        c.step(s)
    c.deviance(False)
    c.solve(False)
    c.begin(1.0)
    c.step(solving(1, 0))
    c.step(cholesky(0))
    c.solve(True)
    c.step(cholesky(0))
    c.finish()
    c.step(cholesky(0))
    c.deviance(False)
    c.deviance(True)
    # a result list one too short, one too long, none, all that there is; a lent list too short; and twice the same solution
    for more in (-1, 1, -100, RESULTS - c.w.result_length(), 0):
        c.solve(False, more)
    for cut in ((-1, 3), (2, -1), (-128, 0), (0, 0)):
        c.solve(True, 0, cut=cut)
    c.solve(False)
    c.profile(False, 0.0)
    solve(c)
    c.profile(True, 1.0)
    c.solve(True)
    c.respond([4.0], [6.0], [9.0])
    c.deviance(False)
    c.solve(False)
    wander(c, rng, 60)
    damaged(c, rng)
    for n in (1, 2):
        c = case(worked().replace(b"size\t3", b"size\t%d" % n))
        for reml in (False, True):
            c.profile(reml, 1.0)
            c.deviance(not reml)
            solve(c)
        whole(c, rng, 2, 0.3)

    # s underflows to 0, and the deviance is -infinity
    c = case(sheet(3, [2], {(0, 0): 1.0, (1, 1): 2.0}, [[0.0], [0.0]], [0.0, -0.0], [[1.0]], [0.0], 5e-324))
    c.profile(False, 1.0)
    c.profile(True, 1.0)
    solve(c)

    # simulated readings: k = 1 to 4 and 8, crossed and nested, and p of 1 to 4
    shapes = [([5], 1, 20), ([7], 3, 30), ([6, 4], 2, 40), ([3, 5], 2, 40), ([4, 4], 1, 25), ([5, 3, 4], 2, 50), ([2, 6, 3], 3, 50), ([4, 3, 2, 3], 2, 60),
              ([1] * 8, 1, 30), ([3, 2, 2, 1, 3, 1, 2, 2], 2, 60), ([12, 9], 4, 90)]
    for sizes, p, readings in shapes:
        c = case(simulated(rng, sizes, p, readings))
        wander(c, rng, 20, 0.0)
        whole(c, rng, 2 if sum(sizes) < 20 else 1)
        if len(sizes) == 8:
            c.profile(True, *thetas(rng, 8, 0))
            c.solve(False)
            continue
        wander(c, rng, 40)
        whole(c, rng, 1, 0.4)
    for sizes, p in (([6, 2], 1), ([2, 7], 2), ([4, 4], 3)):
        c = case(simulated(rng, sizes, p, 40, nested=True))
        assert c.w.diagonal and not c.w.sparse
        wander(c, rng, 40, 0.1)
        whole(c, rng, 3, 0.1)
        damaged(c, rng) if p == 1 else None
    c = case(simulated(rng, [5, 3], 2, 40, n=2, exact=True))
    whole(c, rng, 2)
    c = case(simulated(rng, [4, 3], 3, 40, n=3))
    whole(c, rng, 1)
    c.profile(True, 0.5, 0.5)
    c.profile(False, 0.5, 0.5)
    solve(c)

    # any words: refused pivots, infinities, NaNs
    for sizes, p, n, each in (([3], 1, 5, False), ([6], 2, 9, False), ([4, 3], 1, 10, False), ([3, 4], 3, 10, False), ([5, 2], 2, 10, True), ([3, 3], 1, 10, True),
                              ([3, 2, 2], 2, 20, False), ([2, 2, 3, 2], 1, 20, False), ([2, 1, 1, 1, 1, 1, 1, 1], 1, 20, False)):
        for _ in range(3 if len(sizes) < 4 else 1):
            c = case(wild(rng, sizes, p, n, one_each=each))
            wander(c, rng, 40, 0.3)
            whole(c, rng, 3 if len(sizes) < 8 else 1, 0.3)

    # refused pivots in each block, at the first row and later
    c = case(sheet(9, [3, 2], {(0, 0): 2.0, (1, 1): -4.0, (2, 2): 1.0, (3, 3): 1.0, (4, 4): -1.0, (0, 3): 3.0, (3, 0): 3.0, (1, 4): 1.0, (4, 1): 1.0, (2, 4): 1.0, (4, 2): 1.0},
                   [[1.0]] * 5, [1.0] * 5, [[5.0]], [1.0], 9.0))
    for t in ((1.0, 0.5), (0.5, 0.5), (0.25, 1.0), (0.25, 0.75), (0.5, 1.0), (0.499, 0.25), (0.0, 1.0), (0.0, 0.0), (0.0, -2.0)):
        c.profile(False, *t)
        c.begin(*t)
        c.finish(rng)
        c.deviance(False)
        c.solve(True)
    for k in (2, 3):
        sizes = [3, 2, 2][:k]
        q = sum(sizes)
        start = [0, 3, 5]
        zz = {(i, i): 2.0 for i in range(q)}
        for a in range(k):
            for b in range(a):
                for i in range(sizes[a]):
                    for j in range(sizes[b]):
                        zz[start[a] + i, start[b] + j] = zz[start[b] + j, start[a] + i] = 0.5 * (1 + i + j)
        for yy, xx in ((9.0, 5.0), (0.0, 5.0), (9.0, 0.0), (9.0, -1.0), (-1.0, 5.0), (1e-3, 5.0)):
            c = case(sheet(9, sizes, zz, [[0.5, 0.25]] * q, [0.5] * q, [[5.0], [0.5, xx]], [0.5, 0.5], yy))
            for t in ([0.25] * k, [1.0] * k, [0.0] * k, [0.1] + [3.0] * (k - 1)):
                c.profile(rng.random() < 0.5, *t)
                c.begin(*t)
                c.finish(rng)
                c.deviance(True)
                c.solve(True)

    # where the Rust leaves out a diagonal subtraction: a cell that underflowed in scaling, one in the division of T(1,0), a NaN column
    for text, t in ((pair(20, 3, 2, [0, 1, 0], [1e150, 1e-200, 0.5], [3.0, 3.0, 3.0], [3.0, 3.0]), (1e-150, 1.0)),
                    (pair(20, 3, 2, [0, 1, 0], [1.0, 1e-180, 0.5], [3.0, 1e300, 3.0], [3.0, 3.0]), (1.0, 1.0)),
                    (pair(20, 3, 2, [0, 1, 0], [1.0, 2.0, 0.5], [3.0, None, 3.0], [3.0, 3.0]), (1e200, 1e-200)),
                    (pair(20, 4, 2, [0, 1, 0, 1], [1.0, 2.0, 0.5, 5e-324], [3.0, 2.0, None, 1.0], [3.0, None], 2), (1e170, 0.5))):
        c = case(text)
        assert c.w.diagonal
        c.profile(False, *t)
        c.profile(True, *t)
        c.begin(*t)
        c.finish(rng)
        c.deviance(True)
        c.solve(False)
        whole(c, rng, 2, 0.2)

    # a pivot of the finish that rounding takes to 0 or below, in row 1 and in row 2: columns that are constant in each level
    for p, t in COLLINEAR:
        c = case(collinear(p))
        c.profile(False, t)
        c.solve(True)
        assert c.calls[-1].answer[1] == (27, p - 1, 0)

    # with theta 0, X'X of ±0, which is not above 0, and of the least number above
    c = case(worked())
    c.profile(False, 0.0)
    for x in (0.0, -0.0, 5e-324):
        c.alter(set(rust_order(1)), [(3, x)])
        c.solve(False)

    # infinite offsets of the response, of both signs in one row of block 1, so that NaN passes the pivots
    c = case(simulated(random.Random("overflow"), [3, 2], 2, 30))
    c.respond([1.7e308, -1.7e308, 1.7e308, -3.0, 2.0], [1.0, 2.0], [5.0])
    c.profile(False, 4.0, 0.5)
    solve(c)
    c.profile(False, 1.0, 0.5)
    c.solve(True)

    # workspaces that a stranger altered: steps on doubles that begin did not write, divisions by 0, a factor that nothing made
    for text in (worked(), simulated(rng, [4, 3], 2, 30), simulated(rng, [5, 2], 1, 30, nested=True), simulated(rng, [3, 2, 2], 1, 30)):
        c = case(text)
        k = c.w.k
        c.alter({cholesky(0)})
        c.step(solving(1, 0))
        c.finish(rng)
        c.deviance(False)
        c.alter(set(rust_order(k)))
        c.deviance(False)
        c.deviance(True)
        c.solve(True)
        n = len(c.doubles)
        for x in (-3.0, 5e-324, 1e200, INF, QUIET, -0.0, 2.0):
            c.alter(set(rust_order(k)), [(n - 2, x), (n - 1, rng.choice([1.0, -2.5, INF, QUIET]))])
            c.deviance(False)
            c.deviance(True)
        at = n - 1 - sum(len(b) for b in c.w.working.values())
        for _ in range(4):
            done = set()
            for s in rust_order(k)[:rng.randrange(len(rust_order(k)))]:
                done.add(s)
            c.alter(done, [(i, rng.choice([INF, QUIET, 0.0, -0.0, drawn(rng), drawn(rng)])) for i in range(at, n)])
            c.finish(rng)
            c.deviance(True)
            c.solve(True)
        c.begin(*thetas(rng, k, 0))
        c.finish(rng)
        c.deviance(True)
        altered(c)

    # sparse pairs: more than 100,000 cells, one entry in each column; a source of -0 is skipped going forward, and leaves a -0
    c = case(pair(2000, 317, 316, [rng.randrange(316) for _ in range(317)], [float(rng.randint(1, 4)) for _ in range(317)],
                  [None if rng.random() < 0.1 else float(rng.randint(3, 9)) for _ in range(317)], [float(rng.randint(9, 30)) for _ in range(316)],
                  xx=1e9, yy=1e9, null=7))
    assert c.w.sparse and c.w.diagonal and 7 in c.w.rows
    c.step(solving(1, 0))
    c.begin(0.5, 0.25)
    c.finish(rng)
    c.deviance(False)
    c.deviance(True)
    solve(c)
    c.step(subtraction(2, 1, 0))
    c.profile(True, 1e200, 0.5)
    c.profile(False, 5.0, 5.0)
    c.begin(0.25, -0.5)
    c.step(cholesky(0))
    c.step(subtraction(1, 1, 0))
    c.step(solving(1, 0))
    c.step(solving(1, 0))
    c.damage((128 + 316, 316))
    c.step(solving(2, 0))
    c.mend()
    c.finish(rng)
    c.respond([1.0] * 633, [2.0], [800.0])
    c.deviance(False)
    c.profile(False, 0.5, 0.25)
    c.solve(False, -1)
    return out


def main():
    if len(sys.argv) < 3:
        sys.exit(__doc__.split("\n\n")[1])
    if sys.argv[1] == "--pivots":
        return print_pivots(sys.argv[2])
    if sys.argv[1] == "--original":
        return compare(sys.argv[2], int(sys.argv[3]) if len(sys.argv) > 3 else 0)
    out = Output()
    for c in sheet_list.cases(sys.argv[3:]):
        write_sheet(out, c)
    for c in cases():
        c.write(out)
    out.words.append(END)
    large(out)
    out.words.append(END)
    long_sheets(out)
    with open(sys.argv[1], "w") as f:
        f.writelines("%016x\n" % w for w in out.words)
    with open(sys.argv[2], "w") as f:
        f.writelines(out.lines)


def pivots(w, theta):
    """What `factor` prints."""
    w.begin(theta)
    try:
        for s in rust_order(w.k):
            w.take(s)
    except Pivot as p:
        return "refused\t26\t%d\t%d\n" % p.place
    rows = [(j, r) for j in range(w.k + 1) for r in range(w.m[j] if j < w.k else w.p + 1)]
    return "".join("pivot\t%d\t%d\t%016x\n" % (j, r, word(w.working[j, j][r, r])) for j, r in rows)


def print_pivots(path):
    with open(path, "rb") as f:
        text = f.read()
    at = text.index(b"theta\t")
    sys.stdout.write(pivots(workspace_of(text[:at]), [double(int(l.split(b"\t")[2], 16)) for l in text[at:].splitlines()]))


class Original(Workspace):
    """The Rust's `rank_sub_diagonal`: where a column of the working pair has not one cell other than 0, it leaves out S(1,1,0)."""

    def subtract(self, i, j, h):
        a = self.working[1, 0]
        if i == j == 1 and self.k == 2 and self.diagonal and not self.sparse:
            if any(sum(a[r, c] != 0 for r in range(self.m[1])) != 1 for c in range(self.m[0])):
                return
        super().subtract(i, j, h)


def more_sheets(count):
    """So many more sheets, each with a theta: simulated readings, whole numbers throughout, any words."""
    rng = random.Random("solutions of document 01")
    for i in range(count):
        k = rng.choice([1, 2, 2, 2, 3, 4, 5, 8])
        sizes = [rng.randint(1, 12 if k < 4 else 4) for _ in range(k)]
        p = rng.randint(1, 5)
        if i % 4 == 3:
            yield wild(rng, sizes, p, rng.randint(1, 40), one_each=k == 2 and rng.random() < 0.5), thetas(rng, k, rng.choice([0.0, 0.3]))
        else:
            text = simulated(rng, sizes, p, rng.randint(sum(sizes), 120), nested=k == 2 and rng.random() < 0.5, exact=i % 4 == 2)
            yield text, [rng.choice([0.0, 1.0, 2.0, -0.5]) if i % 4 == 2 else rng.uniform(0, 2) for _ in range(k)]


def apart(a, b):
    """Two words' doubles, in parts of the larger."""
    x, y = double(a), double(b)
    return 0.0 if a == b else abs(x - y) / max(abs(x), abs(y)) if math.isfinite(x - y) else math.inf


def compare(driver, count):
    def run(text, *words):
        return subprocess.run([driver, *words], input=text, capture_output=True, check=True).stdout.decode()

    tries = []
    for c in cases():
        tried = []
        for x in c.calls:
            if x.kind in (BEGIN, PROFILE) and x.answer[0] != REFUSED and x.lists[0] not in tried:
                tried.append(x.lists[0])
        tries += [(c.text, t) for t in tried]
    tries += [(text, [bits(t) for t in theta]) for text, theta in more_sheets(count)]
    seen, same, left_out, values, equal = 0, 0, 0, 0, 0
    solves, refused, results, solved, farthest = 0, 0, 0, 0, 0.0
    for text, t in tries:
        theta = [double(w) for w in t]
        w = workspace_of(text)
        text = text + b"".join(b"theta\t%d\t%016x\n" % (i, x) for i, x in enumerate(t))
        mine = pivots(w, theta)
        rust = run(text, "pivots")
        if rust == "err\n":
            rust = run(text, "place")
        seen += 1
        if mine != rust:
            w.__class__ = Original
            assert pivots(w, theta) == rust, text.decode()
            left_out += 1
        else:
            same += 1
        if not w.finished():
            continue
        for mode, reml in (("ml", False), ("reml", True)):
            how, _, value = w.deviance(reml)
            rust = int(run(text, "deviance", mode).split("\t")[1], 16)
            values += 1
            equal += rust == (value if how == VALUE else 0x7FEFFFFFFFFFFFFF)
            answer, result = w.call_solve(reml, w.result_length())
            rust = run(text, "solve", mode)
            solves += 1
            if answer[0] == REFUSED or rust == "err\n":
                assert answer[0] == REFUSED and rust == "err\n", text.decode()
                refused += 1
                continue
            mine, rust = [*answer[2:], *result], [int(line.split("\t")[-1], 16) for line in rust.splitlines()]
            assert len(mine) == len(rust)
            results += mine[1:] == rust[1:]
            solved += mine == rust
            farthest = max(farthest, *map(apart, mine, rust))
    print("updates %d: %d bit for bit, %d where the Rust leaves out a diagonal subtraction" % (seen, same, left_out))
    print("deviances %d: %d bit for bit" % (values, equal))
    print("solutions %d: both refuse %d; sigma2 and result list of the others: %d bit for bit, with the deviance %d; words are at most %.2g of their size apart"
          % (solves, refused, results, solved, farthest))


def large(out):
    """3 by 33,334 cells, one entry in each column."""
    m0 = 33334
    q = m0 + 3

    def fraction(i):
        return i % 1009 * 37 % 1009 / 64.0

    def loaded(i):
        if m0 <= i < q:
            return 1000000.0
        if i < q + m0:
            return 1.0 + fraction(i)
        return {133345: 10000000.0, 133346: 5.0, 133347: 10000000.0}.get(i, fraction(i) - 8.0)

    w = Workspace(40000, 1, [m0, 3], [0, 1], True, True, [i % 11 % 3 for i in range(128, 128 + m0)])
    w.fill([bits(loaded(i)) for i in range(133348)] + [0] * 133351)

    def total(doubles):
        s = 0
        for x in w.heading():
            s = s % 2 ** 58 * 31 + x
        for x in doubles:
            s = s % 2 ** 58 * 31 + (x >> 32)
            s = s % 2 ** 58 * 31 + x % 2 ** 32
        return s

    theta = [bits(0.5), bits(0.25)]

    def line(kind, answer, numbers=(), lists=()):
        out.call(kind, numbers, lists, (0, 0), answer)
        out.lines.append(" %016x\n" % total(w.doubles()))

    def solution(reml, more=0):
        length = w.result_length()
        answer, result = w.call_solve(reml, length + more)
        out.solve((reml,), (length + more,), (len(w.heading()), len(w.doubles())), answer)
        out.lines.append(" %016x\n" % total(result or [0] * length))

    line(BEGIN, w.call_begin(theta), (), [theta])
    for s in (solving(1, 0), cholesky(0), solving(2, 0), subtraction(2, 2, 0), solving(1, 0), subtraction(2, 1, 0), subtraction(2, 1, 0), subtraction(1, 1, 0),
              cholesky(1), solving(2, 1), subtraction(2, 2, 1), cholesky(2)):
        line(s[0], w.call_step(s), s[1:])
    for reml in (0, 1):
        line(DEVIANCE, w.call_deviance(reml), (reml,))
        solution(reml)
    solution(0, -1)
    line(PROFILE, w.call_profile(theta, 0), (0,), [theta])
    wide = [bits(1e200), bits(0.5)]
    line(PROFILE, w.call_profile(wide, 1), (1,), [wide])
    solution(1)
    response = [[bits(fraction(i) - 8.0) for i in range(q)], [bits(5.0)], [bits(1.0)]]
    line(RESPONSE, w.call_response(response), (), response)
    line(PROFILE, w.call_profile(theta, 1), (1,), [theta])
    solution(1)


def long_sheets(out):
    """Blocks of 65,535 and 5 levels.  The proved search for faulty zz lines goes by groups of 65,536 columns, and an entry is in the group of its
    smaller index: in the second are entries of the last block alone."""
    sizes = [65535, 5]
    q = sum(sizes)
    good = {(i, i): i + 1.0 for i in (0, 3, 65534, 65535, 65536, 65537, 65539)}
    for c, r in ((0, 65535), (3, 65536), (3, 65538), (65534, 65539)):
        good[c, r] = good[r, c] = 0.5 * c + r

    def case(first, changed, *absent):
        """Entries of `good` changed or more, some left out; `first` is the one whose line is named."""
        zz = {e: x for e, x in {**good, **changed}.items() if e not in absent}
        c = sheet_list.Case(sheet(9, sizes, zz, [[1.0]] * q, [1.0] * q, [[1.0]], [1.0], 1.0))
        assert c.answer == ((9, c.sheet.zz_line[first], 0) if first else (11, 1, 0))
        out.words += [1, len(zz)]
        for e, x in sorted(zz.items()):
            out.words += [*e, bits(x)]
        out.answer(LOAD, REFUSED, c.answer, 0)

    # no fault: the gate by counts refuses these
    case(None, {}, *good)
    case(None, {})

    # faults in the first group alone: zeros, a missing mirror on either side, unequal bits, inside the last block at the group's last column
    case((0, 0), {(0, 0): 0.0})
    case((0, 65535), {(0, 65535): 0.0, (65535, 0): -0.0})
    case((65539, 65534), {}, (65534, 65539))
    case((3, 65536), {}, (65536, 3))
    case((3, 65538), {(65538, 3): bits(good[3, 65538]) ^ 1})
    case((65535, 65536), {(65535, 65536): 2.0})
    case((65536, 65535), {(65536, 65535): 2.0})

    # in the second alone
    case((65536, 65536), {(65536, 65536): 0.0})
    case((65539, 65539), {(65539, 65539): -0.0})
    case((65536, 65538), {(65536, 65538): 2.0, (65538, 65536): 2.0})
    case((65538, 65536), {(65538, 65536): 2.0})

    # in both, the second group's line before those of the first
    case((65536, 65536), {(65536, 65536): -0.0}, (3, 65538))
    case((65536, 65539), {(65536, 65539): 2.0, (65538, 65535): 2.0})
    case((65537, 65537), {(65537, 65537): 0.0}, (3, 65538), (65534, 65539))

    # in both, the first group's line before those of the second
    case((0, 0), {(0, 0): -0.0, (65537, 65537): 0.0})
    case((65536, 3), {(65536, 65536): 0.0}, (3, 65536))
    case((65537, 65535), {(65537, 65535): 2.0, (65537, 65536): 2.0, (65539, 65539): 0.0})
    case((3, 65538), {(65536, 65539): 2.0, (65537, 65537): -0.0}, (65538, 3), (65534, 65539))


if __name__ == "__main__":
    main()
