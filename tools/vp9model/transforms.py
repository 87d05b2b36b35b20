"""Inverse transforms and reconstruction (8.6.2, 8.7), by the flows and the written formulas, with the cosines of the C library."""
import math
import re

from .tables import flows

ROUNDING = {4: 4, 8: 5, 16: 6, 32: 6}
KINDS = ["DctDct", "AdstDct", "DctAdst", "AdstAdst"]


class Misfit(Exception):
    """A value that doesn't fit."""


class Refused(Exception):
    """A rule that is broken, by its name."""


def round2(x, bits):
    return (x + (1 << bits >> 1)) >> bits


def cos64(k):
    return round(16384 * math.cos(k * math.pi / 64))


def sinpi(k):
    return round(16384 * 2 * math.sqrt(2) / 3 * math.sin(k * math.pi / 9))


class Machine:
    """Runs flows with the tests of a depth."""

    def __init__(self, depth):
        self.depth = depth

    def tested(self, x, bits=8):
        if not -(1 << (self.depth + bits - 1)) <= x < 1 << (self.depth + bits - 1):
            raise Misfit
        return x

    def wide(self, x):
        return self.tested(x, 24)

    def turned(self, x, y, k):
        return x * cos64(k) - y * cos64(32 - k), x * cos64(32 - k) + y * cos64(k)

    def run(self, steps, values):
        v = list(values)
        for kind, numbers in steps:
            if kind == "perm":
                v = [v[place] for place in numbers]
            elif kind == "rot":
                a, b, k = numbers
                v[a], v[b] = (self.tested(round2(s, 14)) for s in self.turned(v[a], v[b], k))
            elif kind == "sum":
                a, b = numbers
                v[a], v[b] = self.tested(v[a] + v[b]), self.tested(v[a] - v[b])
            elif kind == "neg":
                v[numbers[0]] = self.tested(-v[numbers[0]])
            else:
                assert kind == "wide", kind
                a, b, k, c, d, m = numbers
                p, q = map(self.wide, self.turned(v[a], v[b], k))
                r, s = map(self.wide, self.turned(v[c], v[d], m))
                v[a], v[c] = (self.tested(round2(x, 14)) for x in (p + r, p - r))
                v[b], v[d] = (self.tested(round2(x, 14)) for x in (q + s, q - s))
        return v

    def adst_4_sums(self, x):
        s1, s2, s3, s4 = (sinpi(k) for k in (1, 2, 3, 4))
        p = self.wide(s1 * x[0] + s4 * x[2] + s2 * x[3])
        q = self.wide(s2 * x[0] - s1 * x[2] - s4 * x[3])
        t = self.wide(s3 * x[1])
        return [self.tested(round2(y, 14)) for y in (p + t, q + t, s3 * (x[0] - x[2] + x[3]), p + q - t)]

    def adst_4(self, x):
        self.tested(x[0] - x[2] + x[3])
        return self.adst_4_sums(x)

    def wht(self, x, shift):
        a, c, d, b = (y >> shift for y in x)
        a += c
        d -= b
        e = (a - d) >> 1
        b = e - b
        c = e - c
        return [self.tested(y) for y in (a - b, b, c, d + c)]

    def transform(self, name, x):
        if name == "Adst" and len(x) == 4:
            return self.adst_4(x)
        return self.run(flows()[name.upper(), len(x)], x)


def dequantised(n, dc, ac, depth, levels):
    """The values before the transforms, of levels by position."""
    block = [0] * (n * n)
    for position, level in levels.items():
        value = level * (ac if position else dc)
        if n == 32:
            value = abs(value) // 2 * (1 if value >= 0 else -1)
        if not -(1 << (depth + 7)) <= value < 1 << (depth + 7):
            raise Refused("CoefRange")
        block[position] = value
    return block


def residue(n, kind, dc, ac, depth, lossless, levels):
    """The residue of levels, a map from position to level; columns come first in a kind's name."""
    block = dequantised(n, dc, ac, depth, levels)
    machine = Machine(depth)
    by_columns, by_rows = re.findall("[A-Z][a-z]+", kind)
    try:
        rows = [block[n * i : n * i + n] for i in range(n)]
        if lossless:
            rows = [machine.wht(row, 2) for row in rows]
            columns = [machine.wht([row[j] for row in rows], 0) for j in range(n)]
            return [columns[j][i] for i in range(n) for j in range(n)]
        rows = [machine.transform(by_rows, row) for row in rows]
        columns = [machine.transform(by_columns, [row[j] for row in rows]) for j in range(n)]
    except Misfit:
        raise Refused("TransformRange") from None
    return [round2(columns[j][i], ROUNDING[n]) for i in range(n) for j in range(n)]
