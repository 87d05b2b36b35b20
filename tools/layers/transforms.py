"""Transforms: what `inverse_transforms` gives of lists, and `residue_transforms` of blocks. Each flow of a DCT is compared with the sum
of cosines that it stands for."""
import math

from vp9model.draws import Draws
from vp9model.tables import flows
from vp9model.transforms import KINDS, Machine, Misfit, Refused, residue

from .items import DEPTHS, flag, item, struct


def check_cosines():
    """A flow of a DCT is the sum of cosines, but for rounding."""
    draws = Draws(1)
    for (kind, n), steps in flows().items():
        if kind != "DCT":
            continue
        for _ in range(20):
            x = [draws.half() % 2001 - 1000 for _ in range(n)]
            for j, value in enumerate(Machine(12).run(steps, x)):
                terms = (x[k] * (math.sqrt(0.5) if k == 0 else math.cos((2 * j + 1) * k * math.pi / (2 * n))) for k in range(n))
                assert abs(sum(terms) - value) < 6, (n, j)


def inputs(n, depth, draws):
    """Random ones, small and large, sparse ones, and the extremes."""
    limit = 1 << (depth + 7)
    yield [draws.half() % 4001 - 2000 for _ in range(n)]
    yield [(draws.half() - 32768) * limit // 32768 // n for _ in range(n)]
    yield [(draws.half() - 32768) * limit // 32768 for _ in range(n)]
    one = [0] * n
    one[draws.below(n)] = limit - 1
    yield one
    two = [0] * n
    two[0], two[draws.below(n - 1) + 1] = -limit, draws.below(100)
    yield two
    yield [-limit] + [0] * (n - 1)
    yield [limit - 1 if draws.below(2) else -limit for _ in range(n)]


def differences(n, depth, draws):
    """For the ADST of 4, x0 - x2 + x3 at the bounds of what fits and beyond, where all else fits."""
    limit = 1 << (depth + 7)
    half, third, fifth = limit // 2, limit // 3, limit // 5
    for x0, x2, x3 in (
        (half - 1, -half, 0),
        (half, -half, 0),
        (-half, half, 0),
        (-half, half, -1),
        (third, -third, limit - 2 * third),
        (limit - 1, 0, fifth),
        (-limit, fifth, 0),
    ):
        x = [x0, draws.below(2001) - 1000, x2, x3]
        Machine(depth).adst_4_sums(x)
        yield x


TRANSFORMS = (
    [(f"{name.upper()}_{n}", n, lambda m, x, name=name: m.transform(name, x), inputs) for name, n in
     [("Dct", 4), ("Dct", 8), ("Dct", 16), ("Dct", 32), ("Adst", 4), ("Adst", 8), ("Adst", 16)]]
    + [("WHT_OF_ROWS", 4, lambda m, x: m.wht(x, 2), inputs), ("WHT_OF_COLUMNS", 4, lambda m, x: m.wht(x, 0), inputs),
       ("ADST_4_DIFFERENCES", 4, lambda m, x: m.adst_4(x), differences)]
)


def lists():
    check_cosines()
    draws, items = Draws(5), []
    for name, n, transform, cases in TRANSFORMS:
        values, fits = [], []
        for depth in DEPTHS:
            for x in cases(n, depth, draws):
                try:
                    output, fit = transform(Machine(depth), x), True
                except Misfit:
                    output, fit = [0] * n, False
                values += x + output
                fits.append(flag(fit))
        items += [item("pub static", name, "i32", values), item("pub static", f"{name}_FITS", "bool", fits)]
    return items


def cases_of_residue(n, draws):
    """Kind, quantisers, depth, lossless, levels."""
    for number, kind in enumerate(KINDS if n < 32 else KINDS[:1]):
        levels = {draws.below(n * n): draws.below(61) - 30 for _ in range(12)}
        levels[0] = draws.below(201) - 100
        yield kind, 20 + number, 27, list(DEPTHS)[number % 3], False, levels
    yield "DctDct", 40, 44, 10, False, {0: -57}
    yield "DctDct", 1336, 1828, 8, False, {1: -3, n + 1: 19 * (2 if n == 32 else 1)}
    if n == 4:
        yield "DctDct", 4, 4, 8, True, {0: 4}
        yield "DctDct", 4, 4, 8, True, {0: 200, 1: -37, 4: 55, 6: -4, 11: 9, 15: 1}
        yield "DctDct", 1336, 1828, 8, False, {0: 24}
        yield "DctDct", 1336, 1828, 8, False, {0: 25}
        yield "DctDct", 1336, 1828, 8, False, {0: 24, 4: 17}
        yield "DctDct", 21387, 29247, 12, False, {0: -(1 << 19), 3: 1 << 19}
        yield "AdstAdst", 4, 4, 8, False, {0: 8191, 1: 8191, 4: 8191, 5: 8191}


def residues():
    draws, items = Draws(9), []
    for n in (4, 8, 16, 32):
        heads, places, values, outputs = [], [], [], []
        for kind, dc, ac, depth, lossless, levels in cases_of_residue(n, draws):
            try:
                output, rule = residue(n, kind, dc, ac, depth, lossless, levels), "None"
            except Refused as refusal:
                output, rule = [0] * (n * n), f"Some(Rule::{refusal})"
            quant = struct("Quant", dc=dc, ac=ac, depth=DEPTHS[depth], lossless=flag(lossless))
            heads.append(struct("Head", kind=f"TxType::{kind}", quant=quant, levels=len(levels), rule=rule))
            places += levels.keys()
            values += levels.values()
            outputs += output
        items += [item("pub static", f"HEADS_{n}", "Head", heads), item("pub static", f"PLACES_{n}", "usize", places),
                  item("pub static", f"LEVELS_{n}", "i32", values), item("pub static", f"RESIDUE_{n}", "i32", outputs)]
    return items
