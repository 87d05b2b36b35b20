"""Tokens: blocks that `coef_tokens` reads, and bytes that `token_writer` and `residue_writer` write."""
import random

from vp9model.bools import Reader, Writer
from vp9model.draws import ShortDraws
from vp9model.tokens import CATEGORIES, SIDES, by_position, encode_block, read_block

from .items import DEPTHS, Value, flag, item, listed, struct, tx_name

TYPES = {"default": "DctDct", "row": "AdstDct", "column": "DctAdst"}
GREATEST = [67 + 2 ** (14 + more) - 1 for more in (0, 2, 4)]


def token_kind(tx, kind, chroma, inter, depth):
    return struct("TokenKind", tx=f"TxSize::{tx_name(SIDES[tx])}", kind=f"TxType::{TYPES[kind]}", plane="Plane::U" if chroma else "Plane::Y",
                  inter=flag(inter), depth=DEPTHS[depth])


def encoded(tx, kind, chroma, inter, first, depth, levels):
    """The bytes of a block alone, which are read back."""
    writer = Writer()
    encode_block(writer, tx, kind, chroma, inter, first, depth, levels)
    data = writer.bytes()
    assert read_block(Reader(data), tx, kind, chroma, inter, first, depth) == levels
    return list(data)


# ---- blocks that are read


def drawn_levels(rng, count, most):
    """Levels of all sizes, of which the last isn't 0."""
    levels = []
    for _ in range(count):
        level = rng.choice([0, 0, 1, 1, 2, 3, 4, rng.randrange(5, 7), rng.randrange(7, 35), rng.randrange(35, most)])
        levels.append(rng.choice([1, -1]) * level)
    levels[-1] = levels[-1] or 1
    return levels


def cases():
    """Transform size, kind, whether chroma and inter, context of the first place, depth, levels."""
    edges = [5, -6, 7, 0, 10, -11, 18, 19, 0, 0, -34, 35, 66, -67]
    rng = random.Random(9)
    yield 0, "default", 0, 0, 0, 8, edges + [GREATEST[0]]
    yield 0, "default", 0, 0, 1, 10, edges + [-GREATEST[1], CATEGORIES[6][0] + 2**15]
    yield 0, "default", 0, 0, 2, 12, edges + [GREATEST[2], -(CATEGORIES[6][0] + 2**17)]
    yield 0, "default", 0, 0, 0, 8, []
    yield 0, "default", 0, 0, 2, 8, [0] * 16
    yield 0, "default", 1, 0, 1, 8, [1, -1] * 8
    for tx in range(4):
        for kind in TYPES:
            if tx == 3 and kind != "default":
                continue
            for chroma, inter in ((0, 0), (1, 1)) if tx else ((0, 1), (1, 0)):
                count = [12, 20, 24, 40][tx]
                yield tx, kind, chroma, inter, rng.randrange(3), rng.choice([8, 10, 12]), drawn_levels(rng, count, 900)
    yield 3, "default", 0, 0, 1, 8, [rng.choice([0, 0, 0, 1, -1]) for _ in range(1023)] + [-2]


def row(tx, kind, chroma, inter, first, depth, levels):
    found = by_position(kind, SIDES[tx], levels)
    return struct("Row", at=token_kind(tx, kind, chroma, inter, depth), first=first,
                  bytes=f"&{encoded(tx, kind, chroma, inter, first, depth, levels)}", count=len(levels),
                  levels="&" + listed(f"({p}, {found[p]})" for p in sorted(found)))


def small():
    return [item("pub static", "SMALL_ROWS", "Row", [row(*case) for case in cases() if case[0] <= 1])]


def large():
    return [item("pub static", "LARGE_ROWS", "Row", [row(*case) for case in cases() if case[0] > 1])]


# ---- bytes that are written


def drawn_to_write(draws, count, most):
    def level():
        choices = [0, 1, -1, 2, -3, 4, draws.below(7) - 3, draws.below(40), -draws.below(300), draws.below(most)]
        return choices[draws.below(10)]

    coded = [level() for _ in range(count)]
    coded[-1] = coded[-1] or -1
    return coded


def writings():
    """The rows stand in the order of transform sizes, and are drawn in another one."""
    draws, rows = ShortDraws(7), {}
    for name, tx, kind, chroma, inter, depth, first, count in [
        ("small", 0, "row", 0, 0, 8, 2, 13), ("chroma", 1, "default", 1, 1, 10, 0, 20), ("large", 3, "default", 0, 1, 12, 1, 30),
        ("full", 0, "column", 0, 1, 8, 1, 16),
    ]:
        coded = drawn_to_write(draws, count, 16450)
        if name == "small":
            coded[:3] = [GREATEST[0], 0, -66]
        if name == "full":
            coded[15] = 0
        data = encoded(tx, kind, chroma, inter, first, depth, coded)
        rows[name] = struct("Row", at=token_kind(tx, kind, chroma, inter, depth), first=first, coded=f"&{coded}", bytes=f"&{data}")
    return [item("static", "ROWS", "Row", [rows[name] for name in ("small", "full", "chroma", "large")])]


def plane(writer, chroma, side, levels):
    """Transform blocks of 4x4 of a plane, which have a level at their first place or none."""
    above, left = [0] * side, [0] * side
    for k, level in enumerate(levels):
        y, x = divmod(k, side)
        encode_block(writer, 0, "default", chroma, 0, above[x] + left[y], 8, [level] if level else [])
        above[x] = left[y] = int(level != 0)


def residue_bytes(*planes):
    writer = Writer()
    for chroma, side, levels in planes:
        plane(writer, chroma, side, levels)
    return listed(writer.bytes())


def residue_writings():
    """An intra block of 8x8, and one whose second level breaks a rule, where the first two are written."""
    whole = residue_bytes((0, 2, [17, 0, -70, 1]), (1, 1, [0]), (1, 1, [-2]))
    broken = residue_bytes((0, 2, [17, 16450]))
    return [Value("levels_of_a_block", "let bytes = ", ";", whole),
            Value("levels_of_a_block", "rt.alloc(), ", ", Ok", "[17, 0, -70, 1]"),
            Value("level_that_breaks_a_rule", "let bytes = ", ";", broken),
            Value("level_that_breaks_a_rule", "rt.alloc(), ", ", broken", "[17, 16450, 0, 0]")]
