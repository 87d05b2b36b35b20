"""Prediction: blocks and planes of `intra_predict`, places of `inter_places` and blocks of `inter_predict`."""
import random

from vp9model.blocks import SIZES
from vp9model.draws import Draws, digest
from vp9model.prediction import INTRA_MODES, inter_predicted, intra_predicted, place_in, put_intra

from .items import DEPTHS, flag, item, listed, struct, tx_name

SIDES = [4, 8, 16, 32]
ROWS, COLUMNS = 80, 96


# ---- intra


def drawn_sample(draws, most, extreme):
    state = draws.next()
    if extreme:
        return most if state >= 2**31 else 0
    return (state >> 16) % (most + 1)


def drawn_block(mode, s, depth, seed, extreme, has_above, has_left):
    draws = Draws(seed)
    most = (1 << depth) - 1
    above = [drawn_sample(draws, most, extreme) for _ in range(64)]
    left = [drawn_sample(draws, most, extreme) for _ in range(32)]
    corner = drawn_sample(draws, most, extreme)
    return intra_predicted(mode, s, depth, dict(enumerate(above)) | {-1: corner}, left, has_above, has_left)


def intra_cases():
    for mode in INTRA_MODES:
        for s in SIDES:
            for depth, extreme in ((8, False), (12, True)):
                yield mode, s, depth, len(mode) + s + depth, extreme, True, True
    for depth in DEPTHS:
        for s in SIDES:
            for there in ((True, False), (False, True), (False, False)):
                yield "Dc", s, depth, s + 3, False, *there


def summed(name, rows):
    return item("pub static", name, "Summed", [
        struct("Summed", mode=f"IntraMode::{mode}", size=f"TxSize::{tx_name(s)}", depth=DEPTHS[depth], seed=seed, extreme=flag(extreme),
               has_above=flag(has_above), has_left=flag(has_left),
               sum=digest(drawn_block(mode, s, depth, seed, extreme, has_above, has_left), 2**64))
        for mode, s, depth, seed, extreme, has_above, has_left in rows])


def steps(width, height):
    """Blocks of all modes and sizes at places of a plane, also over its edges; and the seed of their residue, or 0."""
    choose = random.Random(5)
    for k in range(60):
        s = SIDES[k % 4]
        row = choose.randrange(height // 4) * 4
        column = choose.randrange(width // 4) * 4
        tile_from = 0 if column < 16 or k % 3 else 16
        block_end = column + s * choose.choice([1, 2])
        yield (row, column, tile_from, block_end), s, INTRA_MODES[k % 10], k * 7 + 1 if k % 3 == 0 else 0


def plane_steps():
    width, height, depth = 40, 24, 10
    draws, rows = Draws(7), []
    plane = [drawn_sample(draws, (1 << depth) - 1, False) for _ in range(width * height)]
    for place, s, mode, seed in steps(width, height):
        of_residue = Draws(seed)
        residue = [of_residue.below(1024) - 512 for _ in range(s * s)] if seed else None
        put_intra(plane, width, height, depth, place, s, mode, residue)
        named = dict(zip(("row", "column", "tile_from", "block_end"), place))
        rows.append(struct("Step", **named, size=f"TxSize::{tx_name(s)}", mode=f"IntraMode::{mode}", seed=seed, sum=digest(plane, 2**64)))
    return rows


def intra_rows():
    whole = [struct("Whole", mode=f"IntraMode::{mode}", samples=listed(drawn_block(mode, 4, 8, 9, False, True, True)))
             for mode in INTRA_MODES]
    return [item("pub static", "WHOLE", "Whole", whole), item("pub static", "STEPS", "Step", plane_steps())]


def intra_extreme():
    return [summed("EXTREME", [row for row in intra_cases() if row[4]])]


def intra_drawn():
    return [summed("DRAWN", [row for row in intra_cases() if not row[4]])]


# ---- inter


def drawn_vectors(seed, most):
    draws = Draws(seed)
    return [[[draws.below(2 * most + 1) - most for _ in range(2)] for _ in range(2)] for _ in range(4)]


def place_rows():
    """Shape, reference, block, seed and size of the vectors, plane, number, list."""
    yield (352, 288, 1, 1), (352, 288), (4, 5, 6), 1, 50, 0, 0, 0
    yield (352, 288, 1, 1), (352, 288), (35, 43, 12), 2, 16000, 0, 0, 1
    yield (352, 288, 1, 1), (352, 288), (0, 0, 12), 3, 16000, 1, 0, 0
    yield (350, 285, 1, 1), (350, 285), (33, 40, 12), 4, 700, 1, 0, 0
    yield (350, 285, 1, 1), (350, 285), (35, 43, 3), 5, 9000, 1, 0, 1
    for ss_x in (0, 1):
        for ss_y in (0, 1):
            for number in range(4 >> ss_x >> ss_y):
                yield (130, 98, ss_x, ss_y), (130, 98), (7, 9, ss_x + ss_y), 6 + number, 9, 1, number, number % 2
                yield (130, 98, ss_x, ss_y), (130, 98), (12, 16, 0), 16 + number, 3, 1, number, 0
            yield (130, 98, ss_x, ss_y), (130, 98), (7, 9, 1 - ss_x), 26, 9, 0, 3, ss_y
    for size in range(3, 12):
        yield (200, 180, size % 2, size // 2 % 2), (200, 180), (8, 16, size), 40 + size, 3000, 1, 0, 1
    for number, (w, h, rw, rh) in enumerate([(352, 288, 704, 576), (704, 576, 44, 36), (500, 300, 300, 500), (640, 400, 1280, 25), (100, 100, 99, 101),
                                             (65536, 65536, 65536, 65536), (65535, 9, 4096, 18), (16, 16, 1, 1)]):
        for plane in (0, 1):
            row, col = ((h + 7) // 8 - 1) // 2, ((w + 7) // 8 - 1) * 2 // 3
            yield (w, h, 1, 1), (rw, rh), (row, col, 9), 60 + number, 5000, plane, 0, 0
            yield (w, h, 0, 1), (rw, rh), (row, col, 0), 80 + number, 300, plane, 1, 1
            yield (w, h, 1, 0), (rw, rh), (row, col, 2), 90 + number, 16000, plane, 1, 0


def places():
    rows = []
    for shape, reference, block, seed, most, plane, number, vector_list in place_rows():
        down, across = place_in(shape, reference, block, drawn_vectors(seed, most), plane, number, vector_list)
        rows.append(f"(({shape[0]}, {shape[1]}, {flag(shape[2])}, {flag(shape[3])}), {reference}, {block}, ({seed}, {most}), "
                    f"({flag(plane)}, {number}, {vector_list}), {down}, {across})")
    return [item("pub static", "PLACES", "PlaceRow", rows)]


def drawn_plane(depth):
    draws = Draws(depth)
    return [[draws.below(1 << depth) for _ in range(COLUMNS)] for _ in range(ROWS)]


def block_cases(depth):
    """Kind, rows, columns, down, across."""
    w, h = COLUMNS, ROWS
    if depth == 8:
        for kind in range(4):
            for phase in range(16):
                yield kind, 4, 8, (16 * 20 + 3 * phase % 16, 16, h), (16 * 30 + phase, 16, w)
        for number, (columns, rows) in enumerate(SIZES):
            yield number % 3, rows, columns, (16 * (2 + number) + 7, 16, h), (16 * (5 - number) + number, 16, w)
            yield number % 3, rows, columns, (16 * (2 + number), 16, h), (16 * 9 + number % 2 * 5, 16, w)
            yield number % 3, rows, columns, (16 * (2 + number) + number % 2 * 9, 16, h), (16 * 16, 16, w)
        for columns in (12, 20, 24, 28, 36, 52):
            yield 0, 12, columns, (16 * 10 + 4, 16, h), (16 * 4 + 12, 16, w)
        for far in (-20000, -1100, -77, -64, -17, 1500, 1535, 1536, 1700, 30000):
            yield 2, 8, 16, (far, 16, h), (16 * 20 + 1, 16, w)
            yield 2, 8, 16, (16 * 20 + 1, 16, h), (far, 16, w)
            yield 1, 8, 8, (far - far % 16, 16, h), (far - far % 16, 16, w)
        for odd in (1, 2, 3, 5, 7, 9, 23, 41, 79):
            yield 0, 16, 16, (16 * (odd - 9) + 5, 16, min(odd, h)), (16 * (odd - 12) + 3, 16, odd)
    for step in range(1, 33):
        if depth == 8 or step % 5 == 1:
            yield step % 4, 8, 16, (16 * 3 + step, step, h), (16 * 4 + 15 - step % 16, 33 - step, w)
    yield 0, 64, 64, (-40, 32, 77), (-91, 32, 93)
    yield 1, 64, 64, (16 * 12 + 9, 10, h), (16 * 3, 27, w - 3)
    yield 2, 4, 4, (16 * 8 + 8, 26, h), (16 * 3, 16, w)
    if depth > 8:
        for kind in range(4):
            for phase in (1, 8, 15):
                yield kind, 8, 16, (16 * 20 + phase, 16, h), (16 * 30 + 16 - phase, 16, w)
            yield kind, 16, 4, (16 * 20, 16, h), (16 * 30 + kind, 16, w)


def inter_blocks():
    items = []
    for depth in DEPTHS:
        plane = drawn_plane(depth)
        rows = [(kind, height, width, down, across, digest(inter_predicted(plane, depth, kind, down, across, height, width), 2**32))
                for kind, height, width, down, across in block_cases(depth)]
        items.append(item("pub static", f"DEPTH_{depth}", "BlockRow", rows))
    return items
