"""Blocks: grids of transform blocks for `block_geometry`, and vector candidates for `mv_prediction`."""
from vp9model.blocks import Places, is_small, of_quarter, rounded, transform_starts
from vp9model.draws import Draws

from .items import BLOCK_SIZES, Value, flag, item, tx_name

# rows and columns of the frame, row and column, size, transform, subsampling
GRIDS = [
    (1, 1, 0, 0, 0, 0, 0, 0), (1, 1, 0, 0, 2, 0, 1, 1), (1, 1, 0, 0, 12, 3, 0, 0), (9, 9, 8, 8, 12, 0, 0, 0),
    (9, 9, 8, 8, 12, 2, 1, 1), (9, 9, 8, 8, 9, 1, 1, 0), (9, 9, 8, 8, 9, 1, 0, 1), (5, 7, 4, 4, 6, 1, 1, 0),
    (5, 7, 4, 6, 6, 0, 0, 1), (5, 7, 0, 4, 11, 3, 0, 0), (7, 3, 0, 0, 12, 2, 1, 0), (3, 7, 0, 0, 12, 1, 0, 1),
]
TILE = (20, 30, 8, 24)


def grids():
    rows = []
    for case in GRIDS:
        mi_rows, mi_cols, row, col, size, tx, ss_x, ss_y = case
        rows.append(f"(({mi_rows}, {mi_cols}), ({row}, {col}), BlockSize::{BLOCK_SIZES[size]}, TxSize::{tx_name(4 << tx)}, "
                    f"({flag(ss_x)}, {flag(ss_y)}), {transform_starts(*case)})")
    return [item("static", "ROWS", "Row", rows)]


def drawn_vector(draws):
    parts = []
    for _ in range(2):
        k = draws.below(3) - 1
        parts.append(k * (333 if draws.below(4) == 0 else 37))
    return tuple(parts)


def drawn_block(draws):
    rows, _, first, end = TILE
    b = {"row": draws.below(rows), "col": first + draws.below(end - first), "size": draws.below(13)}
    b["inter"] = draws.below(4) > 0
    if b["inter"]:
        one = draws.below(3)
        other = (one + 1 + draws.below(2)) % 3 if draws.below(2) == 1 else None
        b["refs"] = [one, other]
        b["modes"] = [draws.below(4) for _ in range(4)]
        b["vectors"] = [[drawn_vector(draws), drawn_vector(draws)] for _ in range(4)]
    return b


def drawn_places(draws, count):
    places = Places(*TILE)
    for _ in range(count):
        places.put(drawn_block(draws))
    return places


class Digest:
    def __init__(self):
        self.total = 0

    def add(self, *numbers):
        for x in numbers:
            self.total = (self.total * 31 + x + 65536) % 2**32


def candidates_digest(seed, uses_before):
    """Forty sites between which blocks are drawn, at each the candidates of all references."""
    draws, found = Draws(seed), Digest()
    before = drawn_places(draws, 12)
    before, places = before if uses_before else None, Places(*TILE)
    rows, _, first, end = TILE
    for _ in range(40):
        site = {"row": draws.below(rows), "col": first + draws.below(end - first), "size": draws.below(13)}
        biases = [draws.below(2) == 1 for _ in range(3)]
        high = draws.below(2) == 1
        found.add(places.mode_context(site))
        for reference in range(3):
            two = places.candidates(site, reference, None, before, biases)
            for v in two + [rounded(v, high) for v in two]:
                found.add(*v)
            if is_small(site["size"]):
                earlier = [drawn_vector(draws) for _ in range(3)]
                for sub in range(4):
                    two = places.candidates(site, reference, sub, before, biases)
                    for v in of_quarter(sub, two, earlier):
                        found.add(*v)
        places.put(drawn_block(draws))
    return found.total


def candidates():
    return [Value("drawn_blocks", f"digest_of(rt.alloc(), {seed}, {flag(before)})?, ", ");", str(candidates_digest(seed, before)))
            for seed, before in ((1, True), (2, False), (3, True))]
