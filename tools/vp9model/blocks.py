"""Sizes of blocks, the places of 8x8 that they cover, grids of transform blocks, and vector candidates of 6.4.22 to 6.4.24."""
from .tables import rows, table

SIZES = [tuple(size) for size in rows("block_sizes", 2)]
# the greatest transform by the smaller side
GREATEST_TX = {4: 0, 8: 1, 16: 2, 32: 3, 64: 3}


def size_of(width, height):
    return SIZES.index((width, height))


def places_of(size):
    """How many places of 8x8 a block has across and down."""
    return tuple(max(1, side // 8) for side in SIZES[size])


def is_small(size):
    return min(SIZES[size]) < 8


def transform_starts(mi_rows, mi_cols, row, col, size, tx, ss_x, ss_y):
    """How many rows and columns of transform blocks start inside the frame, by the loops of residual() (6.4.21)."""
    width, height = (max(8, n) for n in SIZES[size])
    step = 1 << tx
    found = []
    for y in range(0, (height >> ss_y) // 4, step):
        for x in range(0, (width >> ss_x) // 4, step):
            if ((col * 8) >> ss_x) + 4 * x < (mi_cols * 8) >> ss_x and ((row * 8) >> ss_y) + 4 * y < (mi_rows * 8) >> ss_y:
                found.append((y, x))
    starting_rows = sorted({y for y, _ in found})
    columns = sorted({x for _, x in found})
    assert found == [(y, x) for y in starting_rows for x in columns]
    return len(starting_rows), len(columns)


class Places:
    """The places of a tile, by row and column; a later block covers an earlier one."""

    def __init__(self, row_count, column_count, first, end):
        self.rows, self.cols, self.first, self.end = row_count, column_count, first, end
        self.blocks = {}

    def new(self):
        return Places(self.rows, self.cols, self.first, self.end)

    def covered(self, row, col, size, end=None):
        width, height = places_of(size)
        last = self.end if end is None else end
        return [(r, c) for r in range(row, min(self.rows, row + height)) for c in range(col, min(last, col + width))]

    def put(self, block):
        for place in self.covered(block["row"], block["col"], block["size"]):
            self.blocks[place] = block

    def get(self, row, col):
        return self.blocks.get((row, col))

    def above(self, row, col):
        return self.get(row - 1, col) if row else None

    def left(self, row, col):
        return self.get(row, col - 1) if col > self.first else None

    def neighbour(self, site, k):
        down, across = OFFSETS[8 * site["size"] + k]
        row, col = site["row"] + down, site["col"] + across
        return self.get(row, col) if 0 <= row < self.rows and self.first <= col < self.end else None

    def mode_context(self, site):
        total = 0
        for k in range(2):
            b = self.neighbour(site, k)
            total += COUNTERS[10 + b["modes"][3] if b["inter"] else 0] if b else 0
        return CONTEXTS[total]

    def candidates(self, site, reference, sub, before, biases):
        """Two vectors, from a list of all candidates."""
        listed = []
        for k in range(8):
            b = self.neighbour(site, k)
            quarter = 3
            if b and k < 2 and sub is not None and is_small(b["size"]):
                quarter = QUARTERS[2 * sub + (OFFSETS[8 * site["size"] + k][1] == 0)]
            listed += of_reference(b, reference, quarter)
        old = before.get(site["row"], site["col"]) if before else None
        listed += of_reference(old, reference, 3)
        for k in range(8):
            listed += of_others(self.neighbour(site, k), reference, biases)
        listed += of_others(old, reference, biases)
        two = list(dict.fromkeys(listed))[:2]
        two += [(0, 0)] * (2 - len(two))
        width, height = places_of(site["size"])
        return [(clip(v[0], site["row"], height, self.rows), clip(v[1], site["col"], width, self.cols)) for v in two]


OFFSETS = rows("mv_ref_offsets", 2)
QUARTERS = table("idx_n_column_to_subblock")
COUNTERS = table("mode_2_counter")
CONTEXTS = table("counter_to_context")


def of_reference(b, reference, quarter):
    if b and b["inter"] and reference in b["refs"]:
        return [b["vectors"][quarter][b["refs"].index(reference)]]
    return []


def of_others(b, reference, biases):
    found = []
    if b and b["inter"]:
        one, two = b["vectors"][3]
        for which, v in ((0, one), (1, two)):
            other = b["refs"][which]
            if other is None or other == reference or (which == 1 and one == two):
                continue
            found.append(v if biases[other] == biases[reference] else (-v[0], -v[1]))
    return found


def clip(x, at, side, end):
    low, high = -64 * at - 128, 64 * (end - at - side) + 128
    return low if x < low else high if x > high else x


def rounded(v, high):
    """A best or near vector: of an even length where it is long, or the frame has no high precision."""
    if high and abs(v[0]) < 64 and abs(v[1]) < 64:
        return v
    return tuple(x - 1 if x > 0 and x % 2 else x + 1 if x % 2 else x for x in v)


def of_quarter(sub, two, before):
    """The nearest and near vectors of a quarter, of its two candidates and the quarters before it."""
    if sub == 0:
        return two
    near, others = (before[0], two) if sub < 3 else (before[2], [before[1], before[0]] + two)
    return [near, next((v for v in others if v != near), (0, 0))]
