"""The loop filter: pictures of drawn blocks and samples, and the checksums of their planes once `loop_filter` has filtered them. Samples
are drawn by the same formula as in the test."""
from vp9model.blocks import GREATEST_TX, size_of
from vp9model.draws import Draws, digest
from vp9model.filter import filtered

from .items import Item, flag, item, listed, struct

SPREADS = [1, 2, 3, 5, 9, 30, 120, 2]


class Partitions:
    """Leaves of the partition trees of drawn superblocks, as (row, col, size, skip, segment, tx, kind, mode): kind 0 is intra, 1 to 3 are
    the references; mode 0 is the zero vector. Blocks that start outside of the frame are left out."""

    def __init__(self, case):
        self.draws, self.blocks = Draws(case["seed"]), []
        self.rows, self.cols = (case["h"] + 7) // 8, (case["w"] + 7) // 8
        for r in range(0, self.rows, 8):
            for c in range(0, self.cols, 8):
                self.square(r, c, 64)

    def leaf(self, r, c, w, h):
        if r >= self.rows or c >= self.cols:
            return
        draws = self.draws
        tx = min(GREATEST_TX[min(w, h)], draws.below(5))
        kind = max(0, draws.below(6) - 2)
        mode = draws.below(2)
        skip = draws.below(3) > 0
        self.blocks.append((r, c, size_of(w, h), int(skip), draws.below(8), tx, kind, mode))

    def square(self, r, c, side):
        if r >= self.rows or c >= self.cols:
            return
        half = side // 16
        how = self.draws.below(6)
        if side == 8:
            self.leaf(r, c, *[(4, 4), (8, 4), (4, 8), (8, 8)][min(how, 3)])
        elif how == 0 and side < 64:
            self.leaf(r, c, side, side)
        elif how == 1:
            self.leaf(r, c, side, side // 2)
            self.leaf(r + half, c, side, side // 2)
        elif how == 2:
            self.leaf(r, c, side // 2, side)
            self.leaf(r, c + half, side // 2, side)
        else:
            for y, x in ((r, c), (r, c + half), (r + half, c), (r + half, c + half)):
                self.square(y, x, side // 2)


def drawn_plane(case, plane, width, height):
    draws = Draws(case["seed"] + plane + 1)
    one = 1 << (case["depth"] - 8)
    samples = []
    for y in range(height):
        row = []
        for x in range(width):
            spread = SPREADS[(y // 16 + 3 * (x // 16)) % 8] * one
            row.append(100 * one + (x // 8 * 5 + y // 8 * 3) % 11 * one // 2 + draws.below(spread))
        samples.append(row)
    return samples


NONE = (0, [None] * 8)
CASES = [
    dict(w=136, h=72, depth=8, ss_x=1, ss_y=1, level=32, sharpness=0, deltas=0, segments=0, features=NONE),
    dict(w=130, h=132, depth=8, ss_x=1, ss_y=1, level=63, sharpness=3, deltas=1, segments=0, features=NONE),
    dict(w=72, h=65, depth=10, ss_x=1, ss_y=1, level=31, sharpness=7, deltas=1, segments=1, features=(0, [None, -20, 10, 40, -40, None, 5, -31])),
    dict(w=129, h=71, depth=12, ss_x=1, ss_y=0, level=40, sharpness=0, deltas=1, segments=1, features=(1, [None, 20, 63, 0, -10, 31, 33, 5])),
    dict(w=66, h=130, depth=8, ss_x=0, ss_y=1, level=25, sharpness=5, deltas=0, segments=1, features=(0, [None, 30, -5, 63, -63, 12, 3, None])),
    dict(w=90, h=77, depth=10, ss_x=0, ss_y=0, level=48, sharpness=0, deltas=1, segments=0, features=NONE),
    dict(w=64, h=64, depth=8, ss_x=1, ss_y=1, level=1, sharpness=0, deltas=0, segments=0, features=NONE),
    dict(w=72, h=72, depth=8, ss_x=1, ss_y=1, level=0, sharpness=0, deltas=1, segments=1, features=(1, [40] * 8)),
    dict(w=9, h=200, depth=8, ss_x=1, ss_y=1, level=50, sharpness=0, deltas=0, segments=0, features=NONE),
    dict(w=200, h=7, depth=12, ss_x=1, ss_y=1, level=60, sharpness=1, deltas=1, segments=0, features=NONE),
]
for number, case in enumerate(CASES):
    case["seed"] = 1000 * number + 17
    case["ref_deltas"] = [[1, 0, -1, -1], [5, -7, 30, -63]][number % 2]
    case["mode_deltas"] = [[0, 0], [-12, 9]][number % 2]


def planes_of(case):
    rows, cols = (case["h"] + 7) // 8, (case["w"] + 7) // 8
    sizes = [(8 * cols, 8 * rows)] + 2 * [((8 * cols) >> case["ss_x"], (8 * rows) >> case["ss_y"])]
    return [drawn_plane(case, plane, *size) for plane, size in enumerate(sizes)]


def checksum(samples):
    return digest((sample for row in samples for sample in row), 2**64)


def case_item(number, case, before, after):
    absolute, features = case["features"]
    flags = {name: flag(case[name]) for name in ("ss_x", "ss_y", "deltas", "segments")}
    value = struct(
        "Case", w=case["w"], h=case["h"], depth=case["depth"], ss_x=flags["ss_x"], ss_y=flags["ss_y"], level=case["level"],
        sharpness=case["sharpness"], deltas=flags["deltas"], segments=flags["segments"], absolute=flag(absolute),
        features=listed(100 if f is None else f for f in features), reference=case["ref_deltas"], mode=case["mode_deltas"],
        seed=case["seed"], drawn=listed(before), filtered=listed(after))
    return Item(f"CASE_{number}", f"pub const CASE_{number}: Case = {value};")


def pictures():
    items = []
    for number, case in enumerate(CASES):
        blocks, planes = Partitions(case).blocks, planes_of(case)
        before = [checksum(plane) for plane in planes]
        filtered(case, blocks, planes)
        after = [checksum(plane) for plane in planes]
        items += [item("pub const", f"BLOCKS_{number}", "[u8; 8]", map(list, blocks)), case_item(number, case, before, after)]
    return items
