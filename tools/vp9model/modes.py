"""Partitions and modes of the blocks of a tile (6.4.3 to 6.4.20), read from bools, with contexts by a map of places."""
from .blocks import GREATEST_TX, SIZES, is_small, of_quarter, rounded, size_of
from .bools import Reader, walked
from .tables import rows, table

KF_PARTITION, KF_Y_MODE, KF_UV_MODE = rows("kf_partition", 3), rows("kf_y_mode", 9), rows("kf_uv_mode", 9)
PARTITION = rows("prob_partition", 3)
SKIP = table("prob_skip")
TX = {1: table("prob_tx8"), 2: table("prob_tx16"), 3: table("prob_tx32")}
TX_KINDS = {1: "tx8", 2: "tx16", 3: "tx32"}
TREES = {name: table(f"tree_{name}") for name in ("intra_mode", "inter_mode", "filter", "segment", "mv_fr", "mv_joint", "mv_class")}
REF_CONTEXTS = table("ref_contexts")
DC, ZERO, NEW = 0, 2, 3
# how many nodes each kind has whose bools are counted
COUNTED = [("tx8", 2), ("tx16", 4), ("tx32", 6), ("skip", 3), ("mode", 21), ("filter", 8), ("inter", 4), ("compound", 5), ("single", 10),
           ("variable", 5), ("y", 36), ("uv", 90), ("joint", 3), ("sign", 2), ("class", 20), ("class0", 2), ("bit", 20),
           ("class0_fraction", 12), ("fraction", 6), ("class0_high", 2), ("high", 2)]
VECTOR_KINDS = COUNTED[12:]


class Broken(Exception):
    """A rule that a block breaks, by its number."""


class Tile:
    """A tile of an intra frame without residue. Places are 4x4: each holds its block's width, height, skip, transform and its
    own mode."""

    def __init__(self, bools, row_count, column_count, tile_from, tile_to, segments, selected):
        self.d = bools
        self.rows, self.cols, self.tile_from, self.tile_to = row_count, column_count, tile_from, tile_to
        self.segments, self.selected = segments, selected
        self.of_partition = KF_PARTITION
        self.map = {}
        self.partitions, self.blocks = [], []

    def above(self, y, x):
        return self.map.get((y - 1, x)) if y > 0 else None

    def left(self, y, x):
        return self.map.get((y, x - 1)) if x > 2 * self.tile_from else None

    def tree(self, name, probs):
        return walked(TREES[name], lambda node: self.d.bool(probs[node]))

    def skip(self, segment, sides):
        if self.segments and segment in self.segments["skips"]:
            return 1
        return self.d.bool(SKIP[sum(n["skip"] for n in sides if n)])

    def tx(self, greatest, sides):
        if not self.selected:
            return 0
        if greatest == 0:
            return greatest
        known = [greatest if n["skip"] else n["tx"] for n in sides if n] or [greatest]
        total = sum(known) if len(known) == 2 else 2 * known[0]
        context = int(total > greatest)
        tx = 0
        while tx < greatest and self.d.bool(TX[greatest][context * greatest + tx]):
            tx += 1
        return tx

    def luma(self, y, x, w, h):
        """The modes of the first 2x2 places of a block."""
        places = {}
        for dy in range(0, 2, min(h, 2)):
            for dx in range(0, 2, min(w, 2)):
                up = places.get((dy - 1, dx)) if dy else (self.above(y, x + dx) or {"mode": DC})["mode"]
                side = places.get((dy, dx - 1)) if dx else (self.left(y + dy, x) or {"mode": DC})["mode"]
                mode = self.tree("intra_mode", KF_Y_MODE[10 * up + side])
                for i in range(dy, dy + min(h, 2)):
                    for j in range(dx, dx + min(w, 2)):
                        places[i, j] = mode
        return places

    def block(self, r, c, w, h):
        """A block of w by h places of 4x4 at a row and column of 8x8 places."""
        y, x = 2 * r, 2 * c
        segment = self.tree("segment", self.segments["tree"]) if self.segments else 0
        sides = self.above(y, x), self.left(y, x)
        skip = self.skip(segment, sides)
        tx = self.tx(GREATEST_TX[4 * min(w, h)], sides)
        places = self.luma(y, x, w, h)
        chroma = self.tree("intra_mode", KF_UV_MODE[places[1, 1]])
        full_w, full_h = max(w, 2), max(h, 2)
        for i in range(full_h):
            for j in range(full_w):
                mode = places[i, j] if full_w == 2 and full_h == 2 else places[0, 0]
                self.map[y + i, x + j] = {"w": w, "h": h, "skip": skip, "tx": tx, "mode": mode}
        quarters = [places[i, j] for i in range(2) for j in range(2)]
        self.blocks.append([r, c, size_of(4 * w, 4 * h), skip, segment, tx] + quarters + [chroma])

    def partition(self, r, c, side):
        half = side // 2
        level = side.bit_length() - 1
        has_rows, has_cols = r + half < self.rows, c + half < self.cols
        above = any(n and n["w"] < 2 * side for n in (self.above(2 * r, 2 * c + k) for k in range(2 * side)))
        left = any(n and n["h"] < 2 * side for n in (self.left(2 * r + k, 2 * c) for k in range(2 * side)))
        probs = self.of_partition[4 * level + 2 * left + above]
        if has_rows and has_cols:
            kind = 0
            while kind < 3 and self.d.bool(probs[kind]):
                kind += 1
        elif has_cols:
            kind = 3 if self.d.bool(probs[1]) else 1
        elif has_rows:
            kind = 3 if self.d.bool(probs[2]) else 2
        else:
            kind = 3
        self.partitions.append(kind)
        return kind, has_rows, has_cols

    def square(self, r, c, side):
        """A square of so many 8x8 places."""
        if r >= self.rows or c >= self.cols:
            return
        half = side // 2
        kind, has_rows, has_cols = self.partition(r, c, side)
        full, part = 2 * side, side
        if kind == 0:
            self.block(r, c, full, full)
        elif kind == 1:
            self.block(r, c, full, part)
            if side > 1 and has_rows:
                self.block(r + half, c, full, part)
        elif kind == 2:
            self.block(r, c, part, full)
            if side > 1 and has_cols:
                self.block(r, c + half, part, full)
        elif side == 1:
            self.block(r, c, 1, 1)
        else:
            for y in (r, r + half):
                for x in (c, c + half):
                    self.square(y, x, half)

    def read(self):
        for r in range(0, self.rows, 8):
            for c in range(self.tile_from, self.tile_to, 8):
                self.square(r, c, 8)
        return self.blocks


def probs(name):
    return table("prob_" + name)


class Vectors:
    """New vectors: their differences, with the counts of bools by kind, node and value."""

    def __init__(self, bools, high):
        self.b, self.high, self.counts = bools, high, {}

    def count(self, kind, place, one):
        key = (kind, place, one)
        self.counts[key] = self.counts.get(key, 0) + 1

    def counted(self, kinds):
        """The counts of kinds, place by place."""
        return [self.counts.get((kind, place, one), 0) for kind, size in kinds for place in range(size) for one in (0, 1)]

    def flag(self, kind, place, p):
        one = self.b.bool(p)
        self.count(kind, place, one)
        return one

    def tree(self, tree, kind, first, numbers):
        return walked(TREES[tree], lambda node: self.flag(kind, first + node, numbers[first + node]))

    def component(self, n, high):
        sign = self.flag("sign", n, probs("mv_sign")[n])
        kind = self.tree("mv_class", "class", 10 * n, probs("mv_class"))
        if kind == 0:
            whole = self.flag("class0", n, probs("mv_class0")[n])
            part = self.tree("mv_fr", "class0_fraction", 6 * n + 3 * whole, probs("mv_class0_fr"))
            name, table_, least = "class0_high", probs("mv_class0_hp"), 0
        else:
            whole = sum(self.flag("bit", 10 * n + i, probs("mv_bits")[10 * n + i]) << i for i in range(kind))
            part = self.tree("mv_fr", "fraction", 3 * n, probs("mv_fr"))
            name, table_, least = "high", probs("mv_hp"), 2 << (kind + 2)
        if high:
            bit = self.flag(name, n, table_[n])
        else:
            bit = 1
            self.count(name, n, 1)
        size = least + (whole << 3 | part << 1 | bit) + 1
        return -size if sign else size

    def difference(self, high):
        joint = self.tree("mv_joint", "joint", 0, probs("mv_joint"))
        row = self.component(0, high) if joint in (2, 3) else 0
        column = self.component(1, high) if joint in (1, 3) else 0
        return row, column

    def new(self, best):
        high = self.high and abs(best[0]) < 64 and abs(best[1]) < 64
        row, column = self.difference(high)
        v = (best[0] + row, best[1] + column)
        if max(abs(v[0]), abs(v[1])) >= 16384:
            raise Broken(21)
        return v


class InterModes(Vectors):
    """The modes of blocks of an inter frame. The case says what its headers code; `before` has the blocks of the frame before,
    or is None, and `ids` the segments of the map before."""

    def __init__(self, case, bools, places, before=None, ids=None):
        super().__init__(bools, case["high"])
        self.case, self.places, self.before, self.ids = case, places, before, ids or {}

    def segment(self, r, c, size, sides):
        seg = self.case["segments"]
        if not seg:
            return 0, 0
        least = min(self.ids.get(place, 0) for place in self.places.covered(r, c, size, self.places.cols))
        if not seg["update"]:
            return least, 0
        if seg["temporal"] and self.b.bool(seg["prediction"][sum(n["predicted"] for n in sides if n)]):
            return least, 1
        return walked(TREES["segment"], lambda node: self.b.bool(seg["tree"][node])), 0

    def feature(self, name, segment):
        return self.case["segments"]["features"].get(segment, {}).get(name) if self.case["segments"] else None

    def kind(self, n):
        """What a neighbour is to the contexts of references."""
        if not n:
            return 0
        if not n["inter"]:
            return 1
        first, second = n["refs"]
        return 2 + first if second is None else 5 + (second if first == self.fixed() else first)

    def fixed(self):
        last, golden, altref = self.case["biases"]
        return 2 if last == golden else 1 if last == altref else 0

    def references(self, segment, sides):
        taken = self.feature("reference", segment)
        if taken is not None:
            return [taken - 1, None]
        fixed = self.fixed()
        ctx = [REF_CONTEXTS[64 * (3 * which + fixed) + 8 * self.kind(sides[0]) + self.kind(sides[1])] for which in range(4)]
        mode = self.case["reference_mode"]
        if mode == "selected":
            compound = self.flag("compound", ctx[0], probs("comp_flag")[ctx[0]])
        else:
            compound = mode == "compound"
        if compound:
            one = self.flag("variable", ctx[1], probs("comp_ref")[ctx[1]])
            other = [r for r in range(3) if r != fixed][one]
            return [other, fixed] if self.case["biases"][fixed] else [fixed, other]
        if not self.flag("single", 2 * ctx[2], probs("single_ref")[2 * ctx[2]]):
            return [0, None]
        return [1 + self.flag("single", 2 * ctx[3] + 1, probs("single_ref")[2 * ctx[3] + 1]), None]

    def candidates(self, site, reference, sub):
        return self.places.candidates(site, reference, sub, self.before, self.case["biases"])

    def vectors(self, site, refs, mode, sub, before):
        """The vectors of a block (no sub) or of a quarter."""
        out = []
        for i, reference in enumerate(refs):
            if reference is None:
                out.append((0, 0))
                continue
            near = [rounded(v, self.high) for v in self.candidates(site, reference, None)]
            if mode == NEW:
                out.append(self.new(near[0]))
                continue
            if sub is not None:
                near = of_quarter(sub, self.candidates(site, reference, sub), [q[i] if q else (0, 0) for q in before])
            out.append((0, 0) if mode == ZERO else near[mode])
        return out

    def mode(self, context):
        return self.tree("inter_mode", "mode", 3 * context, probs("inter_mode"))

    def filter(self, sides):
        if self.case["filter"] is not None:
            return self.case["filter"]
        known = {n["filter"] if n and n["inter"] else 3 for n in sides} - {3}
        ctx = known.pop() if len(known) == 1 else 3
        return self.tree("filter", "filter", 2 * ctx, probs("filter"))

    def inter(self, b, sides):
        b["refs"] = self.references(b["segment"], sides)
        if any(r is not None and r in self.case.get("bad", ()) for r in b["refs"]):
            raise Broken(20)
        w, h = SIZES[b["size"]]
        context = self.places.mode_context(b)
        mode = None
        if not is_small(b["size"]):
            mode = ZERO if self.feature("skip", b["segment"]) else self.mode(context)
        b["filter"] = self.filter(sides)
        if mode is not None:
            b["modes"] = [mode] * 4
            b["vectors"] = [self.vectors(b, b["refs"], mode, None, None)] * 4
            return
        modes, quarters = [None] * 4, [None] * 4
        for k in range(4):
            if (w == 8 and k % 2) or (h == 8 and k > 1):
                continue
            m = self.mode(context)
            row = self.vectors(b, b["refs"], m, k, quarters[:3])
            for j in {k, k + 1 if w == 8 else k, k + 2 if h == 8 else k}:
                modes[j], quarters[j] = m, row
        b["modes"], b["vectors"] = modes, quarters

    def intra(self, b):
        w, h = SIZES[b["size"]]
        small = is_small(b["size"])
        group = 0 if small else 1 if w * h <= 128 else 2 if w * h <= 512 else 3
        modes = [None] * 4
        for k in range(4):
            if not small:
                modes[k] = modes[0] if k else self.tree("intra_mode", "y", 9 * group, probs("y_mode"))
            elif not ((w == 8 and k % 2) or (h == 8 and k > 1)):
                m = self.tree("intra_mode", "y", 0, probs("y_mode"))
                for j in {k, k + 1 if w == 8 else k, k + 2 if h == 8 else k}:
                    modes[j] = m
        b["luma"] = modes
        b["chroma"] = self.tree("intra_mode", "uv", 9 * modes[3], probs("uv_mode"))

    def skip(self, segment, sides):
        if self.feature("skip", segment):
            return 1
        ctx = sum(n["skip"] for n in sides if n)
        return self.flag("skip", ctx, SKIP[ctx])

    def is_inter(self, segment, sides):
        taken = self.feature("reference", segment)
        if taken is not None:
            return taken > 0
        there = [not n["inter"] for n in sides if n]
        ctx = (3 if all(there) else int(any(there))) if len(there) == 2 else 2 * sum(there)
        return bool(self.flag("inter", ctx, probs("is_inter")[ctx]))

    def tx(self, b, sides):
        greatest = GREATEST_TX[min(SIZES[b["size"]])]
        if self.case["tx"] is not None or greatest == 0 or (b["skip"] and b["inter"]):
            return min(greatest, 3 if self.case["tx"] is None else self.case["tx"])
        known = [greatest if n["skip"] else n["tx"] for n in sides if n] or [greatest]
        ctx = int(sum(known) * (2 if len(known) == 1 else 1) > greatest)
        tx = 0
        while tx < greatest and self.flag(TX_KINDS[greatest], ctx * greatest + tx, TX[greatest][ctx * greatest + tx]):
            tx += 1
        return tx

    def block(self, r, c, size):
        sides = self.places.above(r, c), self.places.left(r, c)
        b = {"row": r, "col": c, "size": size}
        b["segment"], b["predicted"] = self.segment(r, c, size, sides)
        b["skip"] = self.skip(b["segment"], sides)
        b["inter"] = self.is_inter(b["segment"], sides)
        b["tx"] = self.tx(b, sides)
        if b["inter"]:
            self.inter(b, sides)
        else:
            self.intra(b)
        return b


def intra_tile(data, *shape):
    return Tile(Reader(data), *shape)
