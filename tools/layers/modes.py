"""Modes: tiles and blocks that `mode_syntax`, `inter_modes` and `mv_syntax` read, and bytes that `mode_writer` and `vector_writer` write.
Blocks have no residue."""
from vp9model.bools import Reader, Writer
from vp9model.draws import Draws, LongDraws, ShortDraws, digest
from vp9model.modes import COUNTED, TREES, VECTOR_KINDS, Broken, InterModes, Tile, Vectors, intra_tile, probs
from vp9model.prediction import INTRA_MODES

from .blocks import Digest, drawn_places
from .items import BLOCK_SIZES, PARTITIONS, Value, array, flag, item, struct, tx_name

SEGMENTS = {"tree": [128, 100, 150, 60, 200, 90, 170], "skips": {5}}


# ---- tiles of intra frames


def drawn_bytes(seed, count):
    draws = LongDraws(seed)
    data = [draws.next() >> 33 & 255 for _ in range(count)]
    return [data[0] & 127] + data[1:]


def dc_blocks(data, *shape):
    """The blocks of a tile of bools 0."""
    blocks = intra_tile(data, *shape).read()
    assert not any(any(block[3:]) for block in blocks)
    return "[" + ", ".join(f"dc_block({row}, {col}, BlockSize::{BLOCK_SIZES[size]})" for row, col, size, *_ in blocks) + "]"


def intra_tiles():
    parts = [Value("zeros", "let blocks = ", ";", dc_blocks([0] * 8, 9, 9, 0, 9, None, True)),
             Value("zeros", "summary_of(&blocks) ... summary_of(&", "))", dc_blocks([0] * 2, 1, 1, 0, 1, None, False))]
    for seed, (name, *shape) in enumerate((("VARIED", 9, 9, 0, 9, None, True), ("SEGMENTS", 13, 6, 0, 6, SEGMENTS, True),
                                           ("SECOND_TILE", 7, 19, 8, 19, SEGMENTS, False)), 1):
        data = drawn_bytes(seed, 400)
        blocks = intra_tile(data, *shape).read()
        total = digest((field for block in blocks for field in block), 2**64)
        parts += [item("static", name, "u8", data), Value("varied", f"&{name} ... read, ", ");", f"({len(blocks)}, {total})")]
    return parts


class Drawing(Writer):
    """Draws a bool where a reader asks for one, and puts it."""

    def __init__(self, seed):
        self.draws = None
        super().__init__()
        self.draws = ShortDraws(seed)

    def bool(self, p, one=None):
        if one is None:
            one = int(self.draws.next() // 2**20 % 256 >= (p + 128) // 2)
        super().bool(p, one)
        return one


class Told(Tile):
    """Notes each square before what it holds."""

    def __init__(self, *arguments):
        super().__init__(*arguments)
        self.steps = []

    def partition(self, r, c, side):
        found = super().partition(r, c, side)
        self.steps.append(f"square(&rt, t, {side.bit_length() - 1}, {r}, {c}, {PARTITIONS[found[0]]})?;")
        return found

    def block(self, r, c, w, h):
        super().block(r, c, w, h)
        _, _, size, skip, segment, tx, *luma, chroma = self.blocks[-1]
        modes = array(INTRA_MODES[mode] for mode in luma)
        place, said = f"({r}, {c}, {BLOCK_SIZES[size]})", f"({flag(skip)}, {segment}, {tx_name(4 << tx)})"
        self.steps.append(f"block(&rt, t, {place}, {said}, {modes}, {INTRA_MODES[chroma]})?;")


def drawn_tile(seed, row_count, cols, tile_from, segments):
    """What a tile says, and its bytes."""
    tile = Told(Drawing(seed), row_count, cols, tile_from, cols, segments, segments is not None)
    tile.read()
    return "\n    ".join(tile.steps), str(list(tile.d.bytes()))


def mode_writings():
    (second, second_bytes), (edges, edges_bytes) = drawn_tile(1270, 4, 8, 4, SEGMENTS), drawn_tile(3, 3, 2, 0, None)
    return [Value("second_tile", "let t = &mut tile;", "let bytes", f"\n    {second}\n    "),
            Value("second_tile", "let bytes = ", ";", second_bytes),
            Value("edges", "let t = &mut tile;", "assert!", f"\n    {edges}\n    "),
            Value("edges", "ends_as(&tile, &", ")?", edges_bytes)]


# ---- blocks of inter frames


def drawn_with_ones(draws, ones):
    data = [draws.below(256) | ones for _ in range(3000)]
    return [data[0] & 127] + data[1:]


SEG = {"tree": [128, 100, 150, 60, 200, 90, 170], "prediction": [100, 140, 200],
       "features": {2: {"reference": 2}, 3: {"skip": True}, 4: {"reference": 0}, 5: {"reference": 3}}}


def inter_case(seed, biases, mode, segments=None, high=True, filter=None, tx=None, before=True, bad=(), ones=0):
    return {"seed": seed, "biases": biases, "high": high, "filter": filter, "tx": tx, "reference_mode": mode, "before": before, "bad": bad,
            "ones": ones, "segments": segments and SEG | {"update": "update" in segments, "temporal": "temporal" in segments}}


# by what stands before the numbers in the test
CASES = {
    "compound_and_single": [("read, ", inter_case(11, (0, 0, 1), "selected"))],
    "temporal_segments": [
        ("read, ", inter_case(12, (0, 0, 0), "single", ["update", "temporal"], high=False, filter=1, tx=2, before=False)),
    ],
    "segments_of_the_map_before": [("read, ", inter_case(13, (1, 0, 0), "compound", ["kept"]))],
    "coded_segments": [("read, ", inter_case(14, (0, 1, 0), "selected", ["update"], tx=0))],
    "rules": [
        ("scale, ", inter_case(15, (0, 0, 1), "selected", bad=(1,))),
        ("range, ", inter_case(24, (0, 0, 0), "single", filter=0, ones=254)),
    ],
}
RULES = {0: "None", 20: "Some(Rule::BlockScale)", 21: "Some(Rule::MvRange)"}


def drawn_ids(draws, places):
    """A segment map."""
    ids = {}
    for _ in range(20):
        row, col, size, number = draws.below(places.rows), draws.below(places.cols), draws.below(13), draws.below(8)
        ids |= dict.fromkeys(places.covered(row, col, size, places.cols), number)
    return ids


def digest_of_block(found, b):
    found.add(b["row"], b["col"], b["size"], b["segment"], b["predicted"], b["skip"], b["tx"])
    if not b["inter"]:
        found.add(*b["luma"], b["chroma"])
        return
    found.add(*b["modes"], b["refs"][0], 3 if b["refs"][1] is None else b["refs"][1], b["filter"])
    for quarter in b["vectors"]:
        for v in quarter:
            found.add(*v)


def read_blocks(case):
    """How many blocks of sixty are read, the rule that ends them or 0, and digests of the blocks and of the counts."""
    draws, blocks, counts = Draws(case["seed"]), Digest(), Digest()
    before = drawn_places(draws, 12)
    places = before.new()
    ids = drawn_ids(draws, places)
    reader = Reader(drawn_with_ones(draws, case["ones"]))
    modes = InterModes(case, reader, places, before if case["before"] else None, ids)
    count, rule = 0, 0
    for _ in range(60):
        r, c, size = draws.below(places.rows), places.first + draws.below(places.end - places.first), draws.below(13)
        try:
            b = modes.block(r, c, size)
        except Broken as broken:
            rule = broken.args[0]
            break
        count += 1
        digest_of_block(blocks, b)
        places.put(b)
    counts.add(*modes.counted(COUNTED))
    return f"({count}, {RULES[rule]}, {blocks.total}, {counts.total})"


def inter_blocks():
    return [Value(name, before, ");", read_blocks(case)) for name, of_test in CASES.items() for before, case in of_test]


def new_vectors(seed, ones, high):
    """Forty new vectors, by best ones that are short and long in turn."""
    vectors, found, counts = Vectors(Reader(drawn_with_ones(Draws(seed), ones)), high), Digest(), Digest()
    for i in range(40):
        try:
            found.add(*vectors.new((3, -5) if i % 2 else (-900, 16000)))
        except Broken as broken:
            found.add(broken.args[0])
    counts.add(*vectors.counted(VECTOR_KINDS))
    return f"({found.total}, {counts.total})"


def vectors():
    return [Value("new_vectors", f"read(rt.alloc(), {seed}, {ones}, {flag(high)})?, ", ");", new_vectors(seed, ones, high))
            for seed, ones, high in ((31, 0, True), (32, 240, False))]


# ---- bytes of vectors


def put_component(writer, c, precise, value):
    writer.bool(probs("mv_sign")[c], int(value < 0))
    offset = abs(value) - 1
    n = max(0, (offset // 8).bit_length() - 1)
    writer.tree(TREES["mv_class"], probs("mv_class")[10 * c:], n)
    offset -= 2 ** (n + 3) if n else 0
    whole, fraction, high = offset // 8, offset // 2 % 4, offset % 2
    assert precise or high
    if n == 0:
        writer.bool(probs("mv_class0")[c], whole)
        writer.tree(TREES["mv_fr"], probs("mv_class0_fr")[6 * c + 3 * whole:], fraction)
    else:
        for i in range(n):
            writer.bool(probs("mv_bits")[10 * c + i], whole >> i & 1)
        writer.tree(TREES["mv_fr"], probs("mv_fr")[3 * c:], fraction)
    if precise:
        writer.bool(probs("mv_hp" if n else "mv_class0_hp")[c], high)


def put_difference(writer, precise, row, column):
    writer.tree(TREES["mv_joint"], probs("mv_joint"), 2 * (row != 0) + (column != 0))
    for c, value in enumerate((row, column)):
        if value:
            put_component(writer, c, precise, value)


def drawn_differences():
    draws = ShortDraws(11)

    def size():
        sizes = [0, 1 + draws.below(8), 1 + draws.below(16), 17 + draws.below(100), 1 + draws.below(2000), 1 + draws.below(16384)]
        return sizes[draws.below(6)] * [-1, 1][draws.below(2)]

    found = [(1, 0, 0), (1, -1, 16384), (0, 16384, -2), (1, 16, -17), (0, 32, 34), (1, 8191, -8193)]
    for i in range(14):
        found.append((i % 2, *[v if i % 2 else 2 * (v // 2) for v in (size(), size())]))
    return found


def quarters_bytes(first, last):
    """A block of 4x4 quarters: its best vectors are 0, so that differences have bits of high precision. The filter is sharp, by the
    context 1; modes by the context 2, of no counters: new, nearest, near, new."""
    writer = Writer()
    writer.tree(TREES["filter"], probs("filter")[2:], 2)
    for mode, new in [(3, first), (0, []), (1, []), (3, last)]:
        writer.tree(TREES["inter_mode"], probs("inter_mode")[6:], mode)
        for row, column in new:
            put_difference(writer, True, row, column)
    return writer.bytes()


def vector_writings():
    first, last = [(6, -20), (-4, 100)], [(300, 8), (2, -2)]
    differences, writer = drawn_differences(), Writer()
    for one in differences:
        put_difference(writer, *one)
    both = [item("const", name, "Mv", [struct("Mv", row=row, column=column) for row, column in pair])
            for name, pair in (("FIRST", first), ("LAST", last))]
    said = [f"({flag(precise)}, {row}, {column})" for precise, row, column in differences]
    return [item("static", "DIFFERENCES", "(bool, i16, i16)", said),
            item("static", "BYTES", "u8", writer.bytes()), *both, item("static", "QUARTERS", "u8", quarters_bytes(first, last))]
