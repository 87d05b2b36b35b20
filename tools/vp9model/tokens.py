"""Tokens of a transform block (6.4.24, 9.3), encoded and read."""
from .bools import walked, way
from .tables import table

PROBS = table("prob_coef")
PARETO = table("pareto")
BANDS = {0: table("coef_band_4x4"), 1: table("coef_band_large")}
SIDES = [4, 8, 16, 32]
SCANS = {
    (kind, side): table(f"scan_{kind}_{side}")
    for kind in ("default", "row", "column")
    for side in SIDES
    if side < 32 or kind == "default"
}
# the least level of each category, and the probabilities of its bits at depth 12
CATEGORIES = {
    number: (base, table("cat6_prob_high12" if number == 6 else f"cat{number}_prob"))
    for number, base in enumerate([5, 7, 11, 19, 35, 67], 1)
}
TAIL = table("tree_coef_tail")
WAYS = {token: way(TAIL, token) for token in range(2, 11)}
CLASSES = table("energy_class")
# the transforms of luma blocks of intra modes, and the scans of transforms: others have the default one
TYPES = ["DctDct", "AdstDct", "DctAdst", "DctDct", "AdstAdst", "AdstDct", "DctAdst", "DctAdst", "AdstDct", "AdstAdst"]
SCAN_KINDS = {"AdstDct": "row", "DctAdst": "column"}


def tail_prob(q, node):
    """The probability of a node of the tail, by that of the third node."""
    row = (q - 1) // 2
    if q % 2 == 1:
        return PARETO[8 * row + node]
    return (PARETO[8 * row + node] + PARETO[8 * row + 8 + node]) >> 1


def token_of(magnitude):
    if magnitude < 5:
        return magnitude
    return 4 + max(c for c in CATEGORIES if CATEGORIES[c][0] <= magnitude)


def bits_of(token, depth):
    """The least level of a category's token, and the probabilities of its bits."""
    base, probs = CATEGORIES[token - 4]
    return base, probs[12 - depth:] if token == 10 else probs


def neighbours(kind, side, position):
    row, column = divmod(position, side)
    above, left = position - side, position - 1
    if row == 0:
        return left, left
    if column == 0:
        return above, above
    return {"default": (above, left), "row": (left, left), "column": (above, above)}[kind]


class Contexts:
    """The three probabilities of each place of a block's scan, by the tokens before it."""

    def __init__(self, tx, kind, chroma, inter, first):
        self.side, self.kind, self.first = SIDES[tx], kind, first
        self.scan, self.bands = SCANS[kind, self.side], BANDS[min(tx, 1)]
        self.block, self.classes = 6 * (2 * (2 * tx + chroma) + inter), {}

    def probs(self, place):
        context = self.first
        if place > 0:
            a, b = neighbours(self.kind, self.side, self.scan[place])
            context = (1 + self.classes[a] + self.classes[b]) >> 1
        at = 3 * (6 * (self.block + self.bands[place]) + context)
        return PROBS[at : at + 3]

    def put(self, place, token):
        self.classes[self.scan[place]] = CLASSES[token]


def encode_level(writer, token, level, depth):
    """The bits of a category, and the sign."""
    if token > 4:
        base, probs = bits_of(token, depth)
        for i, p in enumerate(probs):
            writer.bool(p, (abs(level) - base) >> (len(probs) - 1 - i) & 1)
    writer.bool(128, int(level < 0))


def encode_block(writer, tx, kind, chroma, inter, first, depth, levels):
    """Encodes a block whose first places of the scan hold these levels; the end follows where places are left."""
    contexts, check = Contexts(tx, kind, chroma, inter, first), True
    for place in range(SIDES[tx] ** 2):
        more, some, large = contexts.probs(place)
        if check:
            writer.bool(more, int(place < len(levels)))
        if place == len(levels):
            break
        token = token_of(abs(levels[place]))
        contexts.put(place, token)
        check = token > 0
        writer.bool(some, int(token > 0))
        if token == 0:
            continue
        writer.bool(large, int(token > 1))
        for node, one in WAYS.get(token, []):
            writer.bool(tail_prob(large, node), one)
        encode_level(writer, token, levels[place], depth)


def read_level(reader, large, depth):
    """The level of a place that has one."""
    token = 1
    if reader.bool(large):
        token = walked(TAIL, lambda node: reader.bool(tail_prob(large, node)))
    size = token
    if token > 4:
        base, probs = bits_of(token, depth)
        more = 0
        for p in probs:
            more = 2 * more + reader.bool(p)
        size = base + more
    return token, -size if reader.bool(128) else size


def read_block(reader, tx, kind, chroma, inter, first, depth):
    """The levels of the places of the scan that are coded."""
    contexts, check, levels = Contexts(tx, kind, chroma, inter, first), True, []
    for place in range(SIDES[tx] ** 2):
        more, some, large = contexts.probs(place)
        if check and not reader.bool(more):
            break
        token, level = read_level(reader, large, depth) if reader.bool(some) else (0, 0)
        contexts.put(place, token)
        check = token > 0
        levels.append(level)
    return levels


def by_position(kind, side, levels):
    """Levels of the first places of a scan, by position."""
    scan = SCANS[kind, side]
    return {scan[place]: level for place, level in enumerate(levels) if level}
