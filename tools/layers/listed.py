"""What the tiles of worked rows say, block by block, and the bytes that a writer makes of that, for the tests of `listed_frames`.

Tiles are read by section 6.4 of the standard. Whether a level breaks rule 22 or 23, which ends its tile, is asked of the model of
residue. The bools of each tile are written again: its bytes are the least ones of a part of all numbers, and those of the row have to
be the fewest that lie in it, with the byte of 0 that is put behind some. So a row's tile is the writer's, rounded up to so many bytes.
A frame is written with the header of the row, but for the size of its compressed header, and with as many bytes of each part as its
bools take."""
from vp9model.blocks import Places, size_of
from vp9model.bools import Reader
from vp9model.headers import defaults, ended, frames_of, header, read
from vp9model.modes import PARTITION, ZERO, Broken, InterModes, Tile
from vp9model.prediction import INTRA_MODES
from vp9model.tables import table
from vp9model.tokens import SCAN_KINDS, TYPES, by_position, read_block
from vp9model.transforms import Refused, residue

from .items import PARTITIONS, Item, array, byte_string, flag, listed, struct, text
from .runs import worked_rows

NAMES = [
    "one key frame of 1x1",
    "one key frame of 8x8",
    "depth 10",
    "4:4:4",
    "depth 12 in 4:4:4",
    "vertical prediction at the corner",
    "horizontal prediction at the corner",
    "true motion at the corner",
    "lossless, DC level 4",
    "base 1, DC level 8",
    "base 255, DC level 24",
    "base 255, DC level 25: a coefficient does not fit",
    "base 255, levels 24 and 17: a stored value does not fit",
    "a vector of 16384",
    "reference 16 times smaller",
    "a vector out of range in both tiles",
    "a block names a reference out of range",
    "no block names the reference out of range",
]
LARGE = ["vectors past all edges of a scaled reference, flat 200"]
RULES = {"CoefRange": 22, "TransformRange": 23}
INTER = ["Nearest", "Near", "Zero", "New"]
FILTERS = ["Regular", "Smooth", "Sharp", "Bilinear"]
REFERENCES = ["Last", "Golden", "Altref"]
ORDINALS = ["FIRST", "SECOND", "THIRD", "FOURTH", "FIFTH", "SIXTH", "SEVENTH"]


class Modes(InterModes):
    """The modes of the blocks of an inter frame's tile, as they are coded."""

    def __init__(self, head, bools, places):
        far = [k for k, size in enumerate(head.reference_sizes) if not is_near(size, head.size)]
        case = {"biases": head.biases, "high": head.precise, "tx": 0, "reference_mode": "single", "segments": None, "bad": far,
                "filter": None if head.switchable else [1, 0, 2, 3][head.filter_code]}
        super().__init__(case, bools, places)

    def mode(self, context):
        self.said.append([super().mode(context), (0, 0)])
        return self.said[-1][0]

    def difference(self, high):
        self.said[-1][1] = super().difference(high)
        return self.said[-1][1]

    def inter(self, b, sides):
        self.now, self.said = b, []
        super().inter(b, sides)

    def intra(self, b):
        self.now = b
        super().intra(b)

    def told(self, width, height):
        """What the block says. Where a rule breaks inside of it, the rest is filled with zeros."""
        b = self.now
        if not b["inter"]:
            return {"skip": b["skip"], "luma": b["luma"], "chroma": b["chroma"]}
        places = [(k % 2 if width == 1 else 0) + (k // 2 * (3 - width) if height == 1 else 0) for k in range(4)]
        said = [self.said[place] if place < len(self.said) else [ZERO, (0, 0)] for place in places]
        return {"skip": b["skip"], "reference": b["refs"][0], "filter": b.get("filter", self.case["filter"]),
                "modes": [mode for mode, _ in said], "differences": [difference for _, difference in said]}


def is_near(reference, size):
    return all(2 * now >= then and now <= 16 * then for now, then in zip(size, reference))


class ListedTile(Tile):
    """What a tile says: its partitions, its blocks with their levels, and the rule that ends it, or 0."""

    def __init__(self, data, head, colour, columns):
        cols, rows = ((side + 7) // 8 for side in head.size)
        super().__init__(Reader(data), rows, cols, *columns, None, False)
        self.head, self.depth, self.halved = head, colour[0], colour[1:]
        self.told, self.full, self.modes_of_inter = [], {}, None
        if head.kind == "Inter":
            self.of_partition = PARTITION
            self.modes_of_inter = Modes(head, self.d, Places(rows, cols, *columns))
        self.rule = 0
        try:
            self.read()
        except Broken as broken:
            self.rule = broken.args[0]

    def block(self, r, c, w, h):
        if self.modes_of_inter:
            b = self.inter_block(r, c, w, h)
        else:
            super().block(r, c, w, h)
            _, _, _, skip, _, _, *luma, chroma = self.blocks[-1]
            b = {"skip": skip}
            self.told.append({"skip": skip, "luma": luma, "chroma": chroma})
        self.told[-1]["levels"] = levels = [[], [], []]
        for plane in range(3):
            self.levels_of_plane(plane, r, c, max(w, 2), max(h, 2))
        if "modes" in b and min(w, h) > 1 and not any(map(any, levels)):
            b["skip"] = 1

    def inter_block(self, r, c, w, h):
        modes = self.modes_of_inter
        try:
            b = modes.block(r, c, size_of(4 * w, 4 * h))
        finally:
            self.told.append({**modes.told(w, h), "levels": []})
        modes.places.put(b)
        for i in range(max(h, 2)):
            for j in range(max(w, 2)):
                self.map[2 * r + i, 2 * c + j] = {"w": w, "h": h}
        return b

    def levels_of_plane(self, plane, r, c, w, h):
        """The transform blocks, all of 4x4, of the last block, which is w by h of them in luma."""
        told = self.told[-1]
        across, down = self.halved if plane else (0, 0)
        places = [((2 * r >> down) + k, (2 * c >> across) + j) for k in range(h >> down) for j in range(w >> across)]
        for y, x in places:
            if y >= 2 * self.rows >> down or x >= 2 * self.cols >> across:
                continue
            here = [] if told["skip"] else self.tokens(told, plane, y, x)
            told["levels"][plane].append(here)
            self.full[plane, y, x] = int(bool(here))
            if here:
                self.check(here, plane, self.type_of(told, plane, y, x))

    def type_of(self, told, plane, y, x):
        if plane or self.head.lossless or "modes" in told:
            return "DctDct"
        return TYPES[told["luma"][2 * (y % 2) + x % 2]]

    def tokens(self, told, plane, y, x):
        kind = SCAN_KINDS.get(self.type_of(told, plane, y, x), "default")
        first = self.full.get((plane, y - 1, x), 0) + self.full.get((plane, y, x - 1), 0)
        return read_block(self.d, 0, kind, int(plane > 0), int("modes" in told), first, self.depth)

    def check(self, levels, plane, kind):
        """Breaks the rule that the residue of levels breaks."""
        dc, ac = (table(name)[128 * (self.depth - 8) :] for name in ("dc_q", "ac_q"))
        of_dc, of_ac = self.head.deltas[1:] if plane else (self.head.deltas[0], 0)
        clipped = [max(0, min(255, self.head.base + delta)) for delta in (of_dc, of_ac)]
        try:
            residue(4, kind, dc[clipped[0]], ac[clipped[1]], self.depth, self.head.lossless,
                    by_position(SCAN_KINDS.get(kind, "default"), 4, levels))
        except Refused as refusal:
            raise Broken(RULES[str(refusal)]) from None


def tiles(head, colour):
    """The tiles of a frame of one row of them, with their bytes."""
    assert not head.has_tile_rows and not head.segmented and head.level == 0 and head.resilient and head.compressed == b"\0"
    count, data = 1 << head.columns_log2, head.tiles
    cols = (head.size[0] + 7) // 8
    ends = [min(cols, (k * ((cols + 7) // 8) >> head.columns_log2) * 8) for k in range(count + 1)]
    for k in range(count):
        size = len(data)
        if k + 1 < count:
            size, data = int.from_bytes(data[:4], "big"), data[4:]
        yield data[:size], ListedTile(data[:size], head, colour, ends[k : k + 2])
        data = data[size:]
    assert data == b""


def written_frame(data, head, written):
    """A frame as a writer makes it: the header of `data`, and the bytes of the tiles."""
    reader = Reader(head.compressed)
    read(head, defaults(), reader)
    compressed = reader.encoded().bytes()
    length = len(data) - len(head.compressed) - len(head.tiles)
    front = int.from_bytes(data[:length], "big") + (len(compressed) - len(head.compressed) << 8 * length - head.length_at - 16)
    sized = b"".join(len(tile).to_bytes(4, "big") + tile for tile in written[:-1])
    return ended(front.to_bytes(length, "big") + compressed + sized + written[-1])


def read_row(row):
    """The frames of a row: their bytes, those that a writer makes, whether the size is coded, and the partitions and blocks."""
    slots, colour = [None] * 8, None
    for data in frames_of(bytes.fromhex(row["input"])):
        head = header(data, slots)
        colour = head.colour or colour
        partitions, blocks, written = [], [], []
        for given, tile in tiles(head, colour):
            writer = tile.d.encoded()
            assert given == ended(writer.fewest()), (row["name"], given.hex(), writer.bytes().hex())
            partitions += tile.partitions
            blocks += tile.told
            written.append(writer.bytes())
        yield data, written_frame(data, head, written), head.own_size, partitions, blocks


def without_last(lists):
    """Lists without the empty ones at their end."""
    while lists and not lists[-1]:
        lists = lists[:-1]
    return lists


def levels_text(levels):
    planes = without_last([without_last(plane) for plane in levels])
    return "&" + listed("&" + listed(f"&{list(block)}" for block in plane) for plane in planes)


def block_text(b):
    skip, levels = flag(b["skip"]), levels_text(b["levels"])
    if "luma" in b:
        luma = array(f"IntraMode::{INTRA_MODES[mode]}" for mode in b["luma"])
        return struct("Told::Intra", skip=skip, luma=luma, chroma=f"IntraMode::{INTRA_MODES[b['chroma']]}", levels=levels)
    assert levels == "&[]"
    return struct("Told::Inter", skip=skip, reference=f"ReferenceFrame::{REFERENCES[b['reference']]}",
                  filter=f"InterpFilter::{FILTERS[b['filter']]}", modes=array(f"InterMode::{INTER[mode]}" for mode in b["modes"]),
                  differences=array(str(list(d)) for d in b["differences"]))


class Source:
    """A file of rows. Blocks and partitions that are said more than once have names."""

    def __init__(self):
        self.constants = {}

    def named(self, name, kind, value):
        """A constant's name. What it stands for may have another one already."""
        return self.constants.setdefault((kind, value), name)

    def block(self, b):
        value = block_text(b)
        plain = "luma" in b and not any(b["luma"]) and not b["chroma"] and "&[]" in value
        still = "modes" in b and b["skip"] and set(b["modes"]) == {ZERO} and not b["reference"]
        return self.named("GREY", "Told", value) if plain else self.named("STILL", "Told", value) if still else value

    def partition(self, kind):
        return self.named(PARTITIONS[kind].upper(), "Partition", f"Partition::{PARTITIONS[kind]}")

    def frame(self, frame, name):
        """A frame, of which a name's constants have the lists."""
        data, written, own_size, partitions, blocks = frame
        lists = [("Partition", "partitions", list(map(self.partition, partitions))), ("Told", "blocks", list(map(self.block, blocks)))]
        fields = {}
        for kind, field, items in lists:
            value = f"[{', '.join(items)}]"
            if name:
                value = self.named(f"{name}_{field.upper()}", f"[{kind}; {len(items)}]", value)
            fields[field] = f"&{value}"
        return struct("Frame", bytes=byte_string(data), written=byte_string(written), own_size=flag(own_size), **fields)

    def row(self, name, frames, named):
        texts = [self.frame(frame, ORDINALS[number] if named else None) for number, frame in enumerate(frames)]
        return struct("Row", name=text(name), frames=f"&{listed(texts)}")

    def items(self, constant, rows):
        texts = [self.row(name, frames, len(frames) > 3) for name, frames in rows]
        items = [Item(name, f"const {name}: {kind} = {value};") for (kind, value), name in self.constants.items()]
        return items + [Item(constant, f"pub const {constant}: [Row; {len(rows)}] = {listed(texts)};")]


def listed_items(constant, names):
    rows = {row["name"]: row for row in worked_rows("decode")}
    return Source().items(constant, [(name, list(read_row(rows[name]))) for name in names])


def rows():
    return listed_items("ROWS", NAMES)


def rows_of_vectors():
    return listed_items("ROWS_OF_VECTORS", LARGE)
