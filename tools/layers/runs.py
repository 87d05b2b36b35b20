"""Runs of the program: tables of worked rows, frames of levels at the bounds of what fits before the transforms and beyond them
(rule 22), and grey frames of real sizes.

Headers, modes and the order of blocks are those of sections 6.2, 6.4 and 9.3. No row breaks rule 23, since no lossless frame can:
`check_that_transforms_fit` shows it. Apart from the program a file of `--files` is checked by
`ffmpeg -cpuflags 0 -i NAME.ivf -vsync 0 -f rawvideo - | cmp - NAME.yuv`. `vpxdec`, and `ffmpeg` without the first option, give 0 for
128 + 32766 in "the WHT's greatest value", as a sum of 16 bits does. The grey files are padded with zero bytes so that decoders which
refuse a frame that ends too early take them: both `vpxdec` (up to 16384 samples a side) and `ffmpeg` decode them to grey frames.
"""
import itertools

from vp9model.bools import Writer
from vp9model.headers import ended, ivf, key_frame_header, tile_columns_log2
from vp9model.prediction import edges, intra_predicted
from vp9model.tables import TOP, table
from vp9model.tokens import SCANS, by_position, encode_block
from vp9model.transforms import Machine, Refused, residue

from .items import Entry, Item, byte_string, item, listed, struct, text

COLUMNS = ["name", "words", "input", "status", "output", "note"]
# So many rows are one constant: a large one is slow to check.
PIECE = 10


# ---- tables of runs


def note_text(row):
    return text(row["note"])[:-1] + '\\n"' if row["note"] else '""'


def output_of(row):
    """The bytes, which some tables have in runs: a count and a byte."""
    if "output" in row:
        return bytes.fromhex(row["output"])
    return b"".join(count * byte for count, byte in runs_of(row))


def runs_of(row):
    return [(int(count), bytes.fromhex(byte)) for count, byte in (run.split("*") for run in row["output in runs"].split())]


def row_text(row):
    words = "&" + listed(text(word) for word in row["words"].split(" ") if word)
    return struct("Row", name=text(row["name"]), words=words, input=byte_string(bytes.fromhex(row["input"])), status=int(row["status"]),
                  output=byte_string(output_of(row)), note=note_text(row))


def tables(rows):
    assert len({row["name"] for row in rows}) == len(rows), "two rows of one name"
    pieces = [rows[at:at + PIECE] for at in range(0, len(rows), PIECE)]
    items = [item("const", f"ROWS_{number}", "Row", map(row_text, piece)) for number, piece in enumerate(pieces)]
    return items + [item("pub const", "TABLES", "&[Row]", (f"&ROWS_{number}" for number in range(len(pieces))))]


def worked_rows(*names):
    """The rows of tables of `samples/rows`."""
    rows = []
    for name in names:
        head, *lines = (TOP / "samples/rows" / f"{name}.tsv").read_text().splitlines()
        rows += [dict(zip(head.split("\t"), line.split("\t"), strict=True)) for line in lines]
    return rows


def listings():
    return tables(worked_rows("list"))


# The rows of `decode.tsv` that don't stand among those of intra frames.
LONG = ["a vector of 16384", "a vector out of range in both tiles", "marker in the first tile, vector in the second",
        "vectors past all edges of a scaled reference, flat 200"]
INTER = ["reference 16 times smaller", "references of two formats",
         "a block names a reference out of range", "no block names the reference out of range"]


def decode_rows(wanted):
    return [Entry("Row", row["name"], row_text(row)) for row in worked_rows("decode", "more_decode") if wanted(row["name"])]


def intra_decode():
    return decode_rows(lambda name: name not in LONG + INTER)


def inter_decode():
    """The others of its file are drawn streams, which no table has."""
    return decode_rows(lambda name: name in INTER)


def long_runs():
    rows = {row["name"]: row for row in worked_rows("decode")}
    return [item("pub const", "LONG", "LongRow", [
        struct("LongRow", name=text(name), input=byte_string(bytes.fromhex(rows[name]["input"])), status=int(rows[name]["status"]),
               runs="&" + listed(f"({count}, 0x{byte.hex()})" for count, byte in runs_of(rows[name])), note=note_text(rows[name]))
        for name in LONG])]


# ---- lossless key frames of 8x8


DEPTH, SIDE = 8, 8
# The quantiser of DC and AC at index 0.
QUANT = 4
# The least and the last level whose value fits 8 + depth signed bits.
LEAST, LAST = -(1 << (DEPTH + 7)) // QUANT, ((1 << (DEPTH + 7)) - 1) // QUANT
# The greatest that a token can hold: category 6 has 14 bits at depth 8.
GREATEST = 67 + (1 << 14) - 1
WIDTHS = [SIDE, SIDE // 2, SIDE // 2]
# Plane, row and column of the transform blocks of the frame's one block, in decoding order.
PLACES = [(0, 0, 0), (0, 0, 4), (0, 4, 0), (0, 4, 4), (1, 0, 0), (2, 0, 0)]
RULES = {"CoefRange": 22, "BoolMarker": 18, "FrameMarker": 7}


def no_updates():
    """A compressed header that updates nothing: the coefficients of 4x4, three skips."""
    writer = Writer()
    for prob in [128] + 3 * [252]:
        writer.bool(prob, 0)
    return writer.bytes()


def tile(blocks):
    """One block of 8x8: its partition (no split), skip, modes (DC, DC), and levels in the order of the scan."""
    writer, has_levels = Writer(), {}
    for name in ("kf_partition", "prob_skip", "kf_y_mode", "kf_uv_mode"):
        writer.bool(table(name)[0], 0)
    for (plane, row, column), levels in zip(PLACES, blocks, strict=True):
        around = ((plane, row - 4, column), (plane, row, column - 4))
        first = sum(has_levels.get(place, 0) for place in around)
        encode_block(writer, 0, "default", int(plane > 0), 0, first, DEPTH, levels)
        has_levels[plane, row, column] = int(bool(levels))
    return ended(writer.bytes())


def rebuild(plane, width, row, column, added):
    """A transform block of 4x4, predicted by DC."""
    block = intra_predicted("Dc", 4, DEPTH, *edges(plane, width, width, DEPTH, row, column, 0, width, 4))
    for i, j in itertools.product(range(4), range(4)):
        plane[(row + i) * width + column + j] = max(0, min(255, block[4 * i + j] + added[4 * i + j]))


def samples(blocks):
    """The frame's text, or the rule of the first transform block that breaks one, as a Refused."""
    planes = [[0] * (width * width) for width in WIDTHS]
    for (plane, row, column), levels in zip(PLACES, blocks, strict=True):
        added = residue(4, "DctDct", QUANT, QUANT, DEPTH, True, by_position("default", 4, levels))
        rebuild(planes[plane], WIDTHS[plane], row, column, added)
    return bytes(itertools.chain(*planes))


class Frame:
    """A frame of six lists of levels."""

    def __init__(self, blocks, shown=True):
        self.blocks, self.shown = blocks, shown

    def data(self):
        middle = no_updates()
        return key_frame_header(SIDE, SIDE, len(middle), self.shown) + middle + tile(self.blocks)

    def text(self):
        written = samples(self.blocks)
        return written if self.shown else b""


class WrongMarker(Frame):
    """One whose compressed header begins with a bool of 1."""

    def data(self):
        data = bytearray(super().data())
        data[-len(tile(self.blocks)) - len(no_updates())] |= 128
        return bytes(data)

    def text(self):
        raise Refused("BoolMarker")


class NoFrame:
    """A byte with a wrong frame marker."""

    def data(self):
        return b"\x40"

    def text(self):
        raise Refused("FrameMarker")


def file_of(list_of_frames):
    return ivf([frame.data() for frame in list_of_frames], SIDE, SIDE)


def ending(list_of_frames):
    """Status, output and note."""
    output = b""
    for number, frame in enumerate(list_of_frames):
        try:
            output += frame.text()
        except Refused as refusal:
            return 3, output, f"frame {number}: rule {RULES[str(refusal)]} {refusal}"
    return 0, output, ""


def by_scan(rows):
    """Levels in the order of the scan, from those of four rows."""
    return [rows[position // 4][position % 4] for position in SCANS["default", 4]]


def rows_of(*levels):
    """A block whose rows hold one level each."""
    return by_scan([[level] * 4 for level in levels])


def at_place(place, level):
    return [0] * place + [level]


def alone(number, levels):
    """Six blocks, all but one without levels."""
    return [levels if k == number else [] for k in range(len(PLACES))]


def check_that_transforms_fit():
    """Whatever values fit before the transforms, all that the WHT stores of them fits too.

    Each output of the WHT falls or rises in each of its inputs, whatever the others are, since `e` moves by at most one
    where an input does. So over four ranges of inputs its least and greatest outputs are at corners.
    """
    bounds = (QUANT * LEAST, QUANT * LAST)
    corners = [Machine(DEPTH).wht(corner, 2) for corner in itertools.product(bounds, repeat=4)]
    for of_column in zip(*corners):
        for corner in itertools.product((min(of_column), max(of_column)), repeat=4):
            Machine(DEPTH).wht(corner, 0)


CATEGORIES = [
    [1, -2, 3, -4, 5, -6, 7],
    [-10, 0, 11, 18, 0, 0, -19, 34],
    [35, -66, 67, -68],
    [0, 0, 0, 2, 0, -3] + [0] * 9 + [1],
    [100, -99, 300, -301],
    [-1000, 1000, 999, -998, 2, 2],
]
CANCEL = by_scan([[LAST, -LAST + 40, 25, -9], [-LAST + 17, LAST - 90, 0, 3], [5, -70, 1, 0], [0, 0, 30, -2]])
GOOD = Frame(CATEGORIES)
HIDDEN = Frame(CATEGORIES, shown=False)
OTHER = Frame(alone(4, CANCEL))
BAD = Frame(alone(0, [LAST + 1]))
ROWS = [
    ("levels of all categories", [GOOD]),
    ("the last level that fits", [Frame(alone(0, [LAST]))]),
    ("the least level that fits", [Frame(alone(3, [LEAST]))]),
    ("the last level that fits, at the last place", [Frame(alone(1, at_place(15, LAST)))]),
    ("large levels that nearly cancel", [Frame([CANCEL] * 6)]),
    ("the WHT's least value", [Frame(alone(0, rows_of(LEAST, LEAST, LEAST, LEAST)))]),
    ("the WHT's greatest value", [Frame(alone(4, rows_of(LAST, LAST, LEAST, LEAST)))]),
    ("a sum that isn't stored is above 16 bits", [Frame(alone(5, rows_of(LAST, LAST, LEAST, LAST)))]),
    ("shown, hidden and shown", [OTHER, HIDDEN, GOOD]),
    ("one above the last level", [BAD]),
    ("plain: one above the last level", [BAD]),
    ("one below the least level", [Frame(alone(0, [LEAST - 1]))]),
    ("one above the last level, at the last place", [Frame(alone(0, at_place(15, LAST + 1)))]),
    ("one below the least level, at the last place", [Frame(alone(3, at_place(15, LEAST - 1)))]),
    ("a value that is 0 in 16 bits", [Frame(alone(0, [1 << 14]))]),
    ("the greatest level of a token", [Frame(alone(0, [GREATEST]))]),
    ("the least level of a token", [Frame(alone(0, [-GREATEST]))]),
    ("the last block of the frame", [Frame(CATEGORIES[:5] + [[1, -1, LAST + 1, 1]])]),
    ("behind a block at the WHT's bound", [Frame([rows_of(*[LEAST] * 4), [LEAST - 1], [], [], [], []])]),
    ("a shown frame before it", [GOOD, BAD]),
    ("a hidden frame before it", [HIDDEN, BAD]),
    ("shown, hidden and shown frames before it", [OTHER, HIDDEN, GOOD, BAD, GOOD]),
    ("hidden itself", [Frame(BAD.blocks, shown=False), GOOD]),
    ("a wrong frame marker behind it", [BAD, NoFrame()]),
    ("a wrong marker bool before it", [GOOD, WrongMarker(BAD.blocks)]),
]


def overflow():
    check_that_transforms_fit()
    rows = []
    for name, list_of_frames in ROWS:
        status, output, note = ending(list_of_frames)
        words = "decode --plain" if name.startswith("plain") else "decode"
        rows.append(dict(zip(COLUMNS, (name, words, file_of(list_of_frames).hex(), str(status), output.hex(), note))))
    return tables(rows)


def overflow_files():
    """Each file, and what all of it decodes to."""
    for name, list_of_frames in ROWS:
        stem = name.replace(" ", "-").replace(",", "").replace(":", "").replace("'", "")
        yield f"{stem}.ivf", file_of(list_of_frames)
        status, output, _ = ending(list_of_frames)
        if status == 0:
            yield f"{stem}.yuv", output


# ---- key frames whose every bool is 0, so that each sample of each plane is grey, 80 in hex


GREY_SIZES = [(1, 1), (352, 288), (130, 132), (1, 65536), (65536, 1)]
ODD_SIZES = [(4099, 3), (60001, 1)]


def grey_frame(width, height, padding=0):
    least, _ = tile_columns_log2(width)
    of_tile = bytes(1 + 1000 * padding)
    before_last = (len(of_tile).to_bytes(4, "big") + of_tile) * ((1 << least) - 1)
    return key_frame_header(width, height, 1 + padding) + bytes(1 + padding) + before_last + of_tile


def grey_items(sizes):
    return [Item(f"GREY_{width}_BY_{height}", f"const GREY_{width}_BY_{height}: &[u8] = {byte_string(grey_frame(width, height))};")
            for width, height in sizes]


def grey():
    return grey_items([size for size in GREY_SIZES if size != (1, 1)])


def least_grey():
    return grey_items([(1, 1)])


def odd_grey():
    return grey_items(ODD_SIZES)


def grey_files():
    for width, height in GREY_SIZES + ODD_SIZES:
        yield f"grey-{width}x{height}.ivf", ivf([grey_frame(width, height, 64)] * 2, 0, 0)
