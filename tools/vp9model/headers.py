"""IVF, superframes, uncompressed headers (6.2) and compressed ones (6.3), read and written."""
from .bools import Reader, Writer
from .tables import table

# The probabilities, field by field: name, default table, number of entries.
FIELDS = [
    ("tx 8x8", "prob_tx8", 2),
    ("tx 16x16", "prob_tx16", 4),
    ("tx 32x32", "prob_tx32", 6),
    ("coefficients 4x4", None, 396),
    ("coefficients 8x8", None, 396),
    ("coefficients 16x16", None, 396),
    ("coefficients 32x32", None, 396),
    ("skip", "prob_skip", 3),
    ("inter modes", "prob_inter_mode", 21),
    ("filters", "prob_filter", 8),
    ("is inter", "prob_is_inter", 4),
    ("compound flag", "prob_comp_flag", 5),
    ("single references", "prob_single_ref", 10),
    ("compound references", "prob_comp_ref", 5),
    ("y modes", "prob_y_mode", 36),
    ("partitions", "prob_partition", 48),
    ("joints", "prob_mv_joint", 3),
    ("signs", "prob_mv_sign", 2),
    ("classes", "prob_mv_class", 20),
    ("class0", "prob_mv_class0", 2),
    ("bits", "prob_mv_bits", 20),
    ("class0 fractions", "prob_mv_class0_fr", 12),
    ("fractions", "prob_mv_fr", 6),
    ("class0 high precision", "prob_mv_class0_hp", 2),
    ("high precision", "prob_mv_hp", 2),
    ("uv modes", "prob_uv_mode", 90),
]
NUMBER = {name: k for k, (name, _, _) in enumerate(FIELDS)}
TX_MODES = ["Only4x4", "UpTo8x8", "UpTo16x16", "UpTo32x32", "Selected"]
SYNC = 0x498342


def defaults():
    """The lists of all fields. Rows 3 to 5 of band 0 of the coefficients have no meaning and are left out."""
    coefficients = [p for p in table("prob_coef") if p > 0]
    lists = []
    for name, file, count in FIELDS:
        at = 396 * (NUMBER[name] - 3)
        entries = table(file) if file else coefficients[at : at + 396]
        assert len(entries) == count and all(1 <= p <= 255 for p in entries), name
        lists.append(entries)
    return lists


# ---- files


def packets(data):
    """The payloads of an IVF file."""
    assert data[:4] == b"DKIF" and data[8:12] == b"VP90"
    at = int.from_bytes(data[6:8], "little")
    assert 32 <= at <= len(data)
    while at < len(data):
        size = int.from_bytes(data[at : at + 4], "little")
        at += 12 + size
        assert at <= len(data)
        yield data[at - size : at]


def frames(packet):
    """The frames of a packet: one, or those of the superframe index at its end."""
    if not packet:
        return
    last = packet[-1]
    count, width = (last & 7) + 1, (last >> 3 & 3) + 1
    total = 2 + count * width
    if last >> 5 != 6 or len(packet) < total or packet[-total] != last:
        yield packet
        return
    index, at = packet[len(packet) - total + 1 : -1], 0
    for k in range(count):
        size = int.from_bytes(index[k * width : (k + 1) * width], "little")
        at += size
        assert at <= len(packet) - total
        if size > 0:
            yield packet[at - size : at]


def frames_of(data):
    return [frame for packet in packets(data) for frame in frames(packet)]


def ivf(list_of_frames, width, height):
    """A file with a packet for each frame."""
    head = [(0, 2), (32, 2), (b"VP90", 4), (width, 2), (height, 2), (30, 4), (1, 4), (len(list_of_frames), 4), (0, 4)]
    file = b"DKIF" + b"".join(x if isinstance(x, bytes) else x.to_bytes(size, "little") for x, size in head)
    for number, data in enumerate(list_of_frames):
        file += len(data).to_bytes(4, "little") + number.to_bytes(8, "little") + data
    return file


def ended(data):
    """A byte of 0 follows, as encoders have it, where the last one would look like that of a superframe index."""
    return data + b"\0" if data[-1] >> 5 == 6 else data


# ---- uncompressed headers


class Bits:
    def __init__(self, data):
        self.data, self.at = data, 0

    def f(self, count):
        value = 0
        for _ in range(count):
            value = 2 * value + (self.data[self.at >> 3] >> (7 - (self.at & 7)) & 1)
            self.at += 1
        return value

    def delta(self, count):
        if not self.f(1):
            return 0
        value = self.f(count)
        return -value if self.f(1) else value


class Head:
    """What the compressed header and the tiles need of an uncompressed one, and what decides which parts a frame uses."""


def colour(bits, profile):
    """The depth, and whether chroma is halved across and down."""
    depth = 10 + 2 * bits.f(1) if profile >= 2 else 8
    if bits.f(3) == 7:
        bits.f(1)
        return depth, 0, 0
    bits.f(1)
    if not profile & 1:
        return depth, 1, 1
    across, down, _ = bits.f(1), bits.f(1), bits.f(1)
    return depth, across, down


def size(bits):
    return bits.f(16) + 1, bits.f(16) + 1


def render(bits):
    if bits.f(1):
        bits.f(32)


def segmentation(bits):
    if not bits.f(1):
        return False
    if bits.f(1):
        for _ in range(7):
            if bits.f(1):
                bits.f(8)
        if bits.f(1):
            for _ in range(3):
                if bits.f(1):
                    bits.f(8)
    if bits.f(1):
        bits.f(1)
        for _ in range(8):
            for width, signed in ((8, 1), (6, 1), (2, 0), (0, 0)):
                if bits.f(1):
                    bits.f(width)
                    bits.f(signed)
    return True


def tile_columns_log2(width):
    """The least and the greatest that a header may code (6.2.9.1)."""
    squares = (width + 63) // 64
    least = next(n for n in range(7) if 64 << n >= squares)
    greatest = next(n for n in range(1, 12) if squares >> n < 4) - 1
    return least, greatest


def tail(bits, head):
    """What stands in the headers of all kinds of frames."""
    head.parallel = True
    if not head.resilient:
        bits.f(1)
        head.parallel = bool(bits.f(1))
    bits.f(2)
    head.level = bits.f(6)
    bits.f(3)
    if bits.f(1) and bits.f(1):
        for _ in range(6):
            bits.delta(6)
    head.base = bits.f(8)
    head.deltas = [bits.delta(4) for _ in range(3)]
    head.lossless = head.base == 0 and head.deltas == [0, 0, 0]
    head.segmented = segmentation(bits)
    head.columns_log2, greatest = tile_columns_log2(head.size[0])
    while head.columns_log2 < greatest and bits.f(1):
        head.columns_log2 += 1
    head.has_tile_rows = bits.f(1) > 0
    if head.has_tile_rows:
        bits.f(1)
    head.length_at = bits.at
    length = bits.f(16)
    start = (bits.at + 7) >> 3
    head.compressed = bits.data[start : start + length]
    head.tiles = bits.data[start + length :]
    assert len(head.compressed) == length > 0


def inter_part(bits, head, slots):
    """The references and what follows them."""
    references = []
    for k in range(3):
        references.append(bits.f(3))
        bias = bits.f(1)
        head.biases[k] = 0 if head.resilient else bias
    head.reference_sizes = [slots[k] for k in references]
    for k in references:
        if bits.f(1):
            head.size = slots[k]
            break
    else:
        head.own_size = True
        head.size = size(bits)
    render(bits)
    head.precise = bool(bits.f(1))
    head.switchable = bool(bits.f(1))
    if not head.switchable:
        head.filter_code = bits.f(2)


def header(frame, slots):
    """The header of a frame, None for a shown slot. `slots` has the sizes of the references."""
    bits, head = Bits(frame), Head()
    assert bits.f(2) == 2
    profile = bits.f(1) + 2 * bits.f(1)
    if profile == 3:
        bits.f(1)
    if bits.f(1):
        return None
    head.kind, head.colour, head.biases = "Key", None, [0, 0, 0]
    head.switchable = head.precise = head.own_size = False
    not_key, head.shown, head.resilient = bits.f(1), bits.f(1), bits.f(1)
    if not not_key:
        assert bits.f(24) == SYNC
        head.colour = colour(bits, profile)
        head.size = size(bits)
        render(bits)
        refresh = 255
    else:
        intra_only = 0 if head.shown else bits.f(1)
        if not head.resilient:
            bits.f(2)
        head.kind = "IntraOnly" if intra_only else "Inter"
        if intra_only:
            assert bits.f(24) == SYNC
            head.colour = colour(bits, profile) if profile > 0 else (8, 1, 1)
            refresh = bits.f(8)
            head.size = size(bits)
            render(bits)
        else:
            refresh = bits.f(8)
            inter_part(bits, head, slots)
    tail(bits, head)
    for k in range(8):
        if refresh >> k & 1:
            slots[k] = head.size
    return head


def heads_of(data):
    """The headers of a file's frames."""
    slots = [None] * 8
    return [header(frame, slots) for frame in frames_of(data)]


def packed(fields):
    """Values and widths, as bytes; zeros fill the last one."""
    bits = "".join(f"{value:0{width}b}" if width else "" for value, width in fields)
    return bytes(int(bits[at:at + 8].ljust(8, "0"), 2) for at in range(0, len(bits), 8))


def key_frame_header(width, height, compressed_size, shown=True):
    """A lossless, error-resilient key frame of profile 0, in the fewest tiles."""
    least, greatest = tile_columns_log2(width)
    return packed([
        (2, 2), (0, 2), (0, 1),  # marker, profile, no slot is shown
        (0, 1), (shown, 1), (1, 1),  # key, shown, error resilient
        (SYNC, 24),
        (0, 3), (0, 1),  # colour space and range
        (width - 1, 16), (height - 1, 16), (0, 1),  # the size, which is the render size
        (0, 2),  # context
        (0, 6), (0, 3), (0, 1),  # filter level, sharpness, no deltas
        (0, 8), (0, 3),  # base quantiser and its three deltas
        (0, 1), (0, int(least < greatest)), (0, 1),  # no segmentation, the fewest columns of tiles, one row
        (compressed_size, 16),
    ])


# ---- compressed headers


COARSE = [7 + 13 * i for i in range(20)]
INVERSE = COARSE + [n for n in range(1, 254) if n not in COARSE] + [253]


def around(v, m):
    if v > 2 * m:
        return v
    return m - ((v + 1) >> 1) if v & 1 else m + (v >> 1)


def remapped(number, prob):
    """inv_remap_prob (6.3.5): what a difference makes of a probability."""
    v, m = INVERSE[number], prob - 1
    return 1 + around(v, m) if 2 * m <= 255 else 255 - around(v, 254 - m)


class ReadUpdates:
    """What the parts of a compressed header are, where they are read: `lists` changes."""

    def __init__(self, reader, lists):
        self.reader, self.lists = reader, lists

    def literal(self, count, value):
        return self.reader.literal(count)

    def has_coefficients(self, k):
        return self.reader.literal(1)

    def one(self, field, at, odd):
        if self.reader.bool(252):
            old = self.lists[field][at]
            self.lists[field][at] = self.reader.literal(7) << 1 | 1 if odd else remapped(self.reader.difference(), old)


class PutUpdates:
    """The same, where they are written, from the lists before to those after."""

    def __init__(self, before, after):
        self.writer, self.before, self.after = Writer(), before, after

    def literal(self, count, value):
        self.writer.literal(count, value)
        return value

    def has_coefficients(self, k):
        return self.literal(1, int(self.before[k] != self.after[k]))

    def one(self, field, at, odd):
        old, new = self.before[field][at], self.after[field][at]
        self.writer.bool(252, int(old != new))
        if old != new and odd:
            assert new % 2 == 1
            self.writer.literal(7, new // 2)
        elif old != new:
            # the difference is found by trying each of them
            self.writer.difference(next(n for n in range(255) if remapped(n, old) == new))


def transform_mode(head, part, tx_mode):
    if head.lossless:
        return 0
    read = part.literal(2, min(tx_mode, 3))
    return read + part.literal(1, tx_mode - 3) if read == 3 else read


def reference_mode(head, part, mode):
    if len(set(head.biases)) == 1 or not part.literal(1, int(mode != "Single")):
        return "Single"
    return "Selected" if part.literal(1, int(mode == "Selected")) else "Compound"


def update(part, name, at=0, count=None, odd=False):
    field = NUMBER[name]
    for k in range(at, FIELDS[field][2] if count is None else at + count):
        part.one(field, k, odd)


def vector_parts(head, part):
    update(part, "joints", odd=True)
    for k in range(2):
        for name, size_of in (("signs", 1), ("classes", 10), ("class0", 1), ("bits", 10)):
            update(part, name, size_of * k, size_of, True)
    for k in range(2):
        update(part, "class0 fractions", 6 * k, 6, True)
        update(part, "fractions", 3 * k, 3, True)
    if head.precise:
        for k in range(2):
            update(part, "class0 high precision", k, 1, True)
            update(part, "high precision", k, 1, True)


def inter_parts(head, part, mode):
    update(part, "inter modes")
    if head.switchable:
        update(part, "filters")
    update(part, "is inter")
    mode = reference_mode(head, part, mode)
    if mode == "Selected":
        update(part, "compound flag")
    if mode != "Compound":
        update(part, "single references")
    if mode != "Single":
        update(part, "compound references")
    update(part, "y modes")
    update(part, "partitions")
    vector_parts(head, part)
    return mode


def parts(head, part, tx_mode=0, mode="Single"):
    """The syntax of a compressed header. The modes are those to be written, or any where they are read."""
    tx_mode = transform_mode(head, part, tx_mode)
    if tx_mode == 4:
        for name in ("tx 8x8", "tx 16x16", "tx 32x32"):
            update(part, name)
    for k in range(min(tx_mode, 3) + 1):
        if part.has_coefficients(3 + k):
            update(part, FIELDS[3 + k][0])
    update(part, "skip")
    if head.kind == "Inter":
        mode = inter_parts(head, part, mode)
    return TX_MODES[tx_mode], mode


def read(head, lists, reader=None):
    """The transform mode, the reference mode, and the lists after the header."""
    part = ReadUpdates(reader or Reader(head.compressed), [list(entries) for entries in lists])
    return *parts(head, part), part.lists


def write(head, before, after, tx_mode, mode):
    """The bytes of a compressed header."""
    part = PutUpdates(before, after)
    parts(head, part, tx_mode, mode)
    return part.writer.bytes()
