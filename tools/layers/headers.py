"""Compressed headers: what `compressed_header` makes of those of real streams and of drawn bytes, and what `compressed_writer` writes."""
from vp9model.draws import Draws
from vp9model.headers import FIELDS, NUMBER, TX_MODES, Head, defaults, heads_of, read, write
from vp9model.tables import TOP

from .items import Item, Value, flag, item, listed, struct

# Streams, and the numbers of the frames whose compressed headers are taken.
STREAMS = [
    ("intra-64x64", [0]),
    ("size-352x288", [0, 1]),
    ("lossless-err-66x34", [0]),
    ("size-17x33", [0]),
    ("io-96x80", [5]),
    ("arf-multi-128x96", [2, 4]),
    ("aq3-176x144", [6]),
]


def drawn(seed, count):
    """Bytes with many ones, which have many updates, behind a marker of 0."""
    draws = Draws(seed)
    states = [draws.next() for _ in range(count)]
    data = [255 if state >> 28 < 14 else state >> 20 & 255 for state in states]
    return bytes([data[0] & 127] + data[1:])


def head_of(kind, lossless=False, biases=(0, 0, 0), switchable=False, precise=False):
    head = Head()
    head.kind, head.lossless, head.biases, head.switchable, head.precise = kind, lossless, biases, switchable, precise
    return head


def case(name, head):
    tx_mode, mode, lists = read(head, defaults())
    changes = [(k, place, new) for k, (old_list, new_list) in enumerate(zip(defaults(), lists))
               for place, (old, new) in enumerate(zip(old_list, new_list)) if old != new]
    fields = struct("Case", bytes=f"&{list(head.compressed)}", lossless=flag(head.lossless), kind=f"Kind::{head.kind}",
                    biases=listed(map(flag, head.biases)), switchable=flag(head.switchable), precise=flag(head.precise),
                    tx_mode=f"TxMode::{tx_mode}", reference_mode=f"ReferenceMode::{mode}", changes=f"&{changes}")
    return f"\n// {name}\n{fields}"


def cases(named):
    return [item("pub static", "CASES", "Case", [case(*one) for one in named])]


def made():
    named = []
    for number, biases, precise in ((9, (0, 1, 0), False), (6, (0, 0, 1), True), (4, (1, 0, 1), True)):
        head = head_of("Inter", biases=biases, switchable=True, precise=precise)
        head.compressed = drawn(number, 400)
        named.append((f"made by number {number}", head))
    return cases(named)


def of_streams():
    named = []
    for name, numbers in STREAMS:
        heads = heads_of((TOP / "samples/streams" / f"{name}.ivf").read_bytes())
        named += [(f"{name}, frame {number}", heads[number]) for number in numbers]
    return cases(named)


# One of nearly each kind: field, place, new probability.
CHANGES = [
    ("tx 8x8", 1, 1),
    ("tx 16x16", 3, 255),
    ("tx 32x32", 5, 130),
    ("coefficients 4x4", 395, 77),
    ("coefficients 16x16", 100, 128),
    ("coefficients 32x32", 0, 254),
    ("skip", 2, 3),
    ("inter modes", 20, 200),
    ("filters", 3, 99),
    ("is inter", 0, 16),
    ("compound flag", 4, 240),
    ("single references", 9, 20),
    ("compound references", 0, 129),
    ("y modes", 35, 127),
    ("partitions", 47, 90),
    ("joints", 1, 33),
    ("classes", 15, 255),
    ("bits", 3, 1),
    ("fractions", 5, 65),
    ("high precision", 1, 201),
]


def written(changes, head, tx_mode, mode="Single"):
    """The bytes, which are read back."""
    before = defaults()
    after = [list(entries) for entries in before]
    for field, at, new in changes:
        assert at < FIELDS[NUMBER[field]][2] and after[NUMBER[field]][at] != new
        after[NUMBER[field]][at] = new
    head.compressed = write(head, before, after, tx_mode, mode)
    assert read(head, before) == (TX_MODES[tx_mode], mode, after)
    return listed(head.compressed)


def writings():
    key = written([], head_of("Key"), 3)
    lossless = written([], head_of("Key", lossless=True), 0)
    inter = written(CHANGES, head_of("Inter", biases=(0, 0, 1), switchable=True, precise=True), 4, "Selected")
    return [Item("INTER_BYTES", f"const INTER_BYTES: [u8; {inter.count(',') + 1}] = {inter};"),
            Value("no_update", "modes, &", ")?", key), Value("lossless", "modes, &", ")?", lossless)]
