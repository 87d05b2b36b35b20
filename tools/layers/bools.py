"""Bools: what `bool_decoder` reads, and what `bool_encoder` writes."""
import hashlib

from vp9model.bools import Reader, Writer
from vp9model.draws import Draws
from vp9model.tables import table

from .items import Item, item

TREE = table("tree_intra_mode")


def const(name, kind, values):
    return item("const", name, kind, values)


def spelled(name, bools):
    return Item(f"{name}_BOOLS", f'const {name}_BOOLS: &[u8; {len(bools)}] = b"{"".join(map(str, bools))}";')


def drawn(seed, count):
    return Draws(seed).bytes(count)


def probs(seed, count):
    return [1 + p % 255 for p in drawn(seed, count)]


def read(name, data, of_probs):
    reader = Reader(data)
    return [const(f"{name}_BYTES", "u8", data), const(f"{name}_PROBS", "u8", of_probs), spelled(name, [reader.bool(p) for p in of_probs])]


def reading():
    sizes = [1, 2, 3, 4, 7, 8, 15, 16, 24, 31, 32, 32, 0, 5] * 2
    literals, leaves, differences = drawn(6, 40), drawn(8, 24), drawn(10, 40)
    of_literals, of_leaves, of_differences = Reader(literals), Reader(leaves), Reader(differences)
    return [
        *read("ZEROS", [0, 0], [128] * 24),
        *read("SHORT", [0], [1, 255, 64, 200, 128, 3, 250, 100] * 3),
        *read("ONES", [127, 255], [128, 255, 1, 200, 60, 90, 254, 2] * 4),
        *read("EVEN", drawn(1, 8), [128] * 80),
        *read("VARIED", drawn(4, 16), probs(99, 160)),
        const("LITERAL_BYTES", "u8", literals),
        const("LITERAL_SIZES", "u32", sizes),
        const("LITERALS", "u32", [of_literals.literal(size) for size in sizes]),
        const("TREE", "i8", TREE),
        const("TREE_BYTES", "u8", leaves),
        const("TREE_PROBS", "u8", probs(5, 9)),
        const("LEAVES", "u8", [of_leaves.tree(TREE, probs(5, 9)) for _ in range(60)]),
        const("DIFFERENCE_BYTES", "u8", differences),
        const("DIFFERENCES", "u8", [of_differences.difference() for _ in range(48)]),
    ]


def written(name, pairs):
    """Bools and their bytes, which are read back."""
    writer = Writer()
    for p, value in pairs:
        writer.bool(p, value)
    reader = Reader(writer.bytes())
    assert [reader.bool(p) for p, _ in pairs] == [value for _, value in pairs]
    return [const(f"{name}_PROBS", "u8", [p for p, _ in pairs]), spelled(name, [value for _, value in pairs]),
            const(f"{name}_BYTES", "u8", writer.bytes())]


def carrying(of_probs):
    """Bools that keep a border inside their part, so that the bytes of low below it become 255; the last goes past it."""
    writer, border, pairs = Writer(), 64, []
    for p in of_probs:
        n, split = writer.n, writer.split(p)
        if n > 36 and writer.low + split >= border:
            assert writer.low >> n - 28 == (border >> n - 28) - 1
            return pairs + [(p, 1)]
        if writer.low + split == border:
            continue
        value = int(writer.low + split < border)
        writer.bool(p, value)
        pairs.append((p, value))
        border <<= writer.n - n


def symbols():
    leaves = [draw % 10 for draw in drawn(31, 60)]
    differences = list(range(0, 255, 3)) + [15, 16, 31, 32, 63, 64, 128, 129, 253, 254]
    writer = Writer()
    for leaf in leaves:
        writer.tree(TREE, probs(5, 9), leaf)
    for value in differences:
        writer.difference(value)
    writer.literal(11, 1234)
    writer.literal(32, 2**32 - 2)
    reader = Reader(writer.bytes())
    assert [reader.tree(TREE, probs(5, 9)) for _ in leaves] == leaves
    assert [reader.difference() for _ in differences] == differences
    assert reader.literal(11) == 1234 and reader.literal(32) == 2**32 - 2
    return [const("TREE", "i8", TREE), const("TREE_PROBS", "u8", probs(5, 9)), const("LEAVES", "u8", leaves),
            const("DIFFERENCES", "u8", differences), const("SYMBOL_BYTES", "u8", writer.bytes())]


def many():
    """The digest of so many bools that no one would choose."""
    writer = Writer()
    for k in range(77_777):
        writer.bool(1 + k % 255, int(k % 7 == 0))
    digest = hashlib.md5(writer.bytes()).digest()
    return [const("MANY_BOOLS", "u8", (f"0x{byte:02x}" for byte in digest))]


def writing():
    mixed = [(p, v >> 7) for p, v in zip(probs(12, 200), drawn(21, 200))]
    carry = carrying(probs(41, 200)) + [(1 + p % 255, p >> 7) for p in drawn(42, 20)]
    return written("NONE", []) + written("MIXED", mixed) + written("CARRY", carry) + symbols()
