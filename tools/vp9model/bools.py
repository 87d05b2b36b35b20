"""Bools of section 9.2 of the standard, over numbers without bound: a reader, a writer, and the ways in trees."""


class Interval:
    """Of the numbers of 8 + n bits, the `range` ones from `low` on: those from which the bools so far are read."""

    def __init__(self):
        self.low, self.range, self.n = 0, 255, 0

    def split(self, p):
        return 1 + (((self.range - 1) * p) >> 8)

    def narrow(self, p, one):
        split = self.split(p)
        if one:
            self.low += split
            self.range -= split
        else:
            self.range = split
        while self.range < 128:
            self.n += 1
            self.low *= 2
            self.range *= 2


class Reader(Interval):
    """The bits of the data, with zeros behind them without end, are a number; a bool says in which part it lies."""

    def __init__(self, data):
        super().__init__()
        self.number, self.size = int.from_bytes(bytes(data), "big"), 8 * len(data)
        self.pairs = []
        assert self.bool(128) == 0, "the marker is 1"

    def bool(self, p):
        count = 8 + self.n
        spelled = self.number >> self.size - count if count <= self.size else self.number << count - self.size
        one = int(spelled - self.low >= self.split(p))
        self.narrow(p, one)
        self.pairs.append((p, one))
        return one

    def literal(self, count):
        value = 0
        for _ in range(count):
            value = 2 * value + self.bool(128)
        return value

    def tree(self, array, probs):
        return walked(array, lambda node: self.bool(probs[node]))

    def difference(self):
        """decode_term_subexp (6.3.4)."""
        for base, size in ((0, 4), (16, 4), (32, 5)):
            if self.bool(128) == 0:
                return base + self.literal(size)
        number = self.literal(7)
        return number + 64 if number < 65 else 2 * number - 1 + self.bool(128)

    def encoded(self):
        """The same bools, written; the marker comes first, and is the writer's own."""
        writer = Writer()
        for p, one in self.pairs[1:]:
            writer.bool(p, one)
        return writer


class Writer(Interval):
    """The marker comes first."""

    def __init__(self):
        super().__init__()
        self.bool(128, 0)

    def bool(self, p, one):
        self.narrow(p, one)

    def literal(self, count, value):
        for bit in reversed(range(count)):
            self.bool(128, value >> bit & 1)

    def tree(self, array, probs, leaf):
        for node, one in way(array, leaf):
            self.bool(probs[node], one)

    def difference(self, value):
        """decode_term_subexp (6.3.4), each case written as it is read."""
        if value < 64:
            case, base, size = (0, 0, 4) if value < 16 else (1, 16, 4) if value < 32 else (2, 32, 5)
            self.literal(case + 1, 2 ** (case + 1) - 2)
            self.literal(size, value - base)
            return
        self.literal(3, 7)
        if value < 64 + 65:
            self.literal(7, value - 64)
        else:
            self.literal(7, (value + 1) // 2)
            self.literal(1, (value + 1) % 2)

    def bytes(self):
        """The least number of the part, in whole bytes."""
        size = (8 + self.n + 7) // 8
        return (self.low << 8 * size - 8 - self.n).to_bytes(size, "big")

    def fewest(self):
        """The fewest bytes of the part, and the least number of so many."""
        bits, size = 8 + self.n, 0
        while True:
            size += 1
            least = -(-self.low << 8 * size >> bits)
            if least << bits < self.low + self.range << 8 * size:
                return least.to_bytes(size, "big")


def walked(array, ask):
    """The leaf of a tree that is reached where `ask` answers the bool of a node."""
    entry = array[ask(0)]
    while entry > 0:
        entry = array[entry + ask(entry // 2)]
    return -entry


def way(array, leaf):
    """The nodes on the way to a leaf, and the bool that leaves each."""
    steps, entry = [], -leaf
    while True:
        place = array.index(entry)
        steps.append((place // 2, place % 2))
        if place < 2:
            return steps[::-1]
        entry = place - place % 2
