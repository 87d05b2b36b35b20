"""Pseudo-random numbers, as the tests draw them too: linear congruential generators."""


class Draws:
    """One of 32 bits."""

    MULTIPLIER, INCREMENT, BITS = 1664525, 1013904223, 32

    def __init__(self, seed):
        self.state = seed

    def next(self):
        self.state = (self.state * self.MULTIPLIER + self.INCREMENT) % 2**self.BITS
        return self.state

    def half(self):
        return self.next() >> 16

    def below(self, n):
        return self.half() % n

    def byte(self):
        return self.next() >> 24

    def bytes(self, count):
        return [self.byte() for _ in range(count)]


class LongDraws(Draws):
    """One of 64 bits."""

    MULTIPLIER, INCREMENT, BITS = 6364136223846793005, 1442695040888963407, 64


class ShortDraws(Draws):
    """One of 31 bits."""

    MULTIPLIER, INCREMENT, BITS = 1103515245, 12345, 31


def digest(numbers, modulus, total=0):
    """A polynomial in 31 over numbers."""
    for number in numbers:
        total = (total * 31 + number) % modulus
    return total
