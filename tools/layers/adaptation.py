"""Adaptation: what `backward_adapt` makes of probabilities and counts. The counts of a frame are drawn as the test draws them."""
import random

from vp9model.adaptation import KINDS, RATES, adapt, defaults, merge_prob
from vp9model.draws import Draws, digest

from .items import item, struct

END = 2**64 - 1
SIZES = ("tx8", "tx16", "tx32")
COMPOUND = ("comp_flag", "comp_ref")


def drawn_counts(seed, uncoded):
    """Of each node of each kind two numbers; 0 for a kind that isn't coded."""
    draws, counts = Draws(seed), {}
    for kind, probs in defaults().items():
        drawn = [draws.byte() % 19 for _ in range(2 * len(probs))]
        counts[kind] = [(0, 0) if kind in uncoded else pair for pair in zip(drawn[::2], drawn[1::2])]
    return counts


def marks(contexts):
    """Digests of all kinds, of coefficients by transform size."""
    found = []
    for name in KINDS:
        probs = contexts[name]
        pieces = [probs[396 * n:396 * n + 396] for n in range(4)] if name == "coef" else [probs]
        found += [digest(piece, 2**32, 7) for piece in pieces]
    return found


def single_rows():
    """A probability, its counts and a rate."""
    draw = random.Random(8)
    rows = [(255, 0, END, "Coefs"), (1, END, 0, "Others"), (128, END, END, "CoefsAfterKey"), (7, 0, 0, "Others"), (1, 0, 0, "Coefs"),
            (255, 0, 0, "CoefsAfterKey"), (200, 1, 0, "Coefs"), (200, 0, 1, "Others"), (3, 1, 511, "Others"), (3, 511, 1, "Others"),
            (1, 0, 20, "Others"), (255, 20, 0, "Others"), (1, 0, 24, "CoefsAfterKey"), (255, 24, 0, "Coefs"), (90, 2**56, 3, "Coefs"),
            (90, END - 1, 2**63, "Others")]
    # at and about what saturates
    for rate in RATES:
        rows += [(60, n - 2, 2, rate) for n in (19, 20, 21, 23, 24, 25)]
    for _ in range(66):
        top = draw.choice([3, 12, 30, 1000, 2**32, END])
        rows.append((draw.randint(1, 255), draw.randint(0, top), draw.randint(0, top), draw.choice(list(RATES))))
    return rows


def frames():
    start = defaults()
    forward = adapt(start, start, drawn_counts(1, ()), (True, True, True, "chosen", True))
    second, uncoded = drawn_counts(2, ()), ("filter",) + SIZES + COMPOUND
    # what isn't coded isn't changed by the frame's header either
    changed = {name: start[name] if name in uncoded else forward[name] for name in KINDS}
    return {
        "FORWARD": forward,
        "INTRA": adapt(start, forward, second, None),
        "AFTER_KEY": adapt(start, forward, second, (True, True, True, "chosen", False)),
        "LATER": adapt(start, forward, second, (False, True, True, "chosen", True)),
        "FEW_CODED": adapt(start, changed, drawn_counts(3, uncoded), (False, False, False, "single", True)),
        "NOTHING_COUNTED": adapt(start, forward, drawn_counts(4, KINDS), (True, True, True, "chosen", False)),
    }


def rows():
    merged = [struct("Row", before=pre, zeros=zeros, ones=ones, rate=f"Rate::{rate}", after=merge_prob(pre, zeros, ones, rate))
              for pre, zeros, ones, rate in single_rows()]
    return [item("pub static", "MERGED", "Row", merged)] + [item("pub static", name, "u32", marks(found)) for name, found in frames().items()]
