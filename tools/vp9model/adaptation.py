"""Adaptation of probabilities (8.4.2 to 8.4.4), with its tests on what a frame codes."""
from .tables import coefficients, table

# in the order of the counts
KINDS = ["tx8", "tx16", "tx32", "coef", "skip", "inter_mode", "filter", "is_inter", "comp_flag", "single_ref", "comp_ref",
         "y_mode", "uv_mode", "partition", "mv_joint", "mv_sign", "mv_class", "mv_class0", "mv_bits", "mv_class0_fr", "mv_fr",
         "mv_class0_hp", "mv_hp"]
RATES = {"Coefs": (24, 112), "CoefsAfterKey": (24, 128), "Others": (20, 128)}


def defaults():
    found = {kind: coefficients() if kind == "coef" else table("prob_" + kind) for kind in KINDS}
    assert sum(map(len, found.values())) == 1895
    return found


def merge_prob(pre, zeros, ones, rate):
    sat, most = RATES[rate]
    den = zeros + ones
    prob = 128 if den == 0 else min(255, max(1, (zeros * 256 + (den >> 1)) // den))
    factor = most * min(den, sat) // sat
    return (pre * (256 - factor) + prob * factor + 128) >> 8


def adapted(frame):
    """The kinds that are adapted, and their rates. A frame is None, an intra frame, or (after a key frame, switchable filters,
    chosen sizes, references, high precision)."""
    if frame is None:
        return {"coef": "Coefs"}
    after_key, switchable, chosen, references, precise = frame
    names = ["is_inter", "inter_mode", "y_mode", "uv_mode", "partition", "skip"]
    names += ["comp_flag"] * (references == "chosen") + ["comp_ref"] * (references != "single")
    names += ["single_ref"] * (references != "compound") + ["filter"] * switchable
    names += ["tx8", "tx16", "tx32"] * chosen
    names += ["mv_joint", "mv_sign", "mv_class", "mv_class0", "mv_bits", "mv_class0_fr", "mv_fr"]
    names += ["mv_class0_hp", "mv_hp"] * precise
    return {"coef": "CoefsAfterKey" if after_key else "Coefs"} | dict.fromkeys(names, "Others")


def adapt(pre, now, counts, frame):
    """`now` are the frame's own probabilities, which those keep that aren't adapted."""
    after = {name: list(probs) for name, probs in now.items()}
    for name, rate in adapted(frame).items():
        after[name] = [merge_prob(p, zeros, ones, rate) for p, (zeros, ones) in zip(pre[name], counts[name])]
    return after
