#!/usr/bin/env python3
"""Prints the tables of a layer's C part: of adapt, modes and tokens from the sources of crates/vp9_tables, of transforms the DCTs of 8 and
of 32 by their flows, straight, one list at a time, with the test of each stored value. Nothing for another layer.

usage: bench/tables.py LAYER
"""
import pathlib
import re
import sys

TOP = pathlib.Path(__file__).resolve().parent.parent
KINDS = ["TX8", "TX16", "TX32", "COEF", "SKIP", "INTER_MODE", "FILTER", "IS_INTER", "COMP_FLAG", "SINGLE_REF", "COMP_REF", "Y_MODE",
         "UV_MODE", "PARTITION", "MV_JOINT", "MV_SIGN", "MV_CLASS", "MV_CLASS0", "MV_BITS", "MV_CLASS0_FR", "MV_FR", "MV_CLASS0_HP", "MV_HP"]
# the statics that are printed, by the module that has them
WANTED = {
    "modes": {"defaults": "PROB_(?!COEF)", "motion": "", "trees": "", "blocks": "BLOCK_SIZES|SIZE_GROUP"},
    "tokens": {"defaults": "PROB_COEF", "coefficients": "(PARETO|COEF_BAND_4X4|COEF_BAND_LARGE|ENERGY_CLASS)$", "scans": "", "neighbours": ""},
}


def statics(module):
    """The numbers of each static of a module."""
    text = (TOP / f"crates/vp9_tables/src/data/{module}.rt").read_text()
    return {name: re.findall(r"-?\d+", body) for name, body in re.findall(r"pub static (\w+): [^=]+= (\[.*?\]);", text, re.S)}


def array(kind, name, numbers):
    print(f"static const {kind} {name}[{len(numbers)}] = {{{','.join(numbers)}}};")


def wanted(layer):
    for module, names in WANTED[layer].items():
        for name, numbers in statics(module).items():
            if re.match(names, name):
                small = "int8_t" if any(n[0] == "-" for n in numbers) else "uint8_t"
                array("uint16_t" if layer == "tokens" else small, name, numbers)


def adapt():
    defaults = statics("defaults")
    array("uint8_t", "DEFAULTS", [number for kind in KINDS for number in defaults[f"PROB_{kind}"]])


def dct(n, steps):
    print(f"static int dct_{n}(int32_t *t, int32_t limit) {{")
    print("    int64_t x, y;\n    int bad = 0;")
    print("    int32_t " + ", ".join(f"v{i} = t[{i}]" for i in range(n)) + ";")
    place = list(range(n))
    for kind, k in steps:
        if kind == "perm":
            place = [place[i] for i in k]
            continue
        a, b = place[k[0]], place[k[1]]
        if kind == "rot":
            angle, right = k[2], (k[2] + 96) % 128
            print(f"    x = (int64_t)v{a} * COS({angle}) - (int64_t)v{b} * COS({right});")
            print(f"    y = (int64_t)v{a} * COS({right}) + (int64_t)v{b} * COS({angle});")
            print(f"    v{a} = (x + 8192) >> 14; v{b} = (y + 8192) >> 14;")
        elif kind == "sum":
            print(f"    x = v{a} + v{b}; y = v{a} - v{b}; v{a} = x; v{b} = y;")
        else:
            sys.exit(f"no step {kind}")
        print(f"    bad |= MISFIT(v{a}) | MISFIT(v{b});")
    for i in range(n):
        print(f"    t[{i}] = v{place[i]};")
    print("    return bad;\n}\n")


def transforms():
    sys.path.insert(0, str(TOP / "tools"))
    from vp9model.tables import flows
    for n in (8, 32):
        dct(n, flows()["DCT", n])


def main():
    layer = sys.argv[1]
    if layer in WANTED:
        wanted(layer)
    elif layer == "adapt":
        adapt()
    elif layer == "transforms":
        transforms()


main()
