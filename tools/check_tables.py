#!/usr/bin/env python3
"""Compares the tables in crates/vp9_tables/src/data with those of samples/tables, entry by entry.

usage: tools/check_tables.py
It shares nothing with `vectors.py tables`, which writes them, and reads the numbers of modes and sizes from crates/vp9_types.
"""
import math
import pathlib
import re
import sys

ROOT = pathlib.Path(__file__).resolve().parent.parent
FOLDER = ROOT / "samples" / "tables"
DATA = ROOT / "crates" / "vp9_tables" / "src" / "data"

# what no static of the crate holds, and why
LEFT_OUT = {
    "cat6_prob": "the last 14 of CAT6_PROB",
    "pareto_full": "its even rows are the means of PARETO's",
}
RENAMED = {
    "mode_2_counter": "MODE_COUNTERS",
    "idx_n_column_to_subblock": "SUBBLOCK_OF_NEIGHBOUR",
    "count_to_update_factor": "UPDATE_FACTOR",
    "cat6_prob_high12": "CAT6_PROB",
}


def statics():
    found = {}
    for file in sorted(DATA.glob("*.rt")):
        text = re.sub(r"//.*", "", file.read_text())
        for name, kind, body in re.findall(r"pub static (\w+):\s*(\[[^=]*\])\s*=\s*(\[.*?\]);", text, re.S):
            if name in found:
                sys.exit(f"{name} stands twice")
            found[name] = (kind, body)
    return found


def variants():
    """The number of each variant of the enums that tables hold."""
    text = (ROOT / "crates" / "vp9_types" / "src" / "block.rt").read_text()
    out = {}
    for enum, body in re.findall(r"pub enum (\w+) \{(.*?)\n\}", text, re.S):
        for number, variant in enumerate(re.findall(r"^\s*(\w+),", body, re.M)):
            out[f"{enum}::{variant}"] = number
    return out


NUMBERS = variants()


def value(word):
    if word in NUMBERS:
        return NUMBERS[word]
    return 13 if word == "None" else int(word)


def entries(body):
    return [value(word) for word in re.findall(r"-?\d+\b(?!x)|None|\w+::\w+", body)]


def shape(kind):
    return math.prod(int(number) for number in re.findall(r";\s*(\d+)\]", kind))


def sources():
    """The numbers of each plain table, by its name, which its first line begins with."""
    pieces = re.split(r"^# (\w+) .*\n", (FOLDER / "tables.txt").read_text(), flags=re.M)
    return {name: [int(word) for word in body.split()] for name, body in zip(pieces[1::2], pieces[2::2], strict=True)}


SOURCES = sources()


def wanted(name):
    values = SOURCES[name]
    if name.startswith("scan_neighbours_"):
        return values[:-2]
    if name == "prob_coef":
        used = []
        for place, entry in enumerate(values):
            band, context = place // 18 % 6, place // 3 % 6
            if band > 0 or context < 3:
                used.append(entry)
            elif entry != 0:
                sys.exit("prob_coef: an entry that isn't used is not 0")
        return used
    return values


def static_of(name):
    if name in RENAMED:
        return RENAMED[name]
    if name.startswith("scan_neighbours_"):
        return name.removeprefix("scan_").upper()
    return name.upper()


def flows_wanted():
    out = {}
    for line in (FOLDER / "flows.txt").read_text().splitlines():
        word, *rest = line.split()
        if word == "flow":
            rows = out["FLOW_" + "_".join(rest)] = []
        else:
            rows.append((word, [int(number) for number in rest]))
    return out


def flow_entries(name, body):
    rows = []
    size = int(name.rsplit("_", 1)[1])
    fields = {"Rot": "a b angle", "Sum": "a b", "Neg": "a", "Wide": "a b first_angle c d second_angle"}
    for word, inside in re.findall(r"FlowRow::(\w+)\s*[({](.*?)[)}]", body, re.S):
        if word == "Perm":
            places = [int(number) for number in re.findall(r"\d+", inside)]
            if len(places) != 32 or any(places[size:]):
                sys.exit(f"{name}: a permutation isn't filled up with zeros")
            rows.append(("perm", places[:size]))
        else:
            named = re.findall(r"(\w+):\s*(\d+)", inside)
            if [field for field, _ in named] != fields[word].split():
                sys.exit(f"{name}: fields of {word} in another order")
            rows.append((word.lower(), [int(number) for _, number in named]))
    return rows


def main():
    found = statics()
    tables = agreed = total = 0
    bad = []
    seen = set()

    def compare(name, ours, theirs):
        nonlocal tables, agreed, total
        tables += 1
        total += len(theirs)
        agreed += sum(a == b for a, b in zip(ours, theirs))
        seen.add(name)
        if ours != theirs:
            bad.append(name)

    for name in sorted(set(SOURCES) - set(LEFT_OUT)):
        static = static_of(name)
        if static not in found:
            sys.exit(f"no static {static} for {name}")
        kind, body = found[static]
        ours = entries(body)
        if len(ours) != shape(kind):
            sys.exit(f"{static}: {len(ours)} entries read, its type has {shape(kind)}")
        compare(static, ours, wanted(name))
    for static, rows in flows_wanted().items():
        compare(static, flow_entries(static, found[static][1]), rows)

    # what stands in no file
    circle = [round(16384 * math.cos(k * math.pi / 64)) for k in range(128)]
    compare("COSINES", entries(found["COSINES"][1]), circle)
    for most, static in enumerate(["TREE_TX8", "TREE_TX16", "TREE_TX32"], 1):
        unary = [entry for size in range(most) for entry in (-size, 2 * size + 2)]
        unary[-1] = -most
        compare(static, entries(found[static][1]), unary)
    if entries(found["COS64"][1]) != circle[:33]:
        bad.append("COS64 against the cosine")
    sines = [round(16384 * 2 * math.sqrt(2) / 3 * math.sin(k * math.pi / 9)) for k in range(1, 5)]
    if entries(found["SINPI"][1]) != sines:
        bad.append("SINPI against the sine")
    if SOURCES["cat6_prob"] != entries(found["CAT6_PROB"][1])[4:]:
        bad.append("cat6_prob")
    full = SOURCES["pareto_full"]
    if [full[16 * row:16 * row + 8] for row in range(128)] != [entries(row) for row in re.findall(r"\[([\d, \n]+)\]", found["PARETO"][1][1:])]:
        bad.append("PARETO against its full table")

    for static in sorted(set(found) - seen):
        bad.append(f"{static}, which no table gives")
    print(f"{tables - len(set(bad) & seen)} of {tables} tables agree, {agreed} of {total} entries; left out: {', '.join(sorted(LEFT_OUT))}")
    for name in bad:
        print(f"differs: {name}")
    return 1 if bad else 0


if __name__ == "__main__":
    sys.exit(main())
