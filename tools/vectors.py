#!/usr/bin/env python3
"""Writes the test data of a layer to where it stands, or says whether that is current.

usage: tools/vectors.py LAYER.. [--check]      all layers where none is named, with --check
       tools/vectors.py --list                 the layers and their files
       tools/vectors.py LAYER --files FOLDER   streams of `overflow` or `grey`, for other decoders

The data comes from `tools/vp9model`, never from the program. What is written is laid out by `rt fmt`, which has to be there; --check needs
Python alone: it compares without layout, tells what isn't current, and ends with status 1 where something isn't.
"""
import argparse
import os
import pathlib
import subprocess
import sys

from layers import adaptation, blocks, bools, filter, headers, items, listed, modes, prediction, runs, tables, tokens, transforms

CRATES = pathlib.Path(__file__).resolve().parent.parent / "crates"

# Where the data of each layer stands: what makes it, the file, and whether all constants of the file are of it.
WHOLE, PARTS = True, False
TABLE = [
    ("bools", bools.reading, "reading_tests/src/bools.rt", PARTS),
    ("bool_writings", bools.writing, "writer_tests/src/bool_encoder_tests.rt", PARTS),
    ("bool_writings", bools.many, "writer_tests/src/odd_values_tests.rt", PARTS),
    ("tokens", tokens.small, "reading_tests/src/tokens/small_rows.rt", WHOLE),
    ("tokens", tokens.large, "reading_tests/src/tokens/large_rows.rt", WHOLE),
    ("token_writings", tokens.writings, "writer_tests/src/token_tests.rt", PARTS),
    ("residue_writings", tokens.residue_writings, "writer_tests/src/residue_tests.rt", PARTS),
    ("compressed_headers", headers.of_streams, "reading_tests/src/compressed/streams.rt", WHOLE),
    ("compressed_headers", headers.made, "reading_tests/src/compressed/made.rt", WHOLE),
    ("compressed_writings", headers.writings, "writer_tests/src/compressed_tests.rt", PARTS),
    ("adaptation", adaptation.rows, "reading_tests/src/adaptation/rows.rt", WHOLE),
    ("grids", blocks.grids, "reading_tests/src/geometry.rt", PARTS),
    ("candidates", blocks.candidates, "mode_tests/src/candidates.rt", PARTS),
    ("intra_modes", modes.intra_tiles, "mode_tests/src/modes.rt", PARTS),
    ("inter_modes", modes.inter_blocks, "mode_tests/src/inter_blocks.rt", PARTS),
    ("inter_modes", modes.vectors, "mode_tests/src/vectors.rt", PARTS),
    ("mode_writings", modes.mode_writings, "writer_tests/src/mode_tests.rt", PARTS),
    ("vector_writings", modes.vector_writings, "writer_tests/src/vector_tests.rt", PARTS),
    ("transforms", transforms.lists, "picture_tests/src/transforms/vectors.rt", WHOLE),
    ("residue", transforms.residues, "picture_tests/src/residues/vectors.rt", WHOLE),
    ("intra", prediction.intra_rows, "picture_tests/src/intra/rows.rt", WHOLE),
    ("intra", prediction.intra_extreme, "picture_tests/src/intra/extreme_rows.rt", WHOLE),
    ("intra", prediction.intra_drawn, "picture_tests/src/intra/drawn_rows.rt", WHOLE),
    ("inter", prediction.places, "picture_tests/src/places/rows.rt", WHOLE),
    ("inter", prediction.inter_blocks, "picture_tests/src/inter/rows.rt", WHOLE),
    ("filter", filter.pictures, "picture_tests/src/filter/rows.rt", WHOLE),
    ("listed", listed.rows, "stream_tests/src/listed_frames_tests/rows.rt", WHOLE),
    ("listed", listed.rows_of_vectors, "stream_tests/src/listed_frames_tests/rows_of_vectors.rt", WHOLE),
    ("runs", runs.listings, "run_tests/src/vp9_app_tests/rows/list.rt", WHOLE),
    ("runs", runs.intra_decode, "run_tests/src/vp9_app_tests/rows/intra_decode.rt", PARTS),
    ("runs", runs.inter_decode, "run_tests/src/vp9_app_tests/rows/inter_decode.rt", PARTS),
    ("runs", runs.long_runs, "run_tests/src/vp9_app_tests/rows/long_runs.rt", WHOLE),
    ("overflow", runs.overflow, "run_tests/src/vp9_app_tests/rows/overflow_frames.rt", WHOLE),
    ("grey", runs.least_grey, "run_tests/src/files.rt", PARTS),
    ("grey", runs.grey, "run_tests/src/sizes.rt", PARTS),
    ("grey", runs.odd_grey, "run_tests/src/odd_values.rt", PARTS),
    ("tails", tables.tails, "coef_tokens/src/tails.rt", WHOLE),
] + [("tables", make, f"vp9_tables/src/data/{module}.rt", WHOLE) for module, make in tables.MODULES.items()]
FILES = {"overflow": runs.overflow_files, "grey": runs.grey_files}
LAYERS = {layer: [row[1:] for row in TABLE if row[0] == layer] for layer, *_ in TABLE}


def check(layer):
    """How many files aren't current."""
    stale = 0
    for make, name, whole in LAYERS[layer]:
        path = CRATES / name
        told = items.differences(path.read_text(), make(), whole) if path.is_file() else ["isn't there"]
        for line in told:
            print(f"{layer}: {name}: {line}")
        stale += bool(told)
    if not stale:
        print(f"{layer}: current")
    return stale


def write(layers):
    """How many files can't be written. `rt fmt` lays out each crate that has one."""
    failed, old = 0, {}
    for layer, (make, name, whole) in ((layer, file) for layer in layers for file in LAYERS[layer]):
        path = CRATES / name
        if not path.is_file() and not whole:
            print(f"{layer}: {name}: isn't there")
            failed += 1
            continue
        old[name] = path.read_text() if path.is_file() else f"//! Written by tools/vectors.py {layer}.\n"
        path.parent.mkdir(parents=True, exist_ok=True)
        path.write_text(items.updated(old[name], make(), whole))
    for crate in sorted({name.split("/")[0] for name in old}):
        subprocess.run([os.environ.get("RT", "rt"), "fmt"], cwd=CRATES / crate, check=True, stdout=subprocess.DEVNULL)
    for name, text in old.items():
        print(f"{name}: {'as it was' if (CRATES / name).read_text() == text else 'written'}")
    return failed


def write_files(layer, folder):
    folder.mkdir(parents=True, exist_ok=True)
    for name, data in FILES[layer]():
        (folder / name).write_bytes(data)
    return 0


def main():
    words = argparse.ArgumentParser(usage=__doc__)
    words.add_argument("layers", nargs="*", metavar="LAYER")
    words.add_argument("--check", action="store_true")
    words.add_argument("--list", action="store_true")
    words.add_argument("--files", type=pathlib.Path)
    given = words.parse_args()
    unknown = [layer for layer in given.layers if layer not in LAYERS] + [layer for layer in given.layers if given.files and layer not in FILES]
    if unknown or not (given.layers or given.check or given.list):
        words.error(f"no such layer: {unknown[0]}" if unknown else "no layer is named")
    if given.list:
        for layer, files in LAYERS.items():
            print(f"{layer}: {', '.join(f'crates/{name}' for _, name, _ in files)}")
        return 0
    if given.files:
        return sum(write_files(layer, given.files) for layer in given.layers)
    return 1 if (sum(map(check, given.layers or LAYERS)) if given.check else write(given.layers)) else 0


if __name__ == "__main__":
    sys.exit(main())
