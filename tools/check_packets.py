#!/usr/bin/env python3
"""Reads the packets and frames of real streams, apart from the program, and compares the frames with their lists.

usage: tools/check_packets.py [FOLDER]       (samples/streams)

For each FILE.ivf of the folder FILE.list has a line for each frame with `size B` at its end. Prints each file's packets and the sum of
their payloads.
"""
import pathlib
import re
import sys

from vp9model.headers import frames, packets
from vp9model.tables import TOP


def main():
    folder = pathlib.Path(sys.argv[1]) if len(sys.argv) > 1 else TOP / "samples/streams"
    files = sorted(folder.glob("*.ivf"))
    if not files:
        sys.exit(f"no streams in {folder}: nothing was checked")
    for file in files:
        payloads = list(packets(file.read_bytes()))
        found = [len(frame) for payload in payloads for frame in frames(payload)]
        listed = [int(re.search(r" size (\d+)$", line)[1]) for line in file.with_suffix(".list").read_text().splitlines()]
        assert found == listed, f"{file.name}: {found} and not {listed}"
        print(f"{file.name}: {len(payloads)} packets of {sum(map(len, payloads))} bytes, {len(found)} frames")


main()
