#!/usr/bin/env python3
"""Compares what the rows of drawn streams expect, which no table of samples/rows has, with what `vpxdec` writes of them.

usage: tools/check_drawn_rows.py
"""
import ast
import pathlib
import re
import subprocess
import sys
import tempfile

from layers.items import STRING
from layers.runs import worked_rows
from vp9model.tables import TOP

FOLDER = TOP / "crates/run_tests/src/vp9_app_tests/rows"
FILES = ["drawn_streams.rt", "inter_decode.rt"]
ROW = re.compile(rf'\bRow {{\s*name: ({STRING}),\s*words: &\[[^]]*\],\s*input: ({STRING}),\s*status: (\d+),\s*output: ({STRING}),', re.S)


def bytes_of(literal):
    """The bytes of a byte string of Rattle: it may have breaks, and `\\0` before a digit."""
    return ast.literal_eval(re.sub(r"\\(\\|0)", lambda m: m[0] if m[1] == "\\" else "\\x00", literal.replace("\\\n", "")))


def decoded(data):
    with tempfile.TemporaryDirectory() as scratch:
        file = pathlib.Path(scratch, "stream.ivf")
        file.write_bytes(data)
        return subprocess.run(["vpxdec", "--rawvideo", "-o", "-", file], capture_output=True, check=True).stdout


def main():
    worked = {row["name"] for row in worked_rows("decode", "more_decode")}
    rows = [row for name in FILES for row in ROW.findall((FOLDER / name).read_text()) if ast.literal_eval(row[0]) not in worked]
    other = [name for name, stream, status, output in rows if status != "0" or decoded(bytes_of(stream)) != bytes_of(output)]
    for name in other:
        print(f"{name}: vpxdec writes other bytes")
    print(f"{len(rows) - len(other)} of {len(rows)} agree")
    return 1 if other or not rows else 0


sys.exit(main())
