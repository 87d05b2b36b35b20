#!/usr/bin/env python3
"""Checks docs/DEFINITIONS.md line by line: each file that a row names is there, and each word of the row stands in one of its files.

    tools/check_definitions.py     tells what isn't so, and by its status whether all is

A row names files as `crate/specs/File.antt`, and further ones of the same crate as `File.antt`; a folder as `crate/specs`; in the tables of syntax the head of
the last column names the crate. In these the first column has the standard's words, which need not be ours.
"""
import glob
import os
import re
import sys

TOP = os.path.dirname(os.path.dirname(os.path.abspath(__file__)))
PATH = re.compile(r"`(\w+)/specs/(\w+)\.antt`|`(\w+)\.antt`|`(\w+)/specs/?`")
WORD = re.compile(r"`([A-Za-z_]\w*)`")


def files_of(row, crate):
    """Returns the files that a row names, those without a crate as the last crate's before them."""
    found = []
    for by_path, file, alone, folder in PATH.findall(row):
        crate = by_path or folder or crate
        if folder:
            found += sorted(glob.glob(f"{TOP}/crates/{folder}/specs/*.antt"))
        else:
            found.append(f"{TOP}/crates/{crate}/specs/{file or alone}.antt")
    return found


def faults(row, crate):
    """Returns what isn't so in a row."""
    later = re.search(r"\.antt` of `(\w+)/specs`", row)
    files = files_of(row, later[1] if later else crate)
    missing = [file for file in files if not os.path.isfile(file)]
    text = "".join(open(file, encoding="utf-8").read() for file in files if file not in missing)
    said = row.split("|", 2)[2] if crate else row
    words = [word for word in WORD.findall(said) if not os.path.isdir(f"{TOP}/crates/{word}")]
    absent = [word for word in words if files and not re.search(rf"(?<![\w-]){word}(?![\w-])", text)]
    return [f"no file {os.path.relpath(file, TOP)}" for file in missing] + [f"`{word}` stands in none of its files" for word in absent]


def main():
    crate, count = None, 0
    with open(f"{TOP}/docs/DEFINITIONS.md", encoding="utf-8") as it:
        for number, row in enumerate(it, 1):
            if row.startswith("#"):
                crate = None
            elif head := re.search(r"file of `(\w+)/specs`", row):
                crate = head[1]
            elif row.startswith("|"):
                for fault in faults(row, crate):
                    print(f"docs/DEFINITIONS.md:{number}: {fault}")
                    count += 1
    sys.exit(1 if count else 0)


main()
