#!/usr/bin/env python3
"""Makes the table of crates in docs/ARCHITECTURE.md: what each is, by the head of its root file, and what it stands on, by crates.txt.

    tools/crate_table.py             writes it
    tools/crate_table.py --check     tells by its status whether it is current

A comment of crates.txt that begins with `## ` begins a part of the table. Of the libraries that a crate uses those are left out that stand below
another one of them.
"""
import pathlib
import sys

TOP = pathlib.Path(__file__).resolve().parent.parent
PAGE = TOP / "docs/ARCHITECTURE.md"
BEGIN, END = "<!-- made by tools/crate_table.py -->\n", "<!-- end of what is made -->\n"


def listed():
    """Returns the parts of crates.txt: a title, and crates with the libraries that they use."""
    parts = []
    for line in (TOP / "crates.txt").read_text().splitlines():
        if line.startswith("## "):
            parts.append((line[3:].strip(), {}))
        elif ":" in line and not line.startswith("#"):
            head, used = line.split("#")[0].split(":", 1)
            parts[-1][1][head.split()[0]] = used.split()
    return parts


def below(known, name):
    return {it for one in known.get(name, ()) for it in (one, *below_once(known, one))}


def below_once(known, name, seen={}):
    if name not in seen:
        seen[name] = below(known, name)
    return seen[name]


def said(name):
    """Returns the head of the crate's root file, in one line."""
    root = next(it for it in (TOP / f"crates/{name}/src/{file}.rt" for file in ("lib", "main")) if it.is_file())
    lines = [line[3:].strip() for line in root.read_text().split("\n#!")[0].splitlines() if line.startswith("//!")]
    return " ".join(lines)


def table():
    parts = listed()
    known = {name: used for _, crates in parts for name, used in crates.items()}
    rows = []
    for title, crates in parts:
        rows += [f"### {title}", "", "| crate | what it is | stands on |", "|---|---|---|"]
        for name, used in crates.items():
            near = [it for it in used if not any(it in below_once(known, other) for other in used)]
            rows.append(f"| `{name}` | {said(name)} | {', '.join(f'`{it}`' for it in near)} |")
        rows.append("")
    return "\n".join(rows) + "\n"


def main():
    page = PAGE.read_text()
    before, rest = page.split(BEGIN)
    made = before + BEGIN + "\n" + table() + END + rest.split(END)[1]
    if sys.argv[1:] == ["--check"]:
        sys.exit(0 if made == page else "docs/ARCHITECTURE.md has another table than crates.txt and the crates' heads make: tools/crate_table.py")
    if len(sys.argv) > 1:
        sys.exit(__doc__)
    PAGE.write_text(made)


main()
