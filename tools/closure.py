#!/usr/bin/env python3
"""Tells how much of crates/*/specs a reader of a command's contract has to believe: each definition that its words in
vp9_app/specs/Answers.antt lead to, and the types of the sources that these name.

    tools/closure.py                     a line for each command, and one for all of a run
    tools/closure.py --files COMMAND     the files that its definitions stand in, with their lines
    tools/closure.py --long LINES        the definitions of a run that have more lines

Lines are those of definitions and types, without comments, blank lines and imports; tables of numbers are counted by name alone. A word of a definition counts
as what its file has or imports under that name, also where it names a field, so the count may be a little too high. What std, the kit's crates and the
prover's library define isn't counted.
"""
import collections
import functools
import os
import re
import sys

TOP = os.path.dirname(os.path.dirname(os.path.abspath(__file__)))
ANSWERS = "vp9_app.specs.Answers"
COMMANDS = {
    "decode": ("DecodesSo", "Reports"),
    "list": ("list_output", "Reads", "Reports"),
    "make": ("Makes", "Unread", "Reports"),
    "trial": ("Trials", "Unread", "Reports"),
    "a run": ("Runs",),
}
# where the tables of numbers stand
TABLES = "crates/vp9_tables/src/data"
HEAD = re.compile(r"(?:unfoldable\s+|abbrev\s+|pub\s+|record\s+|data\s+)*([^\s:]+)")
WORDS = re.compile(r"[^\s(){}\[\],;]+")
USE = re.compile(r"use Rattle\.([\w.]+?)(?:\.\{(.*)\}| as (\S+))?$")


def own_path(path):
    """Returns the path that the library itself writes, of one that another library passes on: MID.specs.LOW.Grid is LOW.specs.Grid."""
    parts = path.split(".")
    while len(parts) > 2 and os.path.isdir(f"{TOP}/crates/{parts[2]}"):
        parts = [parts[2], parts[1], *parts[3:]]
    return ".".join(parts)


class Module:
    """A file of definitions: the lines of each, and what each name that it imports stands for."""

    def __init__(self, path):
        self.path, self.lines, self.names, self.aliases = path, collections.defaultdict(list), {}, {}
        name = None
        with open(f"{TOP}/{path}", encoding="utf-8") as it:
            for line in map(str.rstrip, it):
                if line.startswith("use "):
                    self.read_use(line)
                elif line.startswith(("mutual", "infix")) or not line or line.lstrip().startswith("--"):
                    continue
                else:
                    if not line[0].isspace():
                        name = HEAD.match(line)[1]
                    self.lines[name].append(line)

    def read_use(self, line):
        found = USE.match(line)
        if not found:
            return
        module, some, alias = found.groups()
        module = own_path(module)
        if alias:
            self.aliases[alias] = module
        for one in re.split(r",\s*", some or ""):
            name, _, own = one.partition(" as ")
            self.names[own or name] = (module, name)


@functools.cache
def module(name):
    path = f"crates/{name.replace('.', '/')}.antt"
    return Module(path) if os.path.isfile(f"{TOP}/{path}") else None


@functools.cache
def declared(name):
    """Returns the file and the lines of a type of the sources, by the module that stands for it: CRATE.specs.declared.FILE.TYPE."""
    crate, _, _, *at = name.split(".")
    path, type_name = f"crates/{crate}/src/{'/'.join(at[:-1])}.rt", at[-1]
    if not os.path.isfile(f"{TOP}/{path}"):
        return None
    with open(f"{TOP}/{path}", encoding="utf-8") as it:
        lines = it.read().split("\n")
    first = next((k for k, line in enumerate(lines) if re.match(rf"pub(\([a-z]+\))? (struct|enum) {type_name}\b", line)), None)
    if first is None:
        return None
    last = first if lines[first].endswith((";", "}")) else next(k for k in range(first, len(lines)) if lines[k].startswith("}"))
    return path, [line for line in lines[first : last + 1] if not line.strip().startswith("//")]


def named_in(here, line):
    """Returns what a line of a definition names: pairs of module and name."""
    for word in WORDS.findall(line.split(" -- ")[0]):
        parts = word.split(".")
        if parts[0] in here.aliases and len(parts) > 1:
            yield here.aliases[parts[0]], parts[1]
        for part in parts:
            if part in here.lines:
                yield here.path.removeprefix("crates/").removesuffix(".antt").replace("/", "."), part
            elif part in here.names:
                yield here.names[part]


def closure(roots):
    """Returns the lines of all that these definitions lead to, by file and name. A table of numbers is a name without lines."""
    answers = module(ANSWERS)
    found, left = {}, [answers.names.get(name, (ANSWERS, name)) for name in roots]
    while left:
        at, name = left.pop()
        if at.endswith(".TheConstants"):
            found[TABLES, name] = 0
        elif ".specs.declared." in f"{at}.":
            told = declared(at.removesuffix(".TheVariants"))
            if told:
                found[told[0], at.removesuffix(".TheVariants").split(".")[-1]] = len(told[1])
        else:
            here = module(at)
            if here and name in here.lines and (here.path, name) not in found:
                found[here.path, name] = len(here.lines[name])
                left += [it for line in here.lines[name] for it in named_in(here, line)]
    return found


def main():
    words = sys.argv[1:]
    if not words:
        for command, roots in COMMANDS.items():
            found = closure(roots)
            tables = sum(path == TABLES for path, _ in found)
            files = {path for path, _ in found} - {TABLES}
            print(f"{command}: {len(found) - tables} definitions and types in {len(files)} files, {sum(found.values())} lines, and {tables} tables")
    elif words[0] == "--files" and words[1:] and words[1] in COMMANDS:
        lines = collections.Counter()
        for (path, _), count in closure(COMMANDS[words[1]]).items():
            lines[path] += count
        for path, count in sorted(lines.items()):
            print(count, path)
    elif words[0] == "--long" and words[1:] and words[1].isdigit():
        for (path, name), count in sorted(closure(COMMANDS["a run"]).items(), key=lambda it: -it[1]):
            if count > int(words[1]):
                print(count, path, name)
    else:
        sys.exit(__doc__)


main()
