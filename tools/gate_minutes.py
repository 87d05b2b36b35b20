#!/usr/bin/env python3
"""Runs a command of the kit, and tells the processor minutes of each crate's proof, tests and wrong bodies.

    tools/gate_minutes.py OUT.tsv [--every SECONDS] -- rt ci --anew

The whole is what the system counted for the command and all that it started. The shares are of a sampling of the processes: each one's time as
it was last seen, so up to --every seconds (0.2 if not said) of each process are missing there.
"""
import collections
import os
import re
import resource
import subprocess
import sys
import time

TICKS = os.sysconf("SC_CLK_TCK")
KINDS = ("proof", "tests", "edits", "other")
# What no process says a crate of.
OTHER = ("-", "other")


def text_of(path):
    """Returns what a file of /proc holds, or nothing where its process has ended."""
    try:
        with open(path, "rb") as it:
            return it.read().decode(errors="replace")
    except OSError:
        return ""


def work_of(pid, words):
    """Returns the crate that a process works on, and at what."""
    named = re.search(r"\0--crate-name\0([^\0]+)", words)
    try:
        room = os.readlink(f"/proc/{pid}/cwd")
    except OSError:
        return None
    if not named:
        return None
    if "rt-edit-" in room or "/rt-plant" in room:
        return named[1], "edits"
    is_test = re.search(r"\0--tests?(\0|$)", words) or named[1].endswith("_tests") and "\0--extern\0" + named[1] not in words and "/out/" in words
    return named[1], "tests" if is_test else "proof"


def work_behind(pid, top, parents):
    """Returns what a process works on, which may be said by the one that started it."""
    while pid != top:
        found = work_of(pid, text_of(f"/proc/{pid}/cmdline"))
        if found:
            return found
        pid = parents.get(pid, top)
    return OTHER


def looked(top, seen):
    """Notes the time of each process below the first as it is now."""
    parents, found = {}, {}
    for pid in filter(str.isdigit, os.listdir("/proc")):
        fields = text_of(f"/proc/{pid}/stat").rpartition(")")[2].split()
        if len(fields) > 13:
            parents[int(pid)] = int(fields[1])
            found[int(pid)] = (int(fields[11]) + int(fields[12]), int(fields[19]))
    for pid, (ticks, start) in found.items():
        at = pid
        while at in parents and at != top:
            at = parents[at]
        if at != top or pid == top:
            continue
        key = (pid, start)
        known = seen.get(key, (OTHER, 0))[0]
        seen[key] = (work_behind(pid, top, parents) if known == OTHER else known, ticks)


def main():
    own, _, command = " ".join(sys.argv[1:]).partition(" -- ")
    words = own.split()
    if not words or not command:
        sys.exit(__doc__)
    every = float(words[words.index("--every") + 1]) if "--every" in words else 0.2
    seen, begun = {}, time.time()
    run = subprocess.Popen(command.split())
    while run.poll() is None:
        looked(run.pid, seen)
        time.sleep(every)
    used = resource.getrusage(resource.RUSAGE_CHILDREN)
    minutes = collections.defaultdict(lambda: dict.fromkeys(KINDS, 0.0))
    for (crate, kind), ticks in seen.values():
        minutes[crate][kind] += ticks / TICKS / 60
    whole = {kind: sum(it[kind] for it in minutes.values()) for kind in KINDS}
    with open(words[0], "w", encoding="utf-8") as out:
        print("crate", *KINDS, "all", sep="\t", file=out)
        for crate, it in sorted(minutes.items(), key=lambda it: -sum(it[1].values())):
            print(crate, *(f"{it[kind]:.2f}" for kind in KINDS), f"{sum(it.values()):.2f}", sep="\t", file=out)
        print("all of these", *(f"{whole[kind]:.1f}" for kind in KINDS), f"{sum(whole.values()):.1f}", sep="\t", file=out)
    print(f"{command}: status {run.returncode}, {(time.time() - begun) / 60:.1f} minutes on {os.cpu_count()} cores,"
          f" {(used.ru_utime + used.ru_stime) / 60:.1f} processor minutes: {words[0]}")
    sys.exit(run.returncode)


main()
