#!/usr/bin/env python3
"""Tries the wrong bodies of wrong/CRATE/*.edit: the prover has to refuse each.

    tools/try_wrong.py [CRATE..]     those of these crates, or all
    tools/try_wrong.py --changed     those of each crate that changed since they were refused, and what was never tried
    tools/try_wrong.py --stale       tries nothing: tells these, by its status too
    --in DIR                         in this clone of what is committed, which may hold built libraries, and not in one of its own: one run at a time there

It works in a clone of what is committed, crate by crate. Most are tried some at a time (wrong_rounds.py); what that leaves undecided is put into
must-fail/ there, and the kit's gate is run for the crate alone. Proofs are taken from earlier checks on this machine where they stand. What was refused
is kept in wrong/REFUSED.tsv, with the sum of the crate's src/, specs/ and proofs/, comments apart, and of the edit.
"""
import datetime
import hashlib
import os
import re
import shutil
import subprocess
import sys
import tempfile
import time

import wrong_rounds

TOP = os.path.dirname(os.path.dirname(os.path.abspath(__file__)))
REFUSED = f"{TOP}/wrong/REFUSED.tsv"
SAID = re.compile(r"must-fail (\w+)/(\S+)\.edit: (refused|BAD EDIT|NOT REFUSED|NOT TRIED)(.*)")


def sum_of(*files):
    """Returns a sum of files, by name and content, without lines that are comments alone."""
    found = hashlib.sha256()
    for file in files:
        with open(file, "rb") as it:
            lines = [line for line in it.read().split(b"\n") if not line.strip().startswith((b"//", b"--"))]
        found.update(repr((os.path.relpath(file, TOP), lines)).encode())
    return found.hexdigest()[:16]


def crate_sum(name):
    parts = [f"{TOP}/crates/{name}/{part}" for part in ("src", "specs", "proofs")]
    return sum_of(*sorted(f"{at}/{file}" for part in parts for at, _, files in os.walk(part) for file in files))


def edits():
    """Returns the wrong bodies by crate and name, each with its sum."""
    found = {}
    for crate in sorted(os.listdir(f"{TOP}/wrong")):
        if os.path.isdir(f"{TOP}/wrong/{crate}"):
            for file in sorted(os.listdir(f"{TOP}/wrong/{crate}")):
                if file.endswith(".edit"):
                    found[crate, file[:-5]] = sum_of(f"{TOP}/wrong/{crate}/{file}")
    return found


def refused():
    """Returns what was refused: the sums and the day, by crate and name."""
    if not os.path.isfile(REFUSED):
        return {}
    with open(REFUSED, encoding="utf-8") as it:
        rows = [line.rstrip("\n").split("\t") for line in it][1:]
    return {(crate, name): (of_crate, of_edit, day) for crate, name, of_crate, of_edit, day in rows}


def write_refused(known):
    with open(REFUSED, "w", encoding="utf-8") as out:
        print("crate", "edit", "sum of the crate", "sum of the edit", "refused on", sep="\t", file=out)
        for key, row in sorted(known.items()):
            print(*key, *row, sep="\t", file=out)


def tried_alone(clone, some):
    """Puts these wrong bodies of a crate into a clone, runs the gate for the crate, and returns what it said of each."""
    crates = sorted({crate for crate, _ in some})
    put = [f"{clone}/crates/{crate}/must-fail/{name}.edit" for crate, name in some]
    for (crate, name), to in zip(some, put):
        os.makedirs(os.path.dirname(to), exist_ok=True)
        shutil.copy(f"{TOP}/wrong/{crate}/{name}.edit", to)
    ran = subprocess.Popen(["rt", "ci", *crates], cwd=clone, stdout=subprocess.PIPE, stderr=subprocess.STDOUT, text=True, errors="replace")
    found = {}
    for line in ran.stdout:
        told = SAID.search(line)
        if told and (told[1], told[2]) in some:
            found[told[1], told[2]] = told[3], told[4]
            if told[3] != "refused" or "only because a proof file names" in told[4]:
                print(line.rstrip()[:300], flush=True)
        elif line.startswith("rt:") and re.search(r"NOT PROVED|passed,|cannot", line):
            print(line.rstrip()[:300], flush=True)
    ran.wait()
    for it in put:
        os.remove(it)
    return found


def tried(clone, crate, some):
    """Tries these wrong bodies of a crate in a clone, and returns what became of each."""
    files = {name: f"{TOP}/wrong/{crate}/{name}.edit" for _, name in some}
    found = {(crate, name): ("refused", "") for name in wrong_rounds.tried(crate, f"{clone}/crates/{crate}", files)}
    left = {key for key in some if key not in found}
    print(f"{crate}: {len(found)} refused in rounds, {len(left)} to be tried alone", flush=True)
    if left:
        found.update(tried_alone(clone, left))
    return found


def main():
    words = sys.argv[1:]
    place = words.pop(words.index("--in") + 1) if "--in" in words else None
    words = [it for it in words if it != "--in"]
    flags, names = [it for it in words if it.startswith("-")], [it for it in words if not it.startswith("-")]
    every, known = edits(), refused()
    if [it for it in flags if it not in ("--changed", "--stale")] or [it for it in names if not any(crate == it for crate, _ in every)]:
        sys.exit(__doc__)
    sums = {crate: crate_sum(crate) for crate, _ in every}
    stale = [key for key, own in every.items() if known.get(key, ("", ""))[:2] != (sums[key[0]], own)]
    gone = [key for key in known if key not in every]
    if "--stale" in flags:
        for crate, name in stale:
            print(f"{crate}/{name}: {'changed since it was refused' if (crate, name) in known else 'never tried'}")
        sys.exit(1 if stale else 0)
    some = [key for key in (stale if "--changed" in flags else every) if not names or key[0] in names]
    if not some:
        print("nothing to try: each was refused as it stands")
        return
    changed = subprocess.run(["git", "status", "--porcelain", "crates", "crates.txt"], cwd=TOP, capture_output=True, text=True).stdout
    if changed:
        sys.exit("crates/ has changes that aren't committed, and the clone would not have them: commit them first")
    begun, today = time.time(), datetime.date.today().isoformat()
    found = {}
    # Crate by crate: what a run has come to stands, even if it is ended then.
    for crate in sorted({crate for crate, _ in some}):
        with tempfile.TemporaryDirectory(prefix="vp9dec-wrong-") as room:
            if not place:
                subprocess.run(["git", "clone", "-q", TOP, f"{room}/clone"], check=True)
            told = tried(place or f"{room}/clone", crate, {key for key in some if key[0] == crate})
        found.update(told)
        # (another run may have written it meanwhile)
        known = refused()
        for key in gone:
            known.pop(key, None)
        for key, (what, _) in told.items():
            if what == "refused":
                known[key] = sums[crate], every[key], today
            else:
                known.pop(key, None)
        write_refused(known)
    failed = [key for key in some if found.get(key, ("", ""))[0] != "refused"]
    for crate, name in failed:
        print(f"{crate}/{name}: {found.get((crate, name), ('no word of it',))[0]}")
    print(f"{len(some) - len(failed)} of {len(some)} wrong bodies refused, {(time.time() - begun) / 60:.1f} minutes")
    sys.exit(1 if failed else 0)


main()
