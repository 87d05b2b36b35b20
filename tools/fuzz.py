#!/usr/bin/env python3
"""Runs `vp9dec decode` on mutations of the streams of some folders, each of them twice: on one thread (`--plain`), and by so many workers with a
window as the seed says. A run has to end with status 0 or 3 within its time, never by a signal, and twice with the same bytes and the same note.
Prints what didn't, with the seed that makes the file again; the status is 0 where nothing differs.

usage: tools/fuzz.py [--count N] [--seed S] [--seconds T] [--limit BYTES] [--keep FOLDER] [--jobs J] FOLDER..

`VP9DEC` names the program, or else it is ./vp9dec. COUNT (20000) mutations are made, of streams up to LIMIT (40000) bytes; nothing is
begun behind T (3600) seconds. A run may take 60 seconds and 2 GB: want of memory, status 6, is counted by itself, since a header may
ask for any size.
"""
import argparse
import collections
import concurrent.futures
import hashlib
import os
import pathlib
import random
import resource
import subprocess
import time

MEMORY = 2 << 30
WEBM = b"\x1a\x45\xdf\xa3"
SECONDS = 60


def mutated(data, rng):
    """One to eight changes behind the file's header: a byte, a bit, a part left out, a part twice, the end cut off. Of a WebM file
    every second change is one of its first 600 bytes, where most elements are."""
    data = bytearray(data)
    is_webm = data.startswith(WEBM)
    first = 4 if is_webm else 32
    for _ in range(rng.choice([1, 1, 2, 3, 8])):
        if len(data) <= first + 1:
            break
        end = min(600, len(data)) if is_webm and rng.randrange(2) else len(data)
        at, kind = rng.randrange(first, end), rng.randrange(12)
        if kind < 5:
            data[at] = rng.randrange(256)
        elif kind < 9:
            data[at] ^= 1 << rng.randrange(8)
        elif kind == 9:
            del data[at : at + rng.randrange(1, 5)]
        elif kind == 10:
            data[at:at] = data[at : at + rng.randrange(1, 5)]
        else:
            del data[at:]
    return bytes(data)


def limits():
    resource.setrlimit(resource.RLIMIT_AS, (MEMORY, MEMORY))


def run(program, data, *options):
    try:
        done = subprocess.run([program, "decode", *options], input=data, capture_output=True, timeout=SECONDS, preexec_fn=limits)
    except subprocess.TimeoutExpired:
        return "no end", "", b""
    return done.returncode, hashlib.md5(done.stdout).hexdigest(), done.stderr


def tried(program, file, seed, keep):
    data = mutated(file.read_bytes(), random.Random(seed))
    first = run(program, data, "--plain")
    rng = random.Random(-seed)
    second = run(program, data, "--workers", str(rng.choice([1, 2, 4, 4, 16, 64])), "--window", str(rng.choice([2, 4, 4, 16])))
    # Frames at once take more memory than one, so where either lacks it, nothing is compared.
    wrong = first[0] not in (0, 3, 6) or second[0] not in (0, 3, 6) or (first != second and 6 not in (first[0], second[0]))
    if wrong and keep:
        (pathlib.Path(keep) / f"{file.stem}-{seed}{file.suffix}").write_bytes(data)
    return file, seed, first, second, wrong


def main():
    words = argparse.ArgumentParser(usage=__doc__)
    words.add_argument("--count", type=int, default=20000)
    words.add_argument("--seed", type=int, default=1)
    words.add_argument("--seconds", type=float, default=3600)
    words.add_argument("--limit", type=int, default=40000)
    words.add_argument("--keep")
    words.add_argument("--jobs", type=int, default=os.cpu_count())
    words.add_argument("folders", nargs="+", type=pathlib.Path)
    given = words.parse_args()
    top = pathlib.Path(__file__).resolve().parent.parent
    program = os.environ.get("VP9DEC", str(top / "vp9dec"))
    files = [f for folder in given.folders for f in sorted([*folder.glob("*.ivf"), *folder.glob("*.webm")]) if f.stat().st_size <= given.limit]
    assert files, "no stream"
    end, ends, wrong = time.monotonic() + given.seconds, collections.Counter(), 0
    seeds = range(given.seed, given.seed + given.count)
    with concurrent.futures.ThreadPoolExecutor(given.jobs) as pool:
        def one(seed):
            return tried(program, files[seed % len(files)], seed, given.keep) if time.monotonic() < end else None

        for result in pool.map(one, seeds):
            if result is None:
                continue
            file, seed, first, second, bad = result
            ends[first[0]] += 1
            if bad:
                wrong += 1
                print(f"{file.name}, seed {seed}: {first} and {second}")
    told = ", ".join(f"{count} with {status}" for status, count in sorted(ends.items(), key=str))
    print(f"{sum(ends.values())} mutations of {len(files)} streams: {told}; {wrong} wrong")
    raise SystemExit(1 if wrong or not ends else 0)


main()
