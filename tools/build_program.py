#!/usr/bin/env python3
"""Builds vp9dec of crates whose proofs stand in this checkout.

    tools/build_program.py --prove               proves all crates, as many at a time as there are processors and memory; a line for each
    tools/build_program.py CPU PROGRAM           builds crates/vp9dec for CPU (x86-64-v2, x86-64-v3) over these libraries, into PROGRAM

Of libraries that a run of the gate left in this checkout the second builds too, with the kit's own commands.
"""
import os
import pathlib
import shutil
import subprocess
import sys
import tempfile
import time

TOP = pathlib.Path(__file__).resolve().parent.parent
# The proof of a crate takes up to so much memory.
GIGABYTES = 2.5


def tell(text):
    print(f"vp9dec: {text}", file=sys.stderr, flush=True)


def crates():
    """Returns the libraries that each crate of crates.txt uses."""
    lines = (line.split("#")[0] for line in (TOP / "crates.txt").read_text().splitlines())
    heads = (line.split(":", 1) for line in lines if ":" in line)
    return {head.split()[0]: used.split() for head, used in heads}


def at_once():
    with open("/proc/meminfo") as memory:
        free = next(int(line.split()[1]) for line in memory if line.startswith("MemAvailable"))
    return max(1, min(len(os.sched_getaffinity(0)), int(free / 2**20 / GIGABYTES)))


def prove():
    """One command proves them side by side: two commands would wait for each other's libraries."""
    count, done, begin = len(crates()), 0, time.monotonic()
    log = TOP / "crates/vp9dec/out/build.log"
    log.parent.mkdir(exist_ok=True)
    tell(f"proves {count} crates, {at_once()} at a time; from nothing that takes tens of minutes on four cores, once")
    command = ["rt", "all", "check", "--jobs", str(at_once())]
    with open(log, "w") as out, subprocess.Popen(command, cwd=TOP, stdout=subprocess.PIPE, stderr=subprocess.STDOUT, text=True) as run:
        for line in run.stdout:
            out.write(line)
            if line.startswith("== ") and line != "== summary\n":
                done += 1
                seconds = int(time.monotonic() - begin)
                tell(f"{line[3:].strip()}: {done} of {count}, at {seconds // 60}:{seconds % 60:02}")
    if run.returncode:
        tell(f"can't be built: see {log}")
    return run.returncode


def below(known, name):
    """Returns the libraries of the repository below a crate, and those of the kit that these use."""
    own, of_kit, left = {}, {"std"}, [name]
    while left:
        for it in known[left.pop()]:
            if it not in known:
                of_kit.add(it)
            elif it not in own:
                own[it] = None
                left.append(it)
    return list(own), sorted(of_kit)


def build(cpu, program):
    known, kit = crates(), pathlib.Path(shutil.which("rt")).resolve().parent.parent
    if not (kit / "rlibs").is_dir():
        kit = pathlib.Path("/opt/rattle")
    own, _ = below(known, "vp9dec")
    rlib = {it: TOP / "crates" / it / "out/rlib" for it in own}
    words = ["--crate-name", "vp9dec", "src/main.rt", "--extern", f"std={kit}/rlibs/std.rlib", "-L", f"dependency={kit}/rlibs"]
    for it in known["vp9dec"]:
        words += ["--extern", f"{it}={rlib[it]}/{it}.rlib"]
    for it in own:
        words += ["-L", f"dependency={rlib[it]}"]
    words += ["--antt-project", f"{kit}/rattle/logic/antt-project.json", "--logic-built", f"{kit}/logic_built"]
    words += ["--jobs", "1", "--toolchain", f"{kit}/toolchain", "--backend", "llvm", f"--cpu={cpu}"]
    with tempfile.TemporaryDirectory() as room:
        made = f"{room}/vp9dec"
        link = ["--target", "x86_64-unknown-linux-gnu", "--toolchain", f"{kit}/toolchain", "-o", made, f"{made}.o", f"{kit}/c/libos_c.a", f"{kit}/c/liblibc_c.a"]
        for command in (["rattle", "build", *words, "-o", f"{made}.o"], ["rattle-link", *link]):
            ran = subprocess.run([f"{kit}/bin/{command[0]}", *command[1:]], cwd=TOP / "crates/vp9dec", stdout=subprocess.PIPE, stderr=subprocess.STDOUT, text=True)
            if ran.returncode:
                tell(f"can't be built for {cpu}: {ran.stdout[-800:]}")
                return 1
        shutil.copy(made, program)
    return 0


if __name__ == "__main__":
    if sys.argv[1:] == ["--prove"]:
        sys.exit(prove())
    if len(sys.argv) != 3:
        sys.exit(__doc__)
    sys.exit(build(*sys.argv[1:]))
