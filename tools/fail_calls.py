#!/usr/bin/env python3
"""Lets `vp9dec decode` fail at each of its calls for memory, of its reads, of its writes and of its calls for a thread, one after another: a run has to
end within its time as the whole run does, or with the status of that fault, and has to have written what the whole run writes or a front of it. Where a
thread isn't made it has to end as the whole run does, with the same bytes.

    tools/fail_calls.py [--workers 1,4] [--kinds alloc,read,write,thread] [--most N] FILE..

Of each kind of call at most N (400) numbers are tried, spread over all of them: once where that call alone fails, and once where all behind it fail too.
VP9DEC names the program, or else it is the one of dist/ for this machine; a C compiler makes the library that lets calls fail (fail_calls.c).
"""
import argparse
import collections
import os
import pathlib
import subprocess
import sys
import tempfile

TOP = pathlib.Path(__file__).resolve().parent.parent
# what a run may end with where such a call failed, but for what the whole run ends with: a call may not be needed, and no thread is
FAULTS = {"alloc": [6], "read": [4], "write": [5], "thread": []}
SECONDS = 30


def program():
    named = os.environ.get("VP9DEC")
    has_avx2 = " avx2 " in pathlib.Path("/proc/cpuinfo").read_text().replace("\n", " ")
    return named or str(TOP / "dist" / ("x86-64-v3" if has_avx2 else "x86-64-v2") / "vp9dec")


def run(words, data, room, kind="none", at=0, on=0):
    """The status, None where the run didn't end in time, what was written, and how many calls of the kind there were."""
    count = pathlib.Path(f"{room}/count")
    count.write_bytes(bytes(8))
    told = {"LD_PRELOAD": f"{room}/fail.so", "FAIL_KIND": kind, "FAIL_AT": str(at), "FAIL_ON": str(on), "FAIL_COUNT": str(count)}
    try:
        done = subprocess.run(words, input=data, capture_output=True, timeout=SECONDS, env={**os.environ, **told}, check=False)
    except subprocess.TimeoutExpired:
        return None, b"", 0
    return done.returncode, done.stdout, int.from_bytes(count.read_bytes(), "little")


def tried(words, data, room, kinds, most):
    """Tries these kinds of calls, and returns how runs ended, and what was wrong."""
    ends, wrong = collections.Counter(), []
    whole_end, whole, _ = run(words, data, room)
    if whole_end is None:
        return ends, ["no call fails, and the run doesn't end"]
    for kind in kinds:
        count = run(words, data, room, kind)[2]
        step = max(1, count // most)
        for at in range(1, count + 1, step):
            for on in (0, 1):
                status, out, _ = run(words, data, room, kind, at, on)
                ends[kind, status] += 1
                if status not in [whole_end, *FAULTS[kind]] or not whole.startswith(out) or (status == whole_end and out != whole):
                    wrong.append(f"{kind} {at} {'and all behind it' if on else 'alone'}: status {status}, {len(out)} of {len(whole)} bytes")
    return ends, wrong


def main():
    words = argparse.ArgumentParser(description=__doc__, formatter_class=argparse.RawDescriptionHelpFormatter)
    words.add_argument("--workers", default="1,4")
    words.add_argument("--kinds", default=",".join(FAULTS))
    words.add_argument("--most", type=int, default=400)
    words.add_argument("files", nargs="+")
    given = words.parse_args()
    bad = False
    with tempfile.TemporaryDirectory() as room:
        subprocess.run(["cc", "-O1", "-shared", "-fPIC", "-o", f"{room}/fail.so", TOP / "tools/fail_calls.c", "-ldl"], check=True)
        for file in given.files:
            data = pathlib.Path(file).read_bytes()
            for how in ["--plain", *(f"--workers {n}" for n in given.workers.split(","))]:
                ends, wrong = tried([program(), "decode", *how.split()], data, room, given.kinds.split(","), given.most)
                told = ", ".join(f"{kind} {status}: {n}" for (kind, status), n in sorted(ends.items(), key=str))
                print(f"{file} {how}: {sum(ends.values())} runs ({told}), {len(wrong)} wrong")
                print(*(f"    {it}" for it in wrong), sep="\n", end="\n" if wrong else "")
                bad = bad or bool(wrong)
    sys.exit(bad)


main()
