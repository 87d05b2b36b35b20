#!/usr/bin/env bash
# Times the modes of inter frames of 1920x1080, of pseudo-random bytes, in drawn partitions and in such as are read too, proved and built by
# LLVM, counting and not, beside the same in C (gcc -O3), which counts. All must print one checksum of blocks, and those that count one of
# counts. The least processor time of several runs counts, less what no frames take. Where valgrind is there, instructions are told too.
. "$(dirname "$0")/../lib.sh"
frames=${1:-200} runs=${2:-9}
usage "[FRAMES [RUNS]]" "$frames" "$runs"

compile_c modes.c c
build rattle

python3 - "$frames" "$runs" <<'PY'
import re
import shutil
import subprocess
import sys
from turns import each, end, in_c, in_rattle, once, same

frames, runs = map(int, sys.argv[1:])
programs = {"C": in_c(), "Rattle": in_rattle(), "without counts": in_rattle(before="silent ")}


def sums(answer):
    return re.search(r": (\d+ blocks, \d+) (\d+)", answer).groups()


def instructions(program, kind):
    command = ["valgrind", "--tool=cachegrind", "--cachegrind-out-file=/dev/null", *program.command]
    told = [subprocess.run(command, input=f"{program.before}{kind}{n}\n", capture_output=True, text=True, check=True).stderr for n in (0, 20)]
    begin, end_ = (int(re.search(r"I +refs: +([\d,]+)", text)[1].replace(",", "")) for text in told)
    return (end_ - begin) / 20 / 1e6


worst = 0
for kind, what in (("", "a frame of drawn partitions"), ("whole ", "a frame with its partitions")):
    taken = each(programs, f"{kind}0", f"{kind}{frames}", frames, runs, part=lambda answer: sums(answer)[0])
    same(what, {name: sums(once(programs[name], f"{kind}{frames}")[1]) for name in ("C", "Rattle")})
    c, counted, silent = (taken[name] * 1e6 for name in programs)
    print(f"C {c:.0f} us {what}, Rattle {counted:.0f} us, ratio {counted / c:.2f}; without counts {silent:.0f} us")
    if shutil.which("valgrind"):
        c_told, told, silent_told = (instructions(program, kind) for program in programs.values())
        print(f"C {c_told:.1f} million instructions, Rattle {told:.1f}, ratio {told / c_told:.2f}; without counts {silent_told:.1f}")
    worst = max(worst, counted / c)
end(worst, 1.3)
PY
