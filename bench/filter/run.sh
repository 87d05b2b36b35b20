#!/usr/bin/env bash
# Times the loop filter on frames of 1920x1080 samples with blocks of mixed sizes, at several levels, proved and built by LLVM, beside the
# same in C, line by line (gcc -O3), both for the same instructions: those of the word given first, x86-64-v2 or x86-64-v3. Both must print
# one checksum. The least processor time of several runs counts, less what the frames take at level 0, where they are drawn alone.
. "$(dirname "$0")/../lib.sh"
cpu=${1:-x86-64-v2} frames=${2:-15} runs=${3:-5}
usage "[CPU [FRAMES [RUNS]]]" "$frames" "$runs"

compile_c filter.c c -march="$cpu"
build rattle --cpu "$cpu"

python3 - "$frames" "$runs" <<'PY'
import sys
from turns import each, in_c, in_rattle

frames, runs = map(int, sys.argv[1:])
for level in (8, 20, 32, 63):
    taken = each({"C": in_c(), "Rattle": in_rattle()}, f"0 {frames}", f"{level} {frames}", frames, runs)
    print(f"level {level}: C {taken['C'] * 1e3:.2f} ms a frame, Rattle {taken['Rattle'] * 1e3:.2f} ms, ratio {taken['Rattle'] / taken['C']:.2f}")
PY
