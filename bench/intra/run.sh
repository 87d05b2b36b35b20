#!/usr/bin/env bash
# Times intra prediction of blocks and putting them into a plane of 1920x1080 samples, proved and built by LLVM, beside the same in C
# (gcc -O3, for the same instructions). Both must print one checksum. The least processor time of several runs counts, less what no blocks
# take.
. "$(dirname "$0")/../lib.sh"
samples=${1:-100000000} runs=${2:-7}
usage "[SAMPLES [RUNS]]" "$samples" "$runs"

compile_c blocks.c c -march=x86-64-v2
build rattle

python3 - "$samples" "$runs" <<'PY'
import sys
from turns import each, end, in_c, in_rattle

samples, runs = map(int, sys.argv[1:])
worst = 0
for mode in ("dc", "v", "h", "tm", "d45"):
    for size in (8, 16, 32):
        blocks = samples // (size * size)
        taken = each({"C": in_c(), "Rattle": in_rattle()}, f"{mode} {size} 0", f"{mode} {size} {blocks}", blocks, runs)
        ratio = taken["Rattle"] / taken["C"]
        worst = max(worst, ratio)
        print(f"{mode} {size}x{size}: C {taken['C'] * 1e9:.1f} ns a block, Rattle {taken['Rattle'] * 1e9:.1f} ns, ratio {ratio:.2f}")
end(worst, 1.5)
PY
