#!/usr/bin/env bash
# Times the DCT of eight columns of 32 values, the residue of a full block of 8x8, and that of a block of 32x32 with one level, proved and
# built by LLVM, beside the same in C (gcc -O3), one list at a time. Both must print one checksum. The least processor time of several runs
# counts, less what one of each takes.
. "$(dirname "$0")/../lib.sh"
count=${1:-300000} runs=${2:-9}
usage "[COUNT [RUNS]]" "$count" "$runs"

compile_c transforms.c c
build rattle

python3 - "$count" "$runs" <<'PY'
import sys
from turns import each, in_c, in_rattle

count, runs = map(int, sys.argv[1:])
for kind in ("columns", "residue", "one-level"):
    taken = each({"C": in_c(), "Rattle": in_rattle()}, f"{kind} 1", f"{kind} {count}", count - 1, runs)
    print(f"{kind}: C {taken['C'] * 1e9:.0f} ns, Rattle {taken['Rattle'] * 1e9:.0f} ns, ratio {taken['Rattle'] / taken['C']:.2f}")
PY
