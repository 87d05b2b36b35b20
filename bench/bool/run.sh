#!/usr/bin/env bash
# Times 50 million bools at one probability and at 256 in turn, proved and built by LLVM, beside the same in C (gcc -O3). Both must print
# one checksum. The least processor time of several runs counts, less what no bools take.
. "$(dirname "$0")/../lib.sh"
bools=${1:-50000000} runs=${2:-9}
usage "[BOOLS [RUNS]]" "$bools" "$runs"

compile_c bools.c c
build rattle

python3 - "$bools" "$runs" <<'PY'
import sys
from turns import each, end, in_c, in_rattle

bools, runs = map(int, sys.argv[1:])
worst = 0
for kind in ("fixed", "varied"):
    taken = each({"C": in_c(), "Rattle": in_rattle()}, f"{kind} 0", f"{kind} {bools}", bools, runs)
    ratio = taken["Rattle"] / taken["C"]
    worst = max(worst, ratio)
    print(f"{kind}: C {taken['C'] * 1e9:.2f} ns a bool, Rattle {taken['Rattle'] * 1e9:.2f} ns, ratio {ratio:.2f}")
end(worst, 1.2)
PY
