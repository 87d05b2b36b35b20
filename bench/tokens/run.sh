#!/usr/bin/env bash
# Times rounds of transform blocks, one of each size or 16 of 4x4, proved and built by LLVM, counting and not, beside the same in C
# (gcc -O3), which counts. All must print one checksum. The least processor time of several runs counts, less what no rounds take.
. "$(dirname "$0")/../lib.sh"
rounds=${1:-200000} runs=${2:-9}
usage "[ROUNDS [RUNS]]" "$rounds" "$runs"

compile_c tokens.c c
build rattle

python3 - "$rounds" "$runs" <<'PY'
import sys
from turns import each, end, in_c, in_rattle

rounds, runs = map(int, sys.argv[1:])
programs = {"C": in_c(), "Rattle": in_rattle(), "without counts": in_rattle(before="silent ")}
worst = 0
for kind, blocks in (("", "a round of four blocks"), ("small ", "a round of 16 blocks of 4x4")):
    taken = each(programs, f"{kind}0", f"{kind}{rounds}", rounds, runs, part=lambda answer: answer.rsplit(" ", 1)[1])
    c, counted, silent = (taken[name] * 1e9 for name in programs)
    print(f"C {c:.0f} ns {blocks}, Rattle {counted:.0f} ns, ratio {counted / c:.2f}; without counts {silent:.0f} ns")
    worst = max(worst, counted / c)
end(worst, 1.2)
PY
