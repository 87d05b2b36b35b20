#!/usr/bin/env bash
# Times the adaptation of all probabilities of an inter frame, proved and built by LLVM, beside the same in C (gcc -O3). Both must print one
# checksum. The least processor time of several runs counts, less what one round takes.
. "$(dirname "$0")/../lib.sh"
rounds=${1:-20000} runs=${2:-9}
usage "[ROUNDS [RUNS]]" "$rounds" "$runs"

compile_c adapt.c c
build rattle

python3 - "$rounds" "$runs" <<'PY'
import sys
from turns import each, in_c, in_rattle

rounds, runs = map(int, sys.argv[1:])
taken = each({"C": in_c(), "Rattle": in_rattle()}, 1, rounds, rounds - 1, runs)
print(f"C {taken['C'] * 1e6:.1f} us a frame, Rattle {taken['Rattle'] * 1e6:.1f} us, ratio {taken['Rattle'] / taken['C']:.2f}")
sys.exit(0 if taken["Rattle"] < 60e-6 else "60 us or more a frame")
PY
