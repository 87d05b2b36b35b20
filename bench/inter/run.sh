#!/usr/bin/env bash
# Times inter prediction of blocks out of a plane of 512x512 samples, proved and built by LLVM, beside the same in C (gcc -O3, for the same
# instructions): for the default processor and, where this one has AVX2, for x86-64-v3. All must print one checksum. The least processor
# time of several runs counts, less what no blocks take. Where libvpx.a is installed (libvpx-dev), libvpx's own functions predict the same
# blocks: of samples of one byte, as here, and of samples in 16 bits.
. "$(dirname "$0")/../lib.sh"
samples=${1:-40000000} runs=${2:-7}
usage "[SAMPLES [RUNS]]" "$samples" "$runs"

levels=x86-64-v2
if grep -q avx2 /proc/cpuinfo; then levels="x86-64-v2 x86-64-v3"; fi
for level in $levels; do
    compile_c blocks.c "c-$level" -march="$level"
    if [ "$level" = x86-64-v2 ]; then build "rattle-$level"; else build "rattle-$level" --cpu "$level"; fi
done

library=$(ls /usr/lib/*/libvpx.a /usr/lib/libvpx.a 2>/dev/null | head -1 || true)
if [ -n "$library" ]; then gcc -O2 -o "$work/libvpx" bench/inter/libvpx.c "$library" -lm -lpthread; fi

# shellcheck disable=SC2086 # each level is an argument
python3 - "$samples" "$runs" $levels <<'PY'
import os
import sys
from turns import WORK, Program, each, in_c, in_rattle

samples, runs, levels = int(sys.argv[1]), int(sys.argv[2]), sys.argv[3:]
sets = {"x86-64-v2": ("ssse3", "high_sse2"), "x86-64-v3": ("avx2", "high_avx2")}
for level in levels:
    programs = {"C": in_c(f"c-{level}"), "Rattle": in_rattle(f"rattle-{level}")}
    if os.path.exists(f"{WORK}/libvpx"):
        programs.update({f"libvpx {name}": Program("libvpx", [name]) for name in sets[level]})
    for kind in ("both", "across", "down", "whole", "scaled"):
        for size in (64, 16, 8, 4):
            blocks = samples // (size * size + 100) * (10 if kind == "whole" else 1)
            taken = each(programs, f"{kind} {size} 0", f"{kind} {size} {blocks}", blocks, runs)
            ratios = [f"{name} {taken[name] * 1e9:.1f} (ratio {taken['Rattle'] / taken[name]:.2f})" for name in programs if name != "Rattle"]
            print(f"{level} {kind} {size}x{size}: Rattle {taken['Rattle'] * 1e9:.1f} ns a block; {', '.join(ratios)}", flush=True)
PY
