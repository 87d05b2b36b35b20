#!/usr/bin/env bash
# Draws what jobs of the crew ran when, NAME.svg in the current folder for each file. Usage: run.sh FILE.. [-- WORDS of decode, as --workers 1].
# FRAMES=10..14 draws the time of these frames alone (tools/job_chart.py), BENCH_PROGRAM names a program that is built.
#
# The program is `vp9dec` that also tells when each job began and ended. Its crate stands here, as main.rt.txt and trace.rt.txt, and not in crates/,
# so that the gate needn't prove it: it is proved and built in a copy of what git tracks here, with the libraries that are built, in a
# folder that goes at the end. BENCH_JOBS names one that is kept, outside of the checkout.
set -eu
here=$(cd "$(dirname "$0")" && pwd)
top=$(cd "$here/../.." && pwd)
files=() words=()
while [ $# -gt 0 ] && [ "$1" != -- ]; do files+=("$1"); shift; done
if [ $# -gt 0 ]; then shift; words=("$@"); fi
[ ${#files[@]} -gt 0 ] || { echo "usage: run.sh FILE.. [-- WORDS]" >&2; exit 2; }
work=$(mktemp -d)
trap 'rm -rf "$work"' EXIT

# copy FOLDER: what git tracks of the crates, and the crate of the program
copy() {
    local room=$1 crate=$1/crates/bench_jobs
    mkdir -p "$room/crates"
    find "$room/crates" -mindepth 2 -maxdepth 2 ! -name out -exec rm -rf {} +
    (cd "$top" && git ls-files -z -- crates crates.txt HANDLES | xargs -0 cp --parents -t "$room")
    mkdir -p "$crate/src"
    for part in main trace; do cp "$here/$part.rt.txt" "$crate/src/$part.rt"; done
    for run in args stdin stdout status; do cp "$top/crates/vp9dec/$run" "$crate"; done
    echo "bench_jobs may_wait=1: vp9_types edge_io vp9_app" >>"$room/crates.txt"
}

# lend FOLDER: the libraries that are built here, where the copy has none as new. rt builds those again whose sources are other ones.
lend() {
    local own lent
    for own in "$top"/crates/*/out/rlib; do
        lent=$1/${own#"$top/"}
        [ "$own/stamp" -nt "$lent/stamp" ] || continue
        rm -rf "$lent"
        mkdir -p "${lent%/rlib}"
        cp -al "$own" "$lent" 2>/dev/null || { rm -rf "$lent"; cp -a "$own" "$lent"; }
    done
}

if [ -z "${BENCH_PROGRAM:-}" ]; then
    room=$(realpath -m "${BENCH_JOBS:-$work}")
    copy "$room"
    lend "$room"
    echo "proves and builds in $room" >&2
    (cd "$room/crates/bench_jobs" && rt run -- list <"$top/samples/lossless-err-1x1.ivf" >/dev/null 2>"$work/log") || { cat "$work/log" >&2; exit 1; }
    BENCH_PROGRAM=$room/crates/bench_jobs/out/bench_jobs
fi

for file in "${files[@]}"; do
    name=$(basename "$file")
    chart=${name%.*}.svg status=0
    "$BENCH_PROGRAM" decode "${words[@]}" <"$file" >/dev/null 2>"$work/trace" || status=$?
    [ "$status" = 0 ] || echo "$file: exit status $status" >&2
    echo "$chart: $(python3 "$top/tools/job_chart.py" "$work/trace" "$chart" ${FRAMES:+--frames "$FRAMES"})"
done
