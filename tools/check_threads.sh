#!/bin/sh
# Compares what `vp9dec decode` writes of streams by several threads with what it writes by `--plain`, and how both end: with 1, 2, 4, 16 and 64
# workers, and windows 2, 4 and 16. A run that takes more than 60 seconds counts as one that hangs. VP9DEC names the program, or else it is ./vp9dec.
#
# usage: tools/check_threads.sh [--times N] FILE..
set -u
top=$(dirname -- "$(dirname -- "$(readlink -f -- "$0")")")
program=${VP9DEC:-$top/vp9dec}
times=1
if [ "${1:-}" = --times ]; then times=$2; shift 2; fi
out=$(mktemp -d) || exit 1
trap 'rm -rf "$out"' EXIT
trap 'exit 1' HUP INT TERM
agree=0 differ=0
for file in "$@"; do
    "$program" decode --plain <"$file" >"$out/plain" 2>"$out/plain.note"
    ends=$?
    for workers in 1 2 4 16 64; do
        for window in 2 4 16; do
            for _ in $(seq "$times"); do
                timeout 60 "$program" decode --workers $workers --window $window <"$file" >"$out/crew" 2>"$out/crew.note"
                if [ "$?" = "$ends" ] && cmp -s "$out/plain" "$out/crew" && cmp -s "$out/plain.note" "$out/crew.note"; then
                    agree=$((agree + 1))
                else
                    differ=$((differ + 1))
                    echo "$file: with $workers workers and window $window it is decoded otherwise, or not within a minute"
                fi
            done
        done
    done
done
echo "$agree agree, $differ differ"
[ "$differ" -eq 0 ] && [ "$agree" -gt 0 ]
