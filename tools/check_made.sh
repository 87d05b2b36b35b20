#!/bin/sh
# Makes the streams of the numbers FIRST to LAST (0 to 99), of FRAMES frames (20), and compares what vp9dec decodes of each with what
# vpxdec writes. The status is 0 where something was compared and nothing differs.
set -u
top=$(dirname -- "$(dirname -- "$(readlink -f -- "$0")")")
program=${VP9DEC:-$top/vp9dec}
number=${1:-0} last=${2:-99} frames=${3:-20}
command -v vpxdec >/dev/null || { echo "check_made.sh: vpxdec isn't installed" >&2; exit 1; }
out=$(mktemp -d) || exit 1
trap 'rm -rf "$out"' EXIT
trap 'exit 1' HUP INT TERM
agree=0 differ=0

# Once, so that a program that can't be built is told once.
"$program" make "$number" 1 >/dev/null 2>"$out/note" || { cat "$out/note"; exit 1; }

while [ "$number" -le "$last" ]; do
    if "$program" make "$number" "$frames" >"$out/made.ivf" && "$program" decode <"$out/made.ivf" >"$out/own" &&
        vpxdec --rawvideo -o "$out/other" "$out/made.ivf" 2>/dev/null && cmp -s "$out/own" "$out/other"; then
        agree=$((agree + 1))
    else
        differ=$((differ + 1))
        echo "make $number $frames: isn't made, isn't decoded, or vpxdec writes other bytes"
    fi
    number=$((number + 1))
done
echo "$agree agree, $differ differ"
[ "$differ" -eq 0 ] && [ "$agree" -gt 0 ]
