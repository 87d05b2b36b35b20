#!/usr/bin/env bash
# Muxes IVF streams to WebM in six ways, decodes each file, and compares it with what the IVF file gives: by ffmpeg with cues behind and in
# front, live (sizes that aren't known), and beside a track of sound; by mkvmerge, and by mkvmerge with block groups. Wants ffmpeg and
# mkvmerge on the PATH. Prints what differs; the status is 0 where nothing does.
#
# usage: tools/check_webm.sh FILE.ivf..          (VP9DEC names the program, or else it is ./vp9dec)
set -u
top=$(cd "$(dirname "$0")/.." && pwd)
program=${VP9DEC:-$top/vp9dec}
room=$(mktemp -d) || exit 1
trap 'rm -rf "$room"' EXIT
mux() { ffmpeg -v error -y -i "$1" "${@:3}" -f webm "$room/$2.webm" || echo "ffmpeg doesn't mux $1 as $2"; }

agree=0
differ=0
for file in "$@"; do
    rm -f "$room"/*.webm
    mux "$file" cues-behind -c copy
    mux "$file" cues-in-front -c copy -cues_to_front 1
    mux "$file" live -c copy -live 1
    mux "$file" with-sound -f lavfi -i sine=frequency=440:duration=1 -map 1:a -map 0:v -c:v copy -c:a libopus
    mkvmerge -q -w -o "$room/mkvmerge.webm" "$room/cues-behind.webm"
    mkvmerge -q -w --engage no_simpleblocks -o "$room/block-groups.webm" "$room/with-sound.webm"
    wanted=$("$program" decode <"$file" | md5sum)
    for muxed in "$room"/*.webm; do
        if [ "$("$program" decode <"$muxed" 2>&1 | md5sum)" = "$wanted" ]; then
            agree=$((agree + 1))
        else
            differ=$((differ + 1))
            echo "$(basename "$file") as $(basename "$muxed" .webm) differs"
        fi
    done
done
echo "$agree agree, $differ differ"
[ "$differ" -eq 0 ] && [ "$agree" -gt 0 ]
