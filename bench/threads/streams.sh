#!/usr/bin/env bash
# Makes the streams that run.sh is used on, by ffmpeg and vpxenc: 60 frames of 1280x720 and 40 of 1920x1080 in one, two and four tile columns.
# Usage: streams.sh FOLDER
set -eu
[ $# = 1 ] || { echo "usage: streams.sh FOLDER" >&2; exit 2; }
mkdir -p "$1"
cd "$1"

# drawn SOURCE SIZE FRAMES NAME: raw frames of a source of ffmpeg
drawn() {
    ffmpeg -v error -y -f lavfi -i "$1=size=$2:rate=25" -frames:v "$3" -pix_fmt yuv420p -f yuv4mpegpipe "$4.y4m"
}

# coded NAME COLUMNS_LOG2 KBITS: the stream of so many tile columns
coded() {
    vpxenc --codec=vp9 --good --cpu-used=6 --tile-columns="$2" --target-bitrate="$3" --ivf -o "$1-$((1 << $2)).ivf" "$1.y4m" 2>/dev/null
}

drawn mandelbrot 1280x720 60 720
drawn testsrc2 1920x1080 40 1080
for columns in 0 1 2; do
    coded 720 "$columns" 2500
    coded 1080 "$columns" 5000
done
rm -f 720.y4m 1080.y4m
