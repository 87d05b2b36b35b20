#!/usr/bin/env bash
# Times `vp9dec decode` with --plain and with 1, 2 and 4 workers beside vpxdec and ffmpeg with 1 and 4 threads, run by turns: the least elapsed and
# processor time and the greatest peak of each, and the ratios that the figures are about. All have to write the same.
# Usage: run.sh FILE.. RUNS (5) is how often each is run, VP9DEC names a built program instead of the repository's, WINDOW a window.
set -eu
top=$(cd "$(dirname "$0")/../.." && pwd)
[ $# -gt 0 ] || { echo "usage: run.sh FILE.." >&2; exit 2; }
# the launcher builds the program where that is needed
[ -n "${VP9DEC:-}" ] || "$top/vp9dec" list <"$top/samples/lossless-err-1x1.ivf" >/dev/null

python3 - "${VP9DEC:-$top/crates/vp9dec/out/vp9dec}" "${RUNS:-5}" "${WINDOW:-4}" "$@" <<'PY'
import hashlib, os, shutil, subprocess, sys, time

program, runs, window, files = sys.argv[1], int(sys.argv[2]), sys.argv[3], sys.argv[4:]


def commands(file):
    """Each reads the file on standard input or by its name, and writes raw frames to standard output."""
    yield "plain", [program, "decode", "--plain"]
    for workers in "124":
        yield f"workers {workers}", [program, "decode", "--workers", workers, "--window", window]
    for threads in "14":
        if shutil.which("vpxdec"):
            yield f"vpxdec {threads}", ["vpxdec", "--rawvideo", f"--threads={threads}", "-o", "-", file]
        if shutil.which("ffmpeg"):
            rest = ["-threads", threads, "-i", file, "-f", "rawvideo", "-fps_mode", "passthrough", "-"]
            yield f"ffmpeg {threads}", ["ffmpeg", "-nostdin", "-v", "error", *rest]


def run(command, file):
    """Elapsed and processor seconds and the peak in MB, by a process that is small itself, since a peak below its parent's can't be told."""
    told = ["sh", "-c", 'exec "$@" >/dev/null', "sh", *command]
    with open(file, "rb") as data:
        begin = time.perf_counter()
        child = subprocess.Popen(["/usr/bin/time", "-f", "%U %S %M", *told], stdin=data, stderr=subprocess.PIPE, text=True)
        user, system, peak = map(float, child.communicate()[1].split()[-3:])
        return time.perf_counter() - begin, user + system, peak / 1024


def sum_of(command, file):
    with open(file, "rb") as data:
        return hashlib.md5(subprocess.run(command, stdin=data, stdout=subprocess.PIPE, check=True).stdout).hexdigest()


for file in files:
    every = dict(commands(file))
    sums = {name: sum_of(command, file) for name, command in every.items()}
    seen = {name: [] for name in every}
    for _ in range(runs):
        for name, command in every.items():
            seen[name].append(run(command, file))
    best = {name: tuple(pick(column) for pick, column in zip((min, min, max), zip(*each))) for name, each in seen.items()}
    print(f"{os.path.basename(file)}, {len(set(sums.values()))} digest{'s' * (len(set(sums.values())) > 1)}")
    for name, (elapsed, cpu, peak) in best.items():
        print(f"  {name}: {elapsed:.3f} s elapsed, {cpu:.3f} s processor, {peak:.1f} MB")
    one, four, plain = best["workers 1"], best["workers 4"], best["plain"]
    print(f"  4 workers over 1: time {four[0] / one[0]:.2f}, processor {four[1] / one[1]:.2f}")
    print(f"  1 worker over plain: time {one[0] / plain[0]:.2f}, processor {one[1] / plain[1]:.2f}, memory {one[2] / plain[2]:.2f}")
    others = [best[name][0] for name in ("vpxdec 4", "ffmpeg 4") if name in best]
    if others:
        print(f"  4 workers over the better of the others by four: {four[0] / min(others):.2f}")
    if "vpxdec 1" in best:
        print(f"  plain over vpxdec by one: processor {plain[1] / best['vpxdec 1'][1]:.2f}")
PY
