#!/usr/bin/env bash
# Times `vp9dec decode` on files, side by side with vpxdec and ffmpeg on one thread where they are installed. Usage:
# run.sh FILE.. [-- WORDS of decode, as --plain]. RUNS (5) is how often each is run, in turn, VP9DEC names a built program instead of the
# repository's. The least time of each counts, and the greatest peak; a peak below 20 MB can't be told from what Python had before it
# started the program.
set -eu
top=$(cd "$(dirname "$0")/../.." && pwd)
[ $# -gt 0 ] || { echo "usage: run.sh FILE.. [-- WORDS]" >&2; exit 2; }
# the launcher builds the program where that is needed
[ -n "${VP9DEC:-}" ] || "$top/vp9dec" list <"$top/samples/lossless-err-1x1.ivf" >/dev/null

python3 - "${VP9DEC:-$top/crates/vp9dec/out/vp9dec}" "${RUNS:-5}" "$@" <<'PY'
import hashlib, os, shutil, struct, subprocess, sys, time

program, runs, given = sys.argv[1], int(sys.argv[2]), sys.argv[3:]
cut = given.index("--") if "--" in given else len(given)
files, words = given[:cut], given[cut + 1:]
VPXDEC, FFMPEG = shutil.which("vpxdec"), shutil.which("ffmpeg")


def commands(file):
    """Each reads the file on standard input or by its name, and writes raw frames to standard output."""
    yield "vp9dec", [program, "decode", *words]
    if VPXDEC:
        yield "vpxdec", [VPXDEC, "--rawvideo", "--threads=1", "-o", "-", file]
    if FFMPEG:
        rest = ["-threads", "1", "-i", file, "-f", "rawvideo", "-fps_mode", "passthrough", "-"]
        yield "ffmpeg", [FFMPEG, "-v", "error", *rest]
        yield "ffmpeg without assembler", [FFMPEG, "-v", "error", "-cpuflags", "0", *rest]


def frames_in(file):
    """The packets of an IVF file, by their own sizes."""
    with open(file, "rb") as data:
        head = data.read(32)
        data.seek(struct.unpack_from("<H", head, 6)[0])
        count = 0
        while len(packet := data.read(12)) == 12:
            data.seek(struct.unpack_from("<I", packet)[0], os.SEEK_CUR)
            count += 1
    return count


def run(command, file):
    """Elapsed and processor time in seconds, peak memory in MB, and the exit status."""
    with open(file, "rb") as data, open(os.devnull, "wb") as sink:
        begin = time.perf_counter()
        child = subprocess.Popen(command, stdin=data, stdout=sink, stderr=subprocess.DEVNULL)
        _, status, used = os.wait4(child.pid, 0)
        elapsed = time.perf_counter() - begin
        child.returncode = os.waitstatus_to_exitcode(status)
    return elapsed, used.ru_utime + used.ru_stime, used.ru_maxrss / 1024, child.returncode


def sum_of(command, file):
    """A checksum of what is written, apart from the timed runs."""
    with open(file, "rb") as data:
        child = subprocess.Popen(command, stdin=data, stdout=subprocess.PIPE, stderr=subprocess.DEVNULL)
        digest = hashlib.md5()
        while piece := child.stdout.read(1 << 20):
            digest.update(piece)
        child.wait()
    return digest.hexdigest()


for file in files:
    every = dict(commands(file))
    sums = {name: sum_of(command, file) for name, command in every.items()}
    results = {name: [] for name in every}
    for _ in range(runs):
        for name, command in every.items():
            results[name].append(run(command, file))
    frames = frames_in(file)
    print(f"{file}: {frames} packets")
    own = [min(column) for column in list(zip(*results["vp9dec"]))[:2]]
    for name, each in results.items():
        elapsed, cpu, peak = (pick(column) for pick, column in zip((min, min, max), list(zip(*each))[:3]))
        codes = sorted({code for *_, code in each})
        line = f"  {name}: {elapsed:.3f} s elapsed, {cpu:.3f} s processor, {frames / elapsed:.1f} frames/s, peak {peak:.0f} MB"
        if name != "vp9dec":
            line += f"; vp9dec takes {own[0] / elapsed:.2f} of its elapsed and {own[1] / max(cpu, 0.001):.2f} of its processor time"
            line += "" if sums[name] == sums["vp9dec"] else "; other bytes"
        print(line + ("" if codes == [0] else f"; exit status {codes}"))
PY
