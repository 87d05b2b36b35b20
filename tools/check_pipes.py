#!/usr/bin/env python3
"""Looks at `vp9dec decode` as it reads a pipe. Of each FILE.ivf:

- in pieces of 1, 7 and 4096 bytes, and cut off after each of some packets, it writes what it does of the same bytes in a file, with windows 2 and 16;
- from a writer that stops behind a tenth of the file, all frames of the packets that are written but the last 63 are there before the rest is
  written; and at least the first one, where the first packet is no more than that.

    tools/check_pipes.py [--seconds T] FILE..

VP9DEC names the program, or else it is ./vp9dec. Nothing is waited for longer than T (10) seconds. Prints what differs; the status is 0 where nothing does.
"""
import argparse
import os
import pathlib
import struct
import subprocess
import sys
import threading

TOP = pathlib.Path(__file__).resolve().parent.parent
PROGRAM = os.environ.get("VP9DEC", str(TOP / "vp9dec"))


def packet_ends(data):
    """Returns where the whole packets of an IVF file end, the header's end first."""
    ends = [struct.unpack("<H", data[6:8])[0]]
    while ends[-1] + 12 <= len(data):
        end = ends[-1] + 12 + struct.unpack("<I", data[ends[-1] : ends[-1] + 4])[0]
        if end > len(data):
            break
        ends.append(end)
    return ends


def of_file(data, words):
    done = subprocess.run([PROGRAM, "decode", *words], input=data, capture_output=True, check=False)
    return done.returncode, done.stdout, done.stderr


def begun(words):
    """Starts a decode of a pipe, and a thread that reads what it writes."""
    run = subprocess.Popen([PROGRAM, "decode", *words], stdin=subprocess.PIPE, stdout=subprocess.PIPE, stderr=subprocess.PIPE, bufsize=0)
    taken = []
    reader = threading.Thread(target=lambda: taken.extend(iter(lambda: run.stdout.read(1 << 16), b"")))
    reader.start()
    return run, taken, reader


def ended(run, taken, reader):
    note = run.stderr.read()
    reader.join()
    return run.wait(), b"".join(taken), note


def in_pieces(data, size, words):
    run, taken, reader = begun(words)
    try:
        for at in range(0, len(data), size):
            run.stdin.write(data[at : at + size])
        run.stdin.close()
    except BrokenPipeError:
        pass
    return ended(run, taken, reader)


def group_end(data, ends):
    """Returns how many of these packets are in whole groups at least: a group waits for 64 more; of packets with several frames the first one alone is told."""
    if any(data[end - 1] & 0xE0 == 0xC0 for end in ends[1:]):
        return 1
    return max(1, len(ends) - 1 - 63)


def stopped(data, seconds):
    """Returns the bytes that were written while a tenth of the file was there, and those of the groups that are whole in it."""
    ends = packet_ends(data)
    whole = [end for end in ends if end <= max(len(data) // 10, ends[1])]
    wanted = len(of_file(data[: ends[group_end(data, whole)]], ["--plain"])[1])
    run, taken, reader = begun([])
    run.stdin.write(data[: whole[-1]])
    clock = threading.Event()
    for _ in range(int(seconds * 100)):
        if sum(map(len, taken)) >= wanted:
            break
        clock.wait(0.01)
    got = sum(map(len, taken))
    run.stdin.write(data[whole[-1] :])
    run.stdin.close()
    ended(run, taken, reader)
    return got, wanted


def main():
    parser = argparse.ArgumentParser()
    parser.add_argument("--seconds", type=float, default=10)
    parser.add_argument("files", nargs="+", type=pathlib.Path)
    said = parser.parse_args()
    differ = runs = 0

    def tell(same, text):
        nonlocal differ, runs
        runs += 1
        if not same:
            differ += 1
            print(text)

    for file in said.files:
        data = file.read_bytes()
        whole = of_file(data, ["--plain"])
        for size in (1, 7, 4096):
            for window in ("2", "16"):
                tell(in_pieces(data, size, ["--window", window]) == whole, f"{file}: differs in pieces of {size} with window {window}")
        for end in packet_ends(data)[1:6]:
            tell(in_pieces(data[: end + 5], 4096, []) == of_file(data[: end + 5], ["--plain"]), f"{file}: differs where it is cut off at {end + 5}")
        if whole[0] == 0:
            got, wanted = stopped(data, said.seconds)
            tell(got >= wanted, f"{file}: {got} of {wanted} bytes were written before the rest of the file came")
    print(f"{runs} runs, {differ} differ")
    return 1 if differ or not runs else 0


if __name__ == "__main__":
    sys.exit(main())
