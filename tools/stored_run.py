#!/usr/bin/env python3
"""Writes the stored run of `crates/vp9dec`: two frames of 208x160 of gradients under noise, encoded without loss by `vpxenc`,
and behind them three bytes of a packet's header (rule 4, so that the run ends with status 3). What is to be written are the
planes that were encoded, and `vpxdec` has to give them too.

usage: tools/stored_run.py FOLDER       (crates/vp9dec; another one to compare)
"""
import pathlib
import subprocess
import sys
import tempfile

from vp9model.draws import LongDraws

WIDTH, HEIGHT, FRAMES = 208, 160, 2
ENCODE = """vpxenc --codec=vp9 --ivf --lossless=1 --error-resilient=1 --kf-max-dist=0 --kf-min-dist=0 --tile-columns=0 --tile-rows=0
--aq-mode=0 --auto-alt-ref=0 --lag-in-frames=0 --cpu-used=4 --passes=1 --i420 --quiet""".split()


def planes():
    draws = LongDraws(12345)
    for frame in range(FRAMES):
        for plane in range(3):
            for y in range(HEIGHT >> (plane > 0)):
                for x in range(WIDTH >> (plane > 0)):
                    yield (x * (2 + plane) + y * 3 + frame * 17 + (draws.next() >> 40) % 64) % 256


def encoded(raw):
    """The file of the encoder, which the decoder gives back as it was."""
    with tempfile.TemporaryDirectory() as scratch:
        source, file = pathlib.Path(scratch, "planes"), pathlib.Path(scratch, "frames.ivf")
        source.write_bytes(raw)
        subprocess.run([*ENCODE, "-w", str(WIDTH), "-h", str(HEIGHT), "-o", file, source], check=True)
        decoded = subprocess.run(["vpxdec", "--rawvideo", "-o", "-", file], check=True, capture_output=True).stdout
        assert decoded == raw, "vpxdec gives other samples"
        return file.read_bytes()


def main():
    if len(sys.argv) != 2:
        sys.exit("usage: tools/stored_run.py FOLDER")
    raw, folder = bytes(planes()), pathlib.Path(sys.argv[1])
    ivf = encoded(raw)
    assert min(len(ivf), len(raw)) > 1 << 16
    (folder / "stdin").write_bytes(ivf + b"\1\0\0")
    (folder / "stdout").write_bytes(raw)
    (folder / "args").write_text("decode\n")
    (folder / "status").write_text("3\n")


main()
