#!/usr/bin/env python3
"""Prints how `vp9dec decode` has to end on a file, by its listing: a line of the status, how many bytes are written, and
the note. The listing is read from standard input, as `vp9dec list` writes it or as FILE.list has it. Of a file that breaks
no rule: which rule a file breaks, no listing tells.

usage: tools/decode_endings.py <LISTING
"""
import re
import sys

CODED = re.compile(r"frame (\d+): (key|intra|inter) (\d+)x(\d+) profile \d depth (\d+) ss (\d)(\d) show (\d) refresh (..) ")
SHOWN = re.compile(r"frame (\d+): show (\d) size ")


def text_size(width, height, depth, ss_x, ss_y):
    """How many bytes the three planes of a frame have."""
    chroma = (width + ss_x >> ss_x) * (height + ss_y >> ss_y)
    return (width * height + 2 * chroma) * (1 if depth == 8 else 2)


def ending(lines):
    slots, written = [0] * 8, 0
    for line in lines:
        shown = SHOWN.match(line)
        if shown:
            written += slots[int(shown[2])]
            continue
        coded = CODED.match(line)
        assert coded, line
        _, _, *numbers, refresh = coded.groups()
        width, height, depth, ss_x, ss_y, show = map(int, numbers)
        size = text_size(width, height, depth, ss_x, ss_y)
        written += size * show
        slots = [size if int(refresh, 16) >> slot & 1 else old for slot, old in enumerate(slots)]
    return f"0 {written}"


print(ending(sys.stdin))
