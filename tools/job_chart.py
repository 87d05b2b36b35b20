#!/usr/bin/env python3
"""Draws what jobs ran when, from lines that a gate of `vp9_app::run` writes: `enter` or `leave`, microseconds since the start, and the job, as `rows 3 0 1`.

    tools/job_chart.py TRACE OUT.svg [--from MILLISECONDS] [--to MILLISECONDS] [--frames FIRST..END]

A line of the chart is a worker: of jobs that overlap no two stand in one line. Colours tell the kind of job, shades the frame's number.
`--frames 10..14` draws the time in which jobs of the frames 10 to 13 ran; those of other frames in it are grey.
It prints how many lines there are, and what share of the time each kind of job took.
"""
import collections
import itertools
import sys

HUES = {"head": 0, "column": 30, "close": 60, "rows": 210, "filter": 140, "write": 290, "end": 330}
WIDTH, LINE, LEFT = 1600, 26, 40


def spans_of(lines):
    """Returns (begin, end, kind, name) of each job, in microseconds."""
    begun, spans = {}, []
    for line in lines:
        words = line.split()
        if len(words) < 4 or words[0] not in ("enter", "leave"):
            continue
        name = " ".join(words[2:])
        if words[0] == "enter":
            begun[name] = int(words[1])
        elif name in begun:
            spans.append((begun.pop(name), int(words[1]), words[2], name))
    return sorted(spans)


def in_lines(spans):
    """Gives each job the first line that is free when it begins."""
    ends, placed = [], []
    for span in spans:
        at = next((k for k, end in enumerate(ends) if end <= span[0]), len(ends))
        if at == len(ends):
            ends.append(0)
        ends[at] = span[1]
        placed.append((at, span))
    return placed, len(ends)


def frame_of(name):
    return int(name.split()[1])


def fill_of(kind, frame, frames):
    return f"hsl({HUES[kind]},70%,{45 + 12 * (frame % 3)}%)" if frame in frames else "#ddd"


def jobs_drawn(placed, frames, low, high, scale):
    """A group of rectangles for each colour. A job says its name under the pointer."""
    groups = collections.defaultdict(list)
    for at, (begin, end, kind, name) in placed:
        x, wide = LEFT + (max(low, begin) - low) * scale, max(0.3, (min(high, end) - max(low, begin)) * scale)
        title = f"<title>{name}: {end - begin} us</title>" if frame_of(name) in frames else ""
        rect = f'<rect x="{x:.1f}" y="{at * LINE + 4}" width="{wide:.1f}" height="{LINE - 6}">{title}</rect>'
        groups[fill_of(kind, frame_of(name), frames)].append(rect)
    for fill, rects in groups.items():
        yield f'<g fill="{fill}">' + "\n".join(rects) + "</g>"


def scale_drawn(count, low, high, scale):
    """A mark at each round number of milliseconds, at most twenty of them."""
    step = next(it for k in itertools.count() for it in (10**k, 2 * 10**k, 5 * 10**k) if (high - low) / 1000 / it <= 20)
    for mark in range(int(low / 1000 / step) * step, int(high / 1000) + 1, step):
        x = LEFT + (1000 * mark - low) * scale
        if x >= LEFT:
            yield f'<path d="M{x:.1f} 0V{count * LINE + 4}" stroke="#000" stroke-opacity=".15"/>'
            yield f'<text x="{x + 2:.1f}" y="{count * LINE + 12}">{mark} ms</text>'


def drawn(placed, count, frames, low, high):
    scale = (WIDTH - LEFT - 10) / max(1, high - low)
    out = [f'<svg xmlns="http://www.w3.org/2000/svg" width="{WIDTH}" height="{count * LINE + 50}" font-family="sans-serif" font-size="11">']
    out.append('<rect width="100%" height="100%" fill="#fff"/>')
    out.extend(jobs_drawn(placed, frames, low, high, scale))
    out.extend(scale_drawn(count, low, high, scale))
    for k in range(count):
        out.append(f'<text x="4" y="{k * LINE + 18}">{k + 1}</text>')
    for k, (kind, hue) in enumerate(HUES.items()):
        x, y = LEFT + 110 * k, count * LINE + 24
        out.append(f'<rect x="{x}" y="{y}" width="14" height="14" fill="hsl({hue},70%,55%)"/><text x="{x + 20}" y="{y + 11}">{kind}</text>')
    out.append("</svg>\n")
    return "\n".join(out)


def option(words, name):
    return words[words.index(name) + 1] if name in words else None


def main():
    words = sys.argv[1:]
    if len(words) < 2:
        sys.exit(__doc__)
    with open(words[0], encoding="utf-8") as it:
        spans = spans_of(it)
    if not spans:
        sys.exit(f"{words[0]} tells of no job")
    first, end = map(int, (option(words, "--frames") or f"0..{2**64}").split(".."))
    asked = [span for span in spans if frame_of(span[3]) in range(first, end)]
    if not asked:
        sys.exit(f"{words[0]} tells of no job of these frames")
    low, high = 1000 * float(option(words, "--from") or asked[0][0] / 1000), 1000 * float(option(words, "--to") or max(span[1] for span in asked) / 1000)
    placed, count = in_lines(spans)
    with open(words[1], "w", encoding="utf-8") as it:
        it.write(drawn([it for it in placed if it[1][1] >= low and it[1][0] <= high], count, range(first, end), low, high))
    took = collections.Counter()
    for begin, end, kind, _ in spans:
        took[kind] += end - begin
    whole = max(span[1] for span in spans) - spans[0][0]
    print(f"{len(spans)} jobs on {count} workers in {whole / 1000:.1f} ms, busy {sum(took.values()) / whole / count:.0%}: "
          + ", ".join(f"{kind} {time / sum(took.values()):.0%}" for kind, time in took.most_common()))


main()
