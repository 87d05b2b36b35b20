"""The loop filter (8.8), line by line: superblock after superblock, in each plane by plane, first across all vertical edges and
then across all horizontal ones."""
from .blocks import GREATEST_TX, SIZES, places_of


def clip3(low, high, x):
    return max(low, min(high, x))


def block_level(case, block):
    level = case["level"]
    absolute, features = case["features"]
    if case["segments"] and features[block[4]] is not None:
        level = clip3(0, 63, features[block[4]] if absolute else level + features[block[4]])
    if case["deltas"]:
        scale = 1 << (case["level"] >> 5)
        level += case["ref_deltas"][block[6]] * scale
        if block[6]:
            level += case["mode_deltas"][1 if block[7] else 0] * scale
        level = clip3(0, 63, level)
    return level


def chroma_tx(block, ss_x, ss_y):
    w, h = SIZES[block[2]]
    if min(w, h) < 8:
        return 0
    w, h = w >> ss_x, h >> ss_y
    return min(block[5], GREATEST_TX[min(w, h)])


def limits(level, sharpness, depth):
    """The limit of neighbouring samples, of the edge itself, and the threshold of high variance."""
    shift = 2 if sharpness > 4 else 1 if sharpness > 0 else 0
    limit = level >> shift
    if sharpness > 0:
        limit = min(limit, 9 - sharpness)
    limit = max(limit, 1)
    return tuple(number << depth - 8 for number in (limit, 2 * (level + 2) + limit, level >> 4))


def filter_wide(get, put, n, bits):
    """The means of n samples on each side."""
    new = []
    for i in range(-n, n):
        total = sum(get(clip3(-n - 1, n, i + j)) for j in range(-n, n + 1)) + get(i)
        new.append((total + (1 << (bits - 1))) >> bits)
    for i in range(-n, n):
        put(i, new[i + n])


def filter_narrow(p, q, put, hev, depth):
    """Two samples on each side, or one where the variance is high."""
    half = 1 << (depth - 1)

    def c(x):
        return clip3(-half, half - 1, x)

    p0, p1, q0, q1 = p[0] - half, p[1] - half, q[0] - half, q[1] - half
    f = c(p1 - q1) if hev else 0
    f = c(f + 3 * (q0 - p0))
    a = c(f + 4) >> 3
    b = c(f + 3) >> 3
    put(0, c(q0 - a) + half)
    put(-1, c(p0 + b) + half)
    if not hev:
        g = (a + 1) >> 1
        put(1, c(q1 - g) + half)
        put(-2, c(p1 + g) + half)


def filter_line(get, put, width, level, case):
    """get(i) and put(i, x): sample i, where -1 is p0 and 0 is q0."""
    limit, blimit, thresh = limits(level, case["sharpness"], case["depth"])
    p = [get(-1 - i) for i in range(8 if width == 16 else 4)]
    q = [get(i) for i in range(8 if width == 16 else 4)]
    if any(abs(side[i + 1] - side[i]) > limit for side in (p, q) for i in range(3)):
        return
    if abs(p[0] - q[0]) * 2 + abs(p[1] - q[1]) // 2 > blimit:
        return

    def near(first, last):
        return all(abs(side[i] - side[0]) <= 1 << case["depth"] - 8 for side in (p, q) for i in range(first, last + 1))

    if width >= 8 and near(1, 3):
        filter_wide(get, put, *((7, 4) if width == 16 and near(4, 7) else (3, 3)))
    else:
        hev = abs(p[1] - p[0]) > thresh or abs(q[1] - q[0]) > thresh
        filter_narrow(p, q, put, hev, case["depth"])


def edges_of(case, at, block, ss_x, ss_y, vertical, chroma):
    """The edges of a place of 8x8 that are filtered: how far they lie inside of it, and over how many samples."""
    r, c = at
    cols, rows = (case["w"] + 7) // 8, (case["h"] + 7) // 8
    tx = chroma_tx(block, ss_x, ss_y) if chroma else block[5]
    w8, h8 = places_of(block[2])
    smooth = block[3] and block[6]
    last_col, last_row = ss_x and c == cols - 1, ss_y and r == rows - 1
    if vertical:
        k, first, border, last = (c % 8) >> ss_x, c == 0, c == block[1] or c % w8 == 0, last_col
    else:
        k, first, border, last = (r % 8) >> ss_y, r == 0, r == block[0] or r % h8 == 0, last_row
    edges = []
    if not first and (not smooth or border):
        if tx == 3 and k % 4 == 0 or tx == 2 and k % 2 == 0:
            edges.append((0, 8 if last else 16))
        elif tx == 1:
            edges.append((0, 8))
        elif tx == 0:
            edges.append((0, 8 if k % 4 == 0 else 4))
    if tx == 0 and not smooth and not last_col and (vertical or not last_row):
        edges.append((4, 4))
    return edges


def filter_edge(case, samples, start, vertical, width, level):
    """Eight lines across an edge whose first sample is at a row and column, as far as they lie in the plane."""
    for line in range(8):
        y, x = (start[0] + line, start[1]) if vertical else (start[0], start[1] + line)
        if y >= len(samples) or x >= len(samples[0]):
            continue

        def get(i):
            return samples[y][x + i] if vertical else samples[y + i][x]

        def put(i, value):
            if vertical:
                samples[y][x + i] = value
            else:
                samples[y + i][x] = value

        filter_line(get, put, width, level, case)


def filter_superblock(case, at, samples, first, subsampled, chroma):
    """A plane's part of a superblock whose first place is given."""
    ss_x, ss_y = subsampled
    rows, cols = (case["h"] + 7) // 8, (case["w"] + 7) // 8
    places = [(r, c) for r in range(first[0], min(first[0] + 8, rows), 1 << ss_y) for c in range(first[1], min(first[1] + 8, cols), 1 << ss_x)]
    for vertical in (True, False):
        for r, c in places:
            level = block_level(case, at[r, c])
            if level == 0:
                continue
            y, x = (8 * r) >> ss_y, (8 * c) >> ss_x
            for by, width in edges_of(case, (r, c), at[r, c], ss_x, ss_y, vertical, chroma):
                filter_edge(case, samples, (y, x + by) if vertical else (y + by, x), vertical, width, level)


def filtered(case, blocks, planes):
    """Filters planes, of which each is a list of rows."""
    rows, cols = (case["h"] + 7) // 8, (case["w"] + 7) // 8
    at = {}
    for block in blocks:
        w8, h8 = places_of(block[2])
        at |= {(block[0] + y, block[1] + x): block for y in range(h8) for x in range(w8)}
    if case["level"] == 0:
        return
    for first in ((r, c) for r in range(0, rows, 8) for c in range(0, cols, 8)):
        for plane, samples in enumerate(planes):
            subsampled = (case["ss_x"], case["ss_y"]) if plane else (0, 0)
            filter_superblock(case, at, samples, first, subsampled, plane > 0)
