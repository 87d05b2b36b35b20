"""Prediction: intra (8.5.1), by its formulas as they stand there, and inter (8.5.2), sample by sample."""
from .blocks import is_small, places_of
from .tables import rows

INTRA_MODES = ["Dc", "V", "H", "D45", "D135", "D117", "D153", "D207", "D63", "Tm"]
# regular, smooth, sharp, bilinear: 16 phases each
TAPS = rows("taps", 8)


# ---- intra


def mean2(x, y):
    return (x + y + 1) >> 1


def mean3(x, y, z):
    return (x + 2 * y + z + 2) >> 2


def dc(s, depth, A, L, has_above, has_left):
    there = [A[k] for k in range(s)] * has_above + [L[k] for k in range(s)] * has_left
    return (sum(there) + len(there) // 2) // len(there) if there else 1 << (depth - 1)


def d45(s, A, L, pred, i, j):
    return mean3(A[i + j], A[i + j + 1], A[i + j + 2]) if i + j + 2 < 2 * s else A[2 * s - 1]


def d63(s, A, L, pred, i, j):
    k = i // 2
    return mean2(A[k + j], A[k + j + 1]) if i % 2 == 0 else mean3(A[k + j], A[k + j + 1], A[k + j + 2])


def d117(s, A, L, pred, i, j):
    if i == 0:
        return mean2(A[j - 1], A[j])
    if i == 1:
        return mean3(L[0], A[-1], A[0]) if j == 0 else mean3(A[j - 2], A[j - 1], A[j])
    if j == 0:
        return mean3(A[-1], L[0], L[1]) if i == 2 else mean3(L[i - 3], L[i - 2], L[i - 1])
    return pred[i - 2, j - 1]


def d135(s, A, L, pred, i, j):
    if i == 0:
        return mean3(L[0], A[-1], A[0]) if j == 0 else mean3(A[j - 2], A[j - 1], A[j])
    if j == 0:
        return mean3(A[-1], L[0], L[1]) if i == 1 else mean3(L[i - 2], L[i - 1], L[i])
    return pred[i - 1, j - 1]


def d153(s, A, L, pred, i, j):
    if j == 0:
        return mean2(L[0], A[-1]) if i == 0 else mean2(L[i - 1], L[i])
    if j == 1:
        if i == 0:
            return mean3(L[0], A[-1], A[0])
        return mean3(A[-1], L[0], L[1]) if i == 1 else mean3(L[i - 2], L[i - 1], L[i])
    return mean3(A[j - 3], A[j - 2], A[j - 1]) if i == 0 else pred[i - 1, j - 2]


def d207(s, A, L, pred, i, j):
    """From the last row upwards."""
    if i == s - 1:
        return L[s - 1]
    if j == 0:
        return mean2(L[i], L[i + 1])
    if j == 1:
        return mean3(L[i], L[i + 1], L[i + 2]) if i < s - 2 else mean3(L[s - 2], L[s - 1], L[s - 1])
    return pred[i + 1, j - 2]


DIRECTED = {"D45": d45, "D63": d63, "D117": d117, "D135": d135, "D153": d153, "D207": d207}


def intra_predicted(mode, s, depth, A, L, has_above, has_left):
    """A has A[-1] under the key -1."""
    pred, most = {}, (1 << depth) - 1
    of_dc = dc(s, depth, A, L, has_above, has_left)
    for i in reversed(range(s)) if mode == "D207" else range(s):
        for j in range(s):
            if mode in DIRECTED:
                x = DIRECTED[mode](s, A, L, pred, i, j)
            else:
                x = {"Dc": of_dc, "V": A[j], "H": L[i], "Tm": max(0, min(most, L[i] + A[j] - A[-1]))}[mode]
            pred[i, j] = x
    return [pred[i, j] for i in range(s) for j in range(s)]


def edges(plane, width, height, depth, row, column, tile_from, block_end, s):
    has_above, has_left = row > 0, column > tile_from
    A, L = {}, []
    for j in range(2 * s):
        k = j if j < s or (s == 4 and column + 4 < block_end) else s - 1
        x = min(column + k, width - 1)
        A[j] = plane[(row - 1) * width + x] if has_above else (1 << (depth - 1)) - 1
    for i in range(s):
        y = min(row + i, height - 1)
        L.append(plane[y * width + column - 1] if has_left else (1 << (depth - 1)) + 1)
    if not has_above:
        A[-1] = (1 << (depth - 1)) - 1
    else:
        A[-1] = plane[(row - 1) * width + column - 1] if has_left else (1 << (depth - 1)) + 1
    return A, L, has_above, has_left


def put_intra(plane, width, height, depth, place, s, mode, residue=None):
    """Predicts a block at a row and column of a tile, and puts it with its residue into the plane."""
    row, column, tile_from, block_end = place
    block = intra_predicted(mode, s, depth, *edges(plane, width, height, depth, row, column, tile_from, block_end, s))
    if residue:
        most = (1 << depth) - 1
        block = [max(0, min(most, x + r)) for x, r in zip(block, residue)]
    for i in range(min(s, height - row)):
        for j in range(min(s, width - column)):
            plane[(row + i) * width + column + j] = block[i * s + j]


# ---- inter


def half_away(total, n):
    sign = -1 if total < 0 else 1
    return sign * ((abs(total) + n // 2) // n)


def vector_along(take, ss, small, number):
    """A component of the vector of a part of a block, by those of its quarters: they are averaged where chroma is halved."""
    if not small:
        return take[0]
    if ss == (0, 0):
        return take[number]
    if ss == (0, 1):
        return half_away(take[number] + take[number + 1], 2)
    if ss == (1, 0):
        return half_away(take[number] + take[number + 2], 2)
    return half_away(sum(take), 4)


def clamped(mv, halved, first, count, all_places):
    """In sixteenths, at most so far past the edges."""
    w = (8 * count) >> halved
    edge0, edge1 = -64 * first, 64 * (all_places - count - first)
    low = (2 * edge0 >> halved) - 16 * (4 + w)
    high = (2 * edge1 >> halved) + 16 * (4 + w) - 16
    return max(low, min(high, (2 * mv) >> halved))


def place_in(shape, reference, block, vectors, plane, number, vector_list):
    """One direction after the other: (start in the plane, length, start in the reference, step, size)."""
    width, height, ss_x, ss_y = shape
    row, col, size = block
    ss = (ss_y, ss_x) if plane else (0, 0)
    small = is_small(size)
    per_line = 2 >> ss[1]
    result = []
    for along in (0, 1):  # rows, then columns
        own, ref, first = (height, width)[along], (reference[1], reference[0])[along], (row, col)[along]
        count, all_places = places_of(size)[1 - along], (own + 7) // 8
        offset = 4 * (number // per_line, number % per_line)[along]
        mv = vector_along([vectors[quarter][vector_list][along] for quarter in range(4)], ss, small, number)
        mv = clamped(mv, ss[along], first, count, all_places)
        scale = (ref << 14) // own
        x = (8 * first >> ss[along]) + offset
        luma = 8 * first + offset
        start = (((x * scale) >> 14) << 4) + ((mv * scale) >> 14) + (((16 * luma * scale) >> 14) & 15)
        length = min(4 if small else (8 * count) >> ss[along], (8 * all_places >> ss[along]) - x)
        result.append((x, length, start, (16 * scale) >> 14, (ref + ss[along]) >> ss[along]))
    return result


def filtered(taps, samples, most):
    total = (sum(t * s for t, s in zip(taps, samples)) + 64) >> 7
    return max(0, min(most, total))


def inter_predicted(plane, depth, kind, down, across, row_count, columns):
    """down and across: (start, step, size). Each sample by itself."""
    most = (1 << depth) - 1

    def places(axis, j):
        start, step, size = axis
        at = (start & 15) + step * j
        return at & 15, [max(0, min(size - 1, (start >> 4) + (at >> 4) - 3 + k)) for k in range(8)]

    block = []
    for i in range(row_count):
        y_phase, y_places = places(down, i)
        for j in range(columns):
            x_phase, x_places = places(across, j)
            column = [filtered(TAPS[16 * kind + x_phase], [plane[y][x] for x in x_places], most) for y in y_places]
            block.append(filtered(TAPS[16 * kind + y_phase], column, most))
    return block
