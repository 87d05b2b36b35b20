/* The modes of inter frames of 1920x1080, read as crates/bench reads them, in C over the same bool decoder: the same
   bools, candidates, contexts and counts, in drawn partitions or such as are read too. It prints the same checksums. */
#include <inttypes.h>
#include <stdint.h>
#include <stdio.h>
#include <stdlib.h>
#include <string.h>
#include "tables.h"

#define SIZE ((size_t)8 << 20)
#define FRAMES 100
#define SEED 4u
#define ROWS 135
#define COLS 240
#define ROOM (64 * 17 * 30)

typedef struct {
    uint64_t window;
    uint32_t count, range;
    const uint8_t *rest, *end;
} decoder;

typedef struct {
    int16_t row, column;
} mv;

typedef struct {
    uint32_t row, col;
    uint8_t size, skip, tx, inter;
    uint8_t refs[2]; /* 3 where there is no second one */
    uint8_t filter, chroma;
    uint8_t modes[4];
    mv vectors[4][2];
} block;

typedef struct {
    block *blocks;
    block **places;
    int n;
} grid;

/* where each kind begins among the counters */
enum {
    TX8 = 0, TX16 = 2, TX32 = 6, SKIP = 1596, INTER_MODE = 1599, FILTER = 1620, IS_INTER = 1628, COMP_FLAG = 1632,
    SINGLE_REF = 1637, COMP_REF = 1647, Y_MODE = 1652, UV_MODE = 1688, PARTITION = 1778, MV_JOINT = 1826, MV_SIGN = 1829,
    MV_CLASS = 1831, MV_CLASS0 = 1851, MV_BITS = 1853, MV_CLASS0_FR = 1873, MV_FR = 1885, MV_CLASS0_HP = 1891,
    MV_HP = 1893, ALL = 1895
};
enum { NEAREST, NEAR, ZERO, NEW };

typedef struct {
    decoder d;
    grid now, before;
    int has_before, whole;
    uint32_t draws;
    uint8_t above[COLS], left[8];
    uint64_t counters[2 * ALL];
} tile;

static const int BIASES[3] = {0, 0, 1};
/* the reference that all compound blocks have, and the two others */
static const int FIXED = 2, VARIABLE[2] = {0, 1};

static uint32_t drawn(uint32_t state) { return state * 1664525u + 1013904223u; }

static __attribute__((noinline, cold)) void fill(decoder *d) {
    uint64_t six = 0;
    if (d->end - d->rest >= 8) {
        uint64_t eight;
        memcpy(&eight, d->rest, 8);
        six = __builtin_bswap64(eight) >> 16;
        d->rest += 6;
    } else {
        for (int k = 0; k < 6; k++)
            six = six << 8 | (d->rest < d->end ? *d->rest++ : 0);
    }
    d->window |= six << (16 - d->count);
    d->count += 48;
}

static inline __attribute__((always_inline)) int bit(decoder *d, uint32_t p) {
    if (__builtin_expect(d->count < 15, 0)) fill(d);
    uint32_t split = 1 + (((d->range - 1) * p) >> 8);
    uint64_t border = (uint64_t)split << 56;
    uint32_t range = split;
    uint64_t window = d->window;
    int one = 0;
    if (window >= border) {
        window -= border;
        range = d->range - split;
        one = 1;
    }
    uint32_t shift = __builtin_clz(range) - 24;
    d->window = window << shift;
    d->range = range << shift;
    d->count -= shift;
    return one;
}

static void start(decoder *d, const uint8_t *bytes, size_t size) {
    *d = (decoder){0, 0, 255, bytes, bytes + size};
    fill(d);
    bit(d, 128);
}

static inline __attribute__((always_inline)) int flag(tile *t, int at, int p) {
    int one = bit(&t->d, p);
    t->counters[2 * at + one]++;
    return one;
}

static inline int tree(tile *t, int first, const int8_t *tree, const uint8_t *probs) {
    int i = 0;
    do i = tree[i + flag(t, first + i / 2, probs[i / 2])];
    while (i > 0);
    return -i;
}

static inline const block *at(const grid *g, int r, int c) { return g->places[r * COLS + c]; }
static inline int width_8(int size) { return BLOCK_SIZES[2 * size] < 8 ? 1 : BLOCK_SIZES[2 * size] / 8; }
static inline int height_8(int size) { return BLOCK_SIZES[2 * size + 1] < 8 ? 1 : BLOCK_SIZES[2 * size + 1] / 8; }
static inline int is_same(mv a, mv b) { return a.row == b.row && a.column == b.column; }
static inline int clip(int x, int low, int high) { return x < low ? low : x > high ? high : x; }

/* Vector candidates */

typedef struct {
    mv v[2];
    int n;
} found;

/* whether two are found */
static inline int add(found *f, mv v) {
    if (f->n == 0) {
        f->v[0] = v;
        f->n = 1;
        return 0;
    }
    if (is_same(f->v[0], v)) return 0;
    f->v[1] = v;
    f->n = 2;
    return 1;
}

static inline const block *neighbour(const tile *t, const block *b, const int8_t *offset) {
    int r = (int)b->row + offset[0], c = (int)b->col + offset[1];
    return r >= 0 && r < ROWS && c >= 0 && c < COLS ? at(&t->now, r, c) : 0;
}

static inline int add_own(found *f, const block *n, int ref, int quarter) {
    if (!n || !n->inter) return 0;
    if (n->refs[0] == ref) return add(f, n->vectors[quarter][0]);
    if (n->refs[1] == ref) return add(f, n->vectors[quarter][1]);
    return 0;
}

static inline mv turned(int ref, int other, mv v) {
    return BIASES[ref] == BIASES[other] ? v : (mv){-v.row, -v.column};
}

static inline int add_others(found *f, const block *n, int ref) {
    if (!n || !n->inter) return 0;
    if (n->refs[0] != ref && add(f, turned(ref, n->refs[0], n->vectors[3][0]))) return 1;
    if (n->refs[1] < 3 && n->refs[1] != ref && !is_same(n->vectors[3][0], n->vectors[3][1]))
        return add(f, turned(ref, n->refs[1], n->vectors[3][1]));
    return 0;
}

/* the first two that differ; sub is the quarter, or -1 */
static found search(const tile *t, const block *b, int ref, int sub) {
    found f = {{{0, 0}, {0, 0}}, 0};
    const int8_t *offsets = MV_REF_OFFSETS + 16 * b->size;
    const block *n;
    for (int k = 0; k < 2; k++) {
        n = neighbour(t, b, offsets + 2 * k);
        int quarter = n && sub >= 0 && n->size < 3 ? SUBBLOCK_OF_NEIGHBOUR[2 * sub + (offsets[2 * k + 1] == 0)] : 3;
        if (add_own(&f, n, ref, quarter)) return f;
    }
    for (int k = 2; k < 8; k++)
        if (add_own(&f, neighbour(t, b, offsets + 2 * k), ref, 3)) return f;
    const block *before = t->has_before ? at(&t->before, b->row, b->col) : 0;
    if (add_own(&f, before, ref, 3)) return f;
    for (int k = 0; k < 8; k++)
        if (add_others(&f, neighbour(t, b, offsets + 2 * k), ref)) return f;
    add_others(&f, before, ref);
    return f;
}

static void candidates(const tile *t, const block *b, int ref, int sub, mv out[2]) {
    found f = search(t, b, ref, sub);
    int r = b->row, c = b->col, h = height_8(b->size), w = width_8(b->size);
    for (int k = 0; k < 2; k++)
        out[k] = (mv){clip(f.v[k].row, -(64 * r + 128), 64 * (ROWS - r - h) + 128),
                      clip(f.v[k].column, -(64 * c + 128), 64 * (COLS - c - w) + 128)};
}

static inline int is_precise(mv v) { return abs(v.row) < 64 && abs(v.column) < 64; }
static inline mv rounded(mv v) { return is_precise(v) ? v : (mv){v.row / 2 * 2, v.column / 2 * 2}; }

static inline int counter_of(const block *n) { return n ? MODE_COUNTERS[n->inter ? 10 + n->modes[3] : 0] : 0; }

static int mode_context(const tile *t, const block *b) {
    const int8_t *offsets = MV_REF_OFFSETS + 16 * b->size;
    return COUNTER_TO_CONTEXT[counter_of(neighbour(t, b, offsets)) + counter_of(neighbour(t, b, offsets + 2))];
}

/* Differences */

static int component(tile *t, int c, int precise) {
    int sign = flag(t, MV_SIGN + c, PROB_MV_SIGN[c]);
    int n = tree(t, MV_CLASS + 10 * c, TREE_MV_CLASS, PROB_MV_CLASS + 10 * c);
    int size, high = 1;
    if (n == 0) {
        int whole = flag(t, MV_CLASS0 + c, PROB_MV_CLASS0[c]), first = 6 * c + 3 * whole;
        int fraction = tree(t, MV_CLASS0_FR + first, TREE_MV_FR, PROB_MV_CLASS0_FR + first);
        if (precise)
            high = flag(t, MV_CLASS0_HP + c, PROB_MV_CLASS0_HP[c]);
        else
            t->counters[2 * (MV_CLASS0_HP + c) + 1]++;
        size = 8 * whole + 2 * fraction + high + 1;
    } else {
        int whole = 0;
        for (int i = 0; i < n; i++) whole |= flag(t, MV_BITS + 10 * c + i, PROB_MV_BITS[10 * c + i]) << i;
        int fraction = tree(t, MV_FR + 3 * c, TREE_MV_FR, PROB_MV_FR + 3 * c);
        if (precise)
            high = flag(t, MV_HP + c, PROB_MV_HP[c]);
        else
            t->counters[2 * (MV_HP + c) + 1]++;
        size = (8 << n) + 8 * whole + 2 * fraction + high + 1;
    }
    return sign ? -size : size;
}

static int new_vector(tile *t, mv best, mv *out) {
    int precise = is_precise(best), joint = tree(t, MV_JOINT, TREE_MV_JOINT, PROB_MV_JOINT);
    int row = best.row, column = best.column;
    if (joint & 2) row += component(t, 0, precise);
    if (joint & 1) column += component(t, 1, precise);
    *out = (mv){row, column};
    return abs(row) < 16384 && abs(column) < 16384;
}

/* Blocks */

static inline int kind_of(const block *n) {
    if (!n) return 0;
    if (!n->inter) return 1;
    if (n->refs[1] == 3) return 2 + n->refs[0];
    return 5 + (n->refs[0] == FIXED ? n->refs[1] : n->refs[0]);
}

static void references(tile *t, block *b, const block *above, const block *left) {
    const uint8_t *contexts = REF_CONTEXTS + 64 * FIXED + 8 * kind_of(above) + kind_of(left);
    int c = contexts[0];
    if (flag(t, COMP_FLAG + c, PROB_COMP_FLAG[c])) {
        c = contexts[192];
        int other = VARIABLE[flag(t, COMP_REF + c, PROB_COMP_REF[c])];
        b->refs[0] = BIASES[FIXED] ? other : FIXED;
        b->refs[1] = BIASES[FIXED] ? FIXED : other;
        return;
    }
    b->refs[0] = 0;
    b->refs[1] = 3;
    c = 2 * contexts[384];
    if (flag(t, SINGLE_REF + c, PROB_SINGLE_REF[c])) {
        c = 2 * contexts[576] + 1;
        b->refs[0] = 1 + flag(t, SINGLE_REF + c, PROB_SINGLE_REF[c]);
    }
}

static inline int inter_mode(tile *t, int context) {
    return tree(t, INTER_MODE + 3 * context, TREE_INTER_MODE, PROB_INTER_MODE + 3 * context);
}

static int whole_vector(tile *t, const block *b, int mode, int ref, mv *out) {
    mv two[2];
    if (mode == ZERO) {
        *out = (mv){0, 0};
        return 1;
    }
    candidates(t, b, ref, -1, two);
    if (mode == NEW) return new_vector(t, rounded(two[0]), out);
    *out = rounded(two[mode == NEAR]);
    return 1;
}

static mv other_than(mv v, const mv *list, int n) {
    for (int k = 0; k < n; k++)
        if (!is_same(v, list[k])) return list[k];
    return (mv){0, 0};
}

static int quarter_vector(tile *t, const block *b, int mode, int list, int sub, mv best, mv *out) {
    mv two[2];
    if (mode == NEW) return new_vector(t, best, out);
    if (mode == ZERO) {
        *out = (mv){0, 0};
        return 1;
    }
    if (mode == NEAREST && sub > 0) {
        *out = b->vectors[sub < 3 ? 0 : 2][list];
        return 1;
    }
    candidates(t, b, b->refs[list], sub, two);
    if (sub == 0)
        *out = two[mode == NEAR];
    else if (sub < 3)
        *out = other_than(b->vectors[0][list], two, 2);
    else {
        mv all[4] = {b->vectors[1][list], b->vectors[0][list], two[0], two[1]};
        *out = other_than(b->vectors[2][list], all, 4);
    }
    return 1;
}

static int quarters(tile *t, block *b, int context) {
    mv best[2] = {{0, 0}, {0, 0}}, two[2];
    int lists = 1 + (b->refs[1] < 3), wide = b->size == 2, high = b->size == 1;
    for (int list = 0; list < lists; list++) {
        candidates(t, b, b->refs[list], -1, two);
        best[list] = rounded(two[0]);
    }
    for (int k = 0; k < 4; k += high && k == 1 ? 3 : 1 + wide) {
        int mode = inter_mode(t, context);
        mv row[2] = {{0, 0}, {0, 0}};
        for (int list = 0; list < lists; list++)
            if (!quarter_vector(t, b, mode, list, k, best[list], &row[list])) return 0;
        for (int j = k; j < 4; j += high ? 2 : 1) {
            if (j > k + wide && !high) break;
            b->modes[j] = mode;
            memcpy(b->vectors[j], row, sizeof row);
        }
    }
    return 1;
}

static inline int filter_beside(const block *n) { return n && n->inter ? n->filter : 3; }

static int inter(tile *t, block *b, const block *above, const block *left) {
    references(t, b, above, left);
    int context = mode_context(t, b), mode = 0, below = b->size < 3;
    if (!below) mode = inter_mode(t, context);
    int a = filter_beside(above), l = filter_beside(left);
    int c = l == a ? l : l == 3 ? a : a == 3 ? l : 3;
    b->filter = tree(t, FILTER + 2 * c, TREE_FILTER, PROB_FILTER + 2 * c);
    if (below) return quarters(t, b, context);
    mv row[2] = {{0, 0}, {0, 0}};
    for (int list = 0; list < 2 && b->refs[list] < 3; list++)
        if (!whole_vector(t, b, mode, b->refs[list], &row[list])) return 0;
    for (int k = 0; k < 4; k++) {
        b->modes[k] = mode;
        memcpy(b->vectors[k], row, sizeof row);
    }
    return 1;
}

static inline int y_mode(tile *t, int group) {
    return tree(t, Y_MODE + 9 * group, TREE_INTRA_MODE, PROB_Y_MODE + 9 * group);
}

static void intra(tile *t, block *b) {
    uint8_t *m = b->modes;
    switch (b->size) {
    case 0:
        for (int k = 0; k < 4; k++) m[k] = y_mode(t, 0);
        break;
    case 1:
        m[0] = m[2] = y_mode(t, 0);
        m[1] = m[3] = y_mode(t, 0);
        break;
    case 2:
        m[0] = m[1] = y_mode(t, 0);
        m[2] = m[3] = y_mode(t, 0);
        break;
    default: memset(m, y_mode(t, SIZE_GROUP[b->size]), 4);
    }
    b->chroma = tree(t, UV_MODE + 9 * m[3], TREE_INTRA_MODE, PROB_UV_MODE + 9 * m[3]);
}

static int greatest_tx(int size) { return size < 3 ? 0 : size < 6 ? 1 : size < 9 ? 2 : 3; }

static int tx_size(tile *t, int size, const block *above, const block *left) {
    int greatest = greatest_tx(size);
    int a = above ? above->skip ? greatest : above->tx : -1, l = left ? left->skip ? greatest : left->tx : -1;
    if (a < 0) a = l < 0 ? greatest : l;
    if (l < 0) l = a;
    int c = a + l > greatest;
    switch (greatest) {
    case 0: return 0;
    case 1: return tree(t, TX8 + c, TREE_TX8, PROB_TX8 + c);
    case 2: return tree(t, TX16 + 2 * c, TREE_TX16, PROB_TX16 + 2 * c);
    default: return tree(t, TX32 + 3 * c, TREE_TX32, PROB_TX32 + 3 * c);
    }
}

static int modes(tile *t, block *b) {
    const block *above = b->row ? at(&t->now, b->row - 1, b->col) : 0;
    const block *left = b->col ? at(&t->now, b->row, b->col - 1) : 0;
    int c = (above ? above->skip : 0) + (left ? left->skip : 0);
    b->skip = flag(t, SKIP + c, PROB_SKIP[c]);
    if (above && left)
        c = !above->inter && !left->inter ? 3 : !above->inter || !left->inter;
    else
        c = above ? 2 * !above->inter : left ? 2 * !left->inter : 0;
    b->inter = flag(t, IS_INTER + c, PROB_IS_INTER[c]);
    b->tx = b->skip && b->inter ? greatest_tx(b->size) : tx_size(t, b->size, above, left);
    if (b->inter) return inter(t, b, above, left);
    intra(t, b);
    return 1;
}

static void read_block(tile *t, int r, int c, int size) {
    block *b = &t->now.blocks[t->now.n++];
    int h = height_8(size), w = width_8(size);
    *b = (block){.row = r, .col = c, .size = size};
    if (!modes(t, b)) *b = (block){.row = r, .col = c, .size = size};
    if (h > ROWS - r) h = ROWS - r;
    if (w > COLS - c) w = COLS - c;
    for (int i = r; i < r + h; i++)
        for (int j = c; j < c + w; j++) t->now.places[i * COLS + j] = b;
}

static const uint8_t SIZES[4][4] = {{3, 2, 1, 0}, {6, 5, 4, 3}, {9, 8, 7, 6}, {12, 11, 10, 9}};

/* The contexts above and at the left have a bit for each level whose squares are wider or higher than the block there. */
static int read_partition(tile *t, int r, int c, int level) {
    int half = (1 << level) / 2, rows = r + half < ROWS, cols = c + half < COLS, p;
    int context = 4 * level + 2 * (t->left[r & 7] >> level & 1) + (t->above[c] >> level & 1);
    const uint8_t *probs = PROB_PARTITION + 3 * context;
    if (rows && cols) {
        p = TREE_PARTITION[bit(&t->d, probs[0])];
        if (p > 0) p = TREE_PARTITION[p + bit(&t->d, probs[1])];
        if (p > 0) p = TREE_PARTITION[p + bit(&t->d, probs[2])];
        p = -p;
    } else if (cols)
        p = bit(&t->d, probs[1]) ? 3 : 1;
    else if (rows)
        p = bit(&t->d, probs[2]) ? 3 : 2;
    else
        p = 3;
    for (int k = 0; k < p; k++) t->counters[2 * (PARTITION + 3 * context + k) + 1]++;
    if (p < 3) t->counters[2 * (PARTITION + 3 * context + p)]++;
    return p;
}

static int draw_partition(tile *t) {
    t->draws = drawn(t->draws);
    return t->draws >> 29 < 3 ? t->draws >> 29 : 3;
}

static void inside(tile *t, int r, int c, int size) {
    if (r < ROWS && c < COLS) read_block(t, r, c, size);
}

static void read_square(tile *t, int r, int c, int level) {
    if (r >= ROWS || c >= COLS) return;
    int p = t->whole ? read_partition(t, r, c, level) : draw_partition(t);
    int side = 1 << level, half = side / 2, size = SIZES[level][p];
    if (level > 0 && p == 3) {
        read_square(t, r, c, level - 1);
        read_square(t, r, c + half, level - 1);
        read_square(t, r + half, c, level - 1);
        read_square(t, r + half, c + half, level - 1);
        return;
    }
    read_block(t, r, c, size);
    if (level > 0 && p == 1) inside(t, r + half, c, size);
    if (level > 0 && p == 2) inside(t, r, c + half, size);
    if (!t->whole) return;
    int above = 0, left = 0;
    for (int k = 0; k < 4; k++) {
        above |= (BLOCK_SIZES[2 * size] < 8 << k) << k;
        left |= (BLOCK_SIZES[2 * size + 1] < 8 << k) << k;
    }
    memset(t->above + c, above, side < COLS - c ? side : COLS - c);
    memset(t->left + (r & 7), left, side);
}

static void read_frame(tile *t) {
    if (t->has_before) {
        free(t->before.blocks);
        free(t->before.places);
    }
    t->before = t->now;
    t->has_before = t->now.n > 0;
    t->now = (grid){malloc(ROOM * sizeof(block)), calloc(ROWS * COLS, sizeof(block *)), 0};
    memset(t->above, 0, sizeof t->above);
    for (int r = 0; r < ROWS; r += 8) {
        memset(t->left, 0, sizeof t->left);
        for (int c = 0; c < COLS; c += 8) read_square(t, r, c, 3);
    }
}

/* Checksums */

static uint32_t sum;
static void add_number(int64_t x) { sum = sum * 31 + (uint32_t)(x + 65536); }

static void add_block(const block *b) {
    add_number(b->row);
    add_number(b->col);
    add_number(b->size);
    add_number(b->skip);
    add_number(b->tx);
    for (int k = 0; k < 4; k++) add_number(b->modes[k]);
    if (!b->inter) {
        add_number(b->chroma);
        return;
    }
    add_number(b->refs[0]);
    add_number(b->refs[1]);
    add_number(b->filter);
    for (int k = 0; k < 8; k++) {
        add_number(b->vectors[k / 2][k % 2].row);
        add_number(b->vectors[k / 2][k % 2].column);
    }
}

int main(void) {
    uint8_t *bytes = malloc(SIZE);
    uint32_t state = SEED;
    for (size_t k = 0; k < SIZE; k++) {
        state = drawn(state);
        bytes[k] = state >> 24;
    }
    char line[64];
    while (fgets(line, sizeof line, stdin)) {
        line[strcspn(line, "\n")] = 0;
        tile *t = calloc(1, sizeof *t);
        t->whole = !strncmp(line, "whole ", 6);
        int frames = atoi(line + 6 * t->whole);
        for (int k = 0; k < frames; k++) {
            if (k % FRAMES == 0) start(&t->d, bytes, SIZE);
            read_frame(t);
        }
        sum = 0;
        for (int k = 0; k < t->now.n; k++) add_block(&t->now.blocks[k]);
        printf("%s: %d blocks, %" PRIu32, line, t->now.n, sum);
        sum = 0;
        for (int k = 0; k < 24; k++) add_number(t->counters[k] & 65535);
        for (int k = 2 * SKIP; k < 2 * ALL; k++) add_number(t->counters[k] & 65535);
        printf(" %" PRIu32 "\n", sum);
    }
    return 0;
}
