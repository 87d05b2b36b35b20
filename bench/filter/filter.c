/* The loop filter in C, line by line: it draws and filters what crates/bench does, and prints the same checksums.
   Each line is filtered with early returns, and the functions of a width are compiled for both directions. */
#include <inttypes.h>
#include <stddef.h>
#include <stdint.h>
#include <stdio.h>
#include <stdlib.h>
#include <string.h>

#define W 1920
#define H 1080
#define ROWS ((H + 7) / 8)
#define COLS ((W + 7) / 8)
#define INLINE static inline __attribute__((always_inline))

typedef struct {
    uint8_t skip, inter, tx, w8, h8, uv_tx;
} block;

typedef struct {
    int limit, blimit, thresh, one, half;
} limits;

typedef struct {
    uint16_t *samples;
    int width, height, ss;
} plane;

static block *at[ROWS * COLS];
static block blocks[ROWS * COLS];

static uint32_t next(uint32_t s) { return s * 1664525u + 1013904223u; }
static const int sizes[13][2] = {{4, 4}, {4, 8}, {8, 4}, {8, 8}, {8, 16}, {16, 8}, {16, 16}, {16, 32}, {32, 16}, {32, 32}, {32, 64}, {64, 32}, {64, 64}};
static int tx_within(int w, int h) {
    int side = w < h ? w : h;
    return side >= 32 ? 3 : side >= 16 ? 2 : side >= 8 ? 1 : 0;
}

static void draw_blocks(void) {
    int count = 0;
    for (int r = 0; r < ROWS; r++)
        for (int c = 0; c < COLS; c++) {
            uint32_t number = (next(next((uint32_t)(r / 8 * 1000 + c / 8))) >> 16) % 13;
            int w = sizes[number][0], h = sizes[number][1], w8 = w < 8 ? 1 : w / 8, h8 = h < 8 ? 1 : h / 8;
            if (r % h8 || c % w8) continue;
            uint32_t draw = next(next((uint32_t)(r * COLS + c)));
            int tx = (draw >> 16) % 5, most = tx_within(w, h), uv = tx_within(w / 2, h / 2);
            block *b = &blocks[count++];
            if (tx > most) tx = most;
            *b = (block){(draw >> 8) % 3 > 0, (draw >> 12) % 2, tx, w8, h8, w < 8 || h < 8 ? 0 : tx < uv ? tx : uv};
            for (int y = r; y < r + h8 && y < ROWS; y++)
                for (int x = c; x < c + w8 && x < COLS; x++) at[y * COLS + x] = b;
        }
}

static void draw_plane(plane *p, uint32_t seed) {
    static const uint32_t spreads[8] = {1, 2, 3, 4, 6, 10, 30, 2};
    uint32_t s = seed;
    for (int y = 0; y < p->height; y++)
        for (int x = 0; x < p->width; x++) {
            s = next(s);
            uint32_t v = 100 + (x / 8 * 5 + y / 8 * 3) % 11 + (s >> 16) * spreads[(y / 16 + 3 * (x / 16)) % 8] / 65536;
            p->samples[y * p->width + x] = v > 255 ? 255 : v;
        }
}

INLINE int clamp(int x, int half) { return x < -half ? -half : x > half - 1 ? half - 1 : x; }

INLINE void narrow(uint16_t *s, ptrdiff_t n, const limits *l) {
    int p1 = s[-2 * n], p0 = s[-n], q0 = s[0], q1 = s[n], h = l->half;
    int hev = abs(p1 - p0) > l->thresh || abs(q1 - q0) > l->thresh;
    int f = hev ? clamp(p1 - q1, h) : 0;
    f = clamp(f + 3 * (q0 - p0), h);
    int a = clamp(f + 4, h) >> 3, b = clamp(f + 3, h) >> 3;
    s[0] = clamp(q0 - h - a, h) + h;
    s[-n] = clamp(p0 - h + b, h) + h;
    if (!hev) {
        int g = (a + 1) >> 1;
        s[n] = clamp(q1 - h - g, h) + h;
        s[-2 * n] = clamp(p1 - h + g, h) + h;
    }
}

INLINE void smooth8(uint16_t *s, ptrdiff_t n) {
    int p3 = s[-4 * n], p2 = s[-3 * n], p1 = s[-2 * n], p0 = s[-n], q0 = s[0], q1 = s[n], q2 = s[2 * n], q3 = s[3 * n];
    s[-3 * n] = (p3 + p3 + p3 + 2 * p2 + p1 + p0 + q0 + 4) >> 3;
    s[-2 * n] = (p3 + p3 + p2 + 2 * p1 + p0 + q0 + q1 + 4) >> 3;
    s[-n] = (p3 + p2 + p1 + 2 * p0 + q0 + q1 + q2 + 4) >> 3;
    s[0] = (p2 + p1 + p0 + 2 * q0 + q1 + q2 + q3 + 4) >> 3;
    s[n] = (p1 + p0 + q0 + 2 * q1 + q2 + q3 + q3 + 4) >> 3;
    s[2 * n] = (p0 + q0 + q1 + 2 * q2 + q3 + q3 + q3 + 4) >> 3;
}

INLINE void smooth16(uint16_t *s, ptrdiff_t n) {
    int v[16], sum;
    for (int i = 0; i < 16; i++) v[i] = s[(i - 8) * n];
    sum = v[0] * 7 + v[1] * 2 + v[2] + v[3] + v[4] + v[5] + v[6] + v[7] + v[8] + 8;
    s[-7 * n] = sum >> 4;
    for (int i = 2; i < 15; i++) {
        sum += v[i + 7 > 15 ? 15 : i + 7] + v[i] - v[i - 8 < 0 ? 0 : i - 8] - v[i - 1];
        s[(i - 8) * n] = sum >> 4;
    }
}

INLINE void line(uint16_t *s, ptrdiff_t n, int width, const limits *l) {
    int p3 = s[-4 * n], p2 = s[-3 * n], p1 = s[-2 * n], p0 = s[-n], q0 = s[0], q1 = s[n], q2 = s[2 * n], q3 = s[3 * n], m = l->limit, o = l->one;
    if (abs(p3 - p2) > m || abs(p2 - p1) > m || abs(p1 - p0) > m || abs(q1 - q0) > m || abs(q2 - q1) > m || abs(q3 - q2) > m ||
        abs(p0 - q0) * 2 + abs(p1 - q1) / 2 > l->blimit)
        return;
    if (width >= 8 && abs(p1 - p0) <= o && abs(q1 - q0) <= o && abs(p2 - p0) <= o && abs(q2 - q0) <= o && abs(p3 - p0) <= o && abs(q3 - q0) <= o) {
        if (width == 16 && abs(s[-5 * n] - p0) <= o && abs(s[4 * n] - q0) <= o && abs(s[-6 * n] - p0) <= o && abs(s[5 * n] - q0) <= o &&
            abs(s[-7 * n] - p0) <= o && abs(s[6 * n] - q0) <= o && abs(s[-8 * n] - p0) <= o && abs(s[7 * n] - q0) <= o)
            smooth16(s, n);
        else
            smooth8(s, n);
    } else
        narrow(s, n, l);
}

static __attribute__((noinline)) void across4(uint16_t *s, int w, int k, const limits *l) { for (int i = 0; i < k; i++) line(s + i, w, 4, l); }
static __attribute__((noinline)) void across8(uint16_t *s, int w, int k, const limits *l) { for (int i = 0; i < k; i++) line(s + i, w, 8, l); }
static __attribute__((noinline)) void across16(uint16_t *s, int w, int k, const limits *l) { for (int i = 0; i < k; i++) line(s + i, w, 16, l); }
static __attribute__((noinline)) void along4(uint16_t *s, int w, int k, const limits *l) { for (int i = 0; i < k; i++) line(s + i * w, 1, 4, l); }
static __attribute__((noinline)) void along8(uint16_t *s, int w, int k, const limits *l) { for (int i = 0; i < k; i++) line(s + i * w, 1, 8, l); }
static __attribute__((noinline)) void along16(uint16_t *s, int w, int k, const limits *l) { for (int i = 0; i < k; i++) line(s + i * w, 1, 16, l); }

static void edge(plane *p, int vertical, int y, int x, int width, const limits *l) {
    uint16_t *s = p->samples + y * p->width + x;
    int k = vertical ? p->height - y : p->width - x;
    if (k > 8) k = 8;
    if (vertical)
        (width == 16 ? along16 : width == 8 ? along8 : along4)(s, p->width, k, l);
    else
        (width == 16 ? across16 : width == 8 ? across8 : across4)(s, p->width, k, l);
}

static void cell(plane *p, int vertical, int r, int c, const limits *l) {
    const block *b = at[r * COLS + c];
    int ss = p->ss, tx = ss ? b->uv_tx : b->tx, smooth = b->skip && b->inter;
    int last_col = ss && c == COLS - 1, last_row = ss && r == ROWS - 1;
    int place = vertical ? c : r, k = (place % 8) >> ss, border = place % (vertical ? b->w8 : b->h8) == 0;
    int last = vertical ? last_col : last_row, y = (8 * r) >> ss, x = (8 * c) >> ss;
    if (place && (!smooth || border)) {
        if ((tx == 3 && k % 4 == 0) || (tx == 2 && k % 2 == 0)) edge(p, vertical, y, x, last ? 8 : 16, l);
        if (tx == 1) edge(p, vertical, y, x, 8, l);
        if (tx == 0) edge(p, vertical, y, x, k % 4 == 0 ? 8 : 4, l);
    }
    if (tx == 0 && !smooth && !last_col && !last) edge(p, vertical, vertical ? y : y + 4, vertical ? x + 4 : x, 4, l);
}

static void filter_frame(plane *planes, int level) {
    int limit = level < 1 ? 1 : level;
    limits l = {limit, 2 * (level + 2) + limit, level >> 4, 1, 128};
    if (!level) return;
    for (int sr = 0; sr < ROWS; sr += 8)
        for (int sc = 0; sc < COLS; sc += 8)
            for (int i = 0; i < 3; i++)
                for (int vertical = 1; vertical >= 0; vertical--)
                    for (int r = sr; r < sr + 8 && r < ROWS; r += 1 << planes[i].ss)
                        for (int c = sc; c < sc + 8 && c < COLS; c += 1 << planes[i].ss) cell(&planes[i], vertical, r, c, &l);
}

int main(void) {
    int level;
    uint32_t count;
    plane planes[3];
    draw_blocks();
    for (int i = 0; i < 3; i++) {
        int ss = i > 0;
        planes[i] = (plane){calloc((8 * ROWS >> ss) * (8 * COLS >> ss), 2), 8 * COLS >> ss, 8 * ROWS >> ss, ss};
    }
    while (scanf("%d %" SCNu32, &level, &count) == 2) {
        for (int i = 0; i < 3; i++) memset(planes[i].samples, 0, 2 * planes[i].width * planes[i].height);
        for (uint32_t n = 0; n < count; n++) {
            for (int i = 0; i < 3; i++) draw_plane(&planes[i], n + i + 1);
            filter_frame(planes, level);
        }
        uint64_t sum = 0;
        for (int i = 0; i < 3; i++)
            for (int k = 0; k < planes[i].width * planes[i].height; k++) sum = sum * 31 + planes[i].samples[k];
        printf("%d %" PRIu32 ": %" PRIu64 "\n", level, count, sum);
    }
}
