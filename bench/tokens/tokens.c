/* The reading of tokens of crates/coef_tokens in C, over the same bool decoder. It reads what crates/bench reads,
   and prints the same checksums. */
#include <inttypes.h>
#include <stdint.h>
#include <stdio.h>
#include <stdlib.h>
#include <string.h>
#include "tables.h"

#define SIZE ((size_t)8 << 20)
#define ROUNDS 20000
#define SEED 4u

typedef struct {
    uint64_t window;
    uint32_t count, range;
    const uint8_t *rest, *end;
} decoder;

static uint32_t drawn(uint32_t state) { return state * 1664525u + 1013904223u; }

static __attribute__((noinline, cold)) void fill(decoder *d) {
    uint64_t six = 0;
    if (d->end - d->rest >= 8) {
        uint64_t eight;
        memcpy(&eight, d->rest, 8);
        six = __builtin_bswap64(eight) >> 16;
        d->rest += 6;
    } else {
        for (int k = 0; k < 6; k++)
            six = six << 8 | (d->rest < d->end ? *d->rest++ : 0);
    }
    d->window |= six << (16 - d->count);
    d->count += 48;
}

static inline __attribute__((always_inline)) int bit(decoder *d, uint32_t p) {
    if (__builtin_expect(d->count < 15, 0)) fill(d);
    uint32_t split = 1 + (((d->range - 1) * p) >> 8);
    uint64_t border = (uint64_t)split << 56;
    uint32_t range = split;
    uint64_t window = d->window;
    int one = 0;
    if (window >= border) {
        window -= border;
        range = d->range - split;
        one = 1;
    }
    uint32_t shift = __builtin_clz(range) - 24;
    d->window = window << shift;
    d->range = range << shift;
    d->count -= shift;
    return one;
}

static void start(decoder *d, const uint8_t *bytes, size_t size) {
    *d = (decoder){0, 0, 255, bytes, bytes + size};
    fill(d);
    bit(d, 128);
}

enum { DCT_DCT, ADST_DCT, DCT_ADST, ADST_ADST };

static const uint16_t *const SCANS[4][3] = {
    {SCAN_DEFAULT_4, SCAN_ROW_4, SCAN_COLUMN_4},
    {SCAN_DEFAULT_8, SCAN_ROW_8, SCAN_COLUMN_8},
    {SCAN_DEFAULT_16, SCAN_ROW_16, SCAN_COLUMN_16},
    {SCAN_DEFAULT_32, SCAN_DEFAULT_32, SCAN_DEFAULT_32},
};
static const uint16_t *const NEIGHBOURS[4][3] = {
    {NEIGHBOURS_DEFAULT_4, NEIGHBOURS_ROW_4, NEIGHBOURS_COLUMN_4},
    {NEIGHBOURS_DEFAULT_8, NEIGHBOURS_ROW_8, NEIGHBOURS_COLUMN_8},
    {NEIGHBOURS_DEFAULT_16, NEIGHBOURS_ROW_16, NEIGHBOURS_COLUMN_16},
    {NEIGHBOURS_DEFAULT_32, NEIGHBOURS_DEFAULT_32, NEIGHBOURS_DEFAULT_32},
};
static const uint8_t CATEGORIES[6][15] = {
    {159}, {165, 145}, {173, 148, 140}, {176, 155, 140, 135}, {180, 157, 141, 134, 130},
    {254, 254, 254, 252, 249, 243, 230, 196, 177, 153, 140, 133, 130, 129},
};
static const int BASES[6] = {5, 7, 11, 19, 35, 67};
static uint8_t probs[1584];
static uint64_t counters[2 * 1584];

static inline int tail_prob(int q, int node) {
    int row = (q - 1) / 2;
    if (q % 2 == 1) return PARETO[8 * row + node];
    return (PARETO[8 * row + node] + PARETO[8 * row + 8 + node]) / 2;
}

static inline int tail(decoder *d, int q) {
    if (!bit(d, tail_prob(q, 0))) {
        if (!bit(d, tail_prob(q, 1))) return 2;
        return bit(d, tail_prob(q, 2)) ? 4 : 3;
    }
    if (!bit(d, tail_prob(q, 3))) return bit(d, tail_prob(q, 4)) ? 6 : 5;
    if (!bit(d, tail_prob(q, 5))) return bit(d, tail_prob(q, 6)) ? 8 : 7;
    return bit(d, tail_prob(q, 7)) ? 10 : 9;
}

static uint32_t tokens(decoder *behind, int tx, int kind, int chroma, int inter, int first, int32_t *levels) {
    int n = 16 << (2 * tx), scan_kind = kind == ADST_DCT ? 1 : kind == DCT_ADST ? 2 : 0;
    const uint16_t *scan = SCANS[tx][scan_kind], *beside = NEIGHBOURS[tx][scan_kind];
    const uint16_t *bands = tx ? COEF_BAND_LARGE : COEF_BAND_4X4;
    int base = 99 * (4 * tx + 2 * chroma + inter);
    uint8_t cache[1024];
    memset(cache, 0, n);
    decoder d = *behind;
    int check = 1, c;
    for (c = 0; c < n; c++) {
        int context = c ? (1 + cache[beside[2 * c]] + cache[beside[2 * c + 1]]) / 2 : first;
        int band = bands[c], at = base + 3 * (band ? 6 * band + context - 3 : context);
        if (check) {
            int more = bit(&d, probs[at]);
            counters[2 * at + more]++;
            if (!more) break;
        }
        int some = bit(&d, probs[at + 1]);
        counters[2 * (at + 1) + some]++;
        if (!some) {
            check = 0;
            continue;
        }
        int token = 1, large = bit(&d, probs[at + 2]);
        counters[2 * (at + 2) + large]++;
        if (large) token = tail(&d, probs[at + 2]);
        int value = token;
        if (token > 4) {
            int bits = 0;
            for (const uint8_t *p = CATEGORIES[token - 5]; *p; p++) bits = 2 * bits + bit(&d, *p);
            value = BASES[token - 5] + bits;
        }
        cache[scan[c]] = ENERGY_CLASS[token];
        levels[scan[c]] = bit(&d, 128) ? -value : value;
        check = 1;
    }
    *behind = d;
    return c;
}

int main(void) {
    uint8_t *bytes = malloc(SIZE);
    uint32_t state = SEED;
    for (size_t k = 0; k < SIZE; k++) {
        state = drawn(state);
        bytes[k] = state >> 24;
    }
    for (int k = 0; k < 1584; k++) probs[k] = PROB_COEF[k];
    static int32_t levels[4][1024];
    char line[64];
    while (fgets(line, sizeof line, stdin)) {
        line[strcspn(line, "\n")] = 0;
        char *rest = line;
        if (!strncmp(rest, "silent ", 7)) rest += 7;
        int small = !strncmp(rest, "small ", 6);
        if (small) rest += 6;
        uint64_t rounds = strtoull(rest, 0, 10), sum = 0;
        decoder d;
        start(&d, bytes, SIZE);
        for (uint64_t round = 0; round < rounds; round++) {
            if (round % ROUNDS == 0) start(&d, bytes, SIZE);
            for (int k = 0; k < (small ? 16 : 4); k++) {
                int tx = small ? 0 : k;
                int32_t *l = levels[tx];
                uint64_t count = tokens(&d, tx, round % 4, round % 2, round % 3 == 0, small ? 2 : round % 3, l);
                sum = sum * 3 + count + labs(l[0]) + labs(l[1]);
                memset(l, 0, (size_t)(16 << (2 * tx)) * 4);
            }
        }
        printf("%s: %" PRIu64 "\n", line, sum);
    }
    return 0;
}
