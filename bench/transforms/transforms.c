// What crates/bench makes, in C: one list at a time.
#include <inttypes.h>
#include <math.h>
#include <stdint.h>
#include <stdio.h>
#include <stdlib.h>
#include <string.h>

static const int32_t COS64[33] = {16384, 16364, 16305, 16207, 16069, 15893, 15679, 15426, 15137, 14811, 14449,
    14053, 13623, 13160, 12665, 12140, 11585, 11003, 10394, 9760, 9102, 8423, 7723, 7005, 6270, 5520, 4756, 3981,
    3196, 2404, 1606, 804, 0};

#define COS(k) ((k) <= 32 ? COS64[(k) <= 32 ? (k) : 0] : (k) <= 64 ? -COS64[(k) <= 64 && (k) > 32 ? 64 - (k) : 0] \
    : (k) <= 96 ? -COS64[(k) > 64 && (k) <= 96 ? (k) - 64 : 0] : COS64[(k) > 96 ? 128 - (k) : 0])
#define MISFIT(v) ((v) < -limit | (v) >= limit)

#include "tables.h"

static uint32_t drawn(uint32_t state) { return state * 1664525u + 1013904223u; }

static void rows(int32_t t[32][8], uint32_t state) {
    for (int k = 0; k < 32; k++)
        for (int j = 0; j < 8; j++) {
            state = drawn(state);
            t[k][j] = (int32_t)(state >> 22) - 512;
        }
}

static void levels(int32_t b[64], uint32_t state) {
    for (int k = 0; k < 64; k++) {
        state = drawn(state);
        b[k] = (int32_t)(state >> 27) - 16;
    }
}

static uint64_t with_value(uint64_t sum, int32_t value) { return sum * 3 + (uint64_t)labs((long)value); }

static __attribute__((noinline)) int columns(int32_t t[32][8], int32_t limit) {
    int bad = 0;
    for (int j = 0; j < 8; j++) {
        int32_t v[32];
        for (int k = 0; k < 32; k++) v[k] = t[k][j];
        bad |= dct_32(v, limit);
        for (int k = 0; k < 32; k++) t[k][j] = v[k];
    }
    return bad;
}

static __attribute__((noinline)) int residue(int32_t b[64], int32_t limit, int dc, int ac) {
    int bad = 0;
    for (int k = 0; k < 64; k++) {
        int64_t value = (int64_t)b[k] * (k ? ac : dc);
        if (value < -limit || value >= limit) return 22;
        b[k] = value;
    }
    for (int i = 0; i < 8; i++) {
        if (dct_8(b + 8 * i, limit)) return 23;
    }
    for (int j = 0; j < 8; j++) {
        int32_t v[8];
        for (int k = 0; k < 8; k++) v[k] = b[8 * k + j];
        bad |= dct_8(v, limit);
        for (int k = 0; k < 8; k++) b[8 * k + j] = (v[k] + 16) >> 5;
    }
    return bad;
}

static __attribute__((noinline)) int large_residue(int32_t b[1024], int32_t limit, int dc, int ac) {
    int bad = 0;
    for (int k = 0; k < 1024; k++) {
        int64_t value = (int64_t)b[k] * (k ? ac : dc) / 2;
        if (value < -limit || value >= limit) return 22;
        b[k] = value;
    }
    for (int i = 0; i < 32; i++) {
        if (dct_32(b + 32 * i, limit)) return 23;
    }
    for (int j = 0; j < 32; j++) {
        int32_t v[32];
        for (int k = 0; k < 32; k++) v[k] = b[32 * k + j];
        bad |= dct_32(v, limit);
        for (int k = 0; k < 32; k++) b[32 * k + j] = (v[k] + 32) >> 6;
    }
    return bad;
}

int main(void) {
    char kind[32];
    uint64_t count;
    while (scanf("%31s %" SCNu64, kind, &count) == 2) {
        uint64_t sum = 0;
        int bad = 0;
        if (!strcmp(kind, "columns")) {
            static int32_t start[2][32][8];
            rows(start[0], 1);
            rows(start[1], 2);
            for (uint64_t k = 0; k < count; k++) {
                int32_t t[32][8];
                memcpy(t, start[k % 2], sizeof t);
                bad |= columns(t, 1 << 15);
                sum = with_value(sum, t[k % 32][k % 8]);
            }
        } else if (!strcmp(kind, "one-level")) {
            static int32_t start[2][1024];
            start[0][0] = 100;
            start[1][0] = -77;
            for (uint64_t k = 0; k < count; k++) {
                int32_t b[1024];
                memcpy(b, start[k % 2], sizeof b);
                bad |= large_residue(b, 1 << 15, 12, 15);
                sum = with_value(sum, b[k % 1024]);
            }
        } else {
            static int32_t start[2][64];
            levels(start[0], 3);
            levels(start[1], 4);
            for (uint64_t k = 0; k < count; k++) {
                int32_t b[64];
                memcpy(b, start[k % 2], sizeof b);
                bad |= residue(b, 1 << 15, 12, 15);
                sum = with_value(sum, b[k % 64]);
            }
        }
        if (bad) printf("%s %" PRIu64 ": rule\n", kind, count);
        else printf("%s %" PRIu64 ": %" PRIu64 "\n", kind, count, sum);
    }
}
