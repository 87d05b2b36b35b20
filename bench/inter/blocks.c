/* The inter predictor of crates/inter_predict in C: blocks out of a plane of 512x512 samples, in two passes, each loop
   compiled for each size; one pass where the other's phase is 0, and copies where both are. It predicts what
   crates/bench predicts, and prints the same checksums. */
#include <inttypes.h>
#include <stdint.h>
#include <stdio.h>
#include <stdlib.h>
#include <string.h>

#define SIDE 512
#define SEED 4u
#define MOST 255
#define PASS static inline __attribute__((always_inline)) void

static const int16_t taps[16][8] = {
    {0, 0, 0, 128, 0, 0, 0, 0},        {0, 1, -5, 126, 8, -3, 1, 0},      {-1, 3, -10, 122, 18, -6, 2, 0},
    {-1, 4, -13, 118, 27, -9, 3, -1},  {-1, 4, -16, 112, 37, -11, 4, -1}, {-1, 5, -18, 105, 48, -14, 4, -1},
    {-1, 5, -19, 97, 58, -16, 5, -1},  {-1, 6, -19, 88, 68, -18, 5, -1},  {-1, 6, -19, 78, 78, -19, 6, -1},
    {-1, 5, -18, 68, 88, -19, 6, -1},  {-1, 5, -16, 58, 97, -19, 5, -1},  {-1, 4, -14, 48, 105, -18, 5, -1},
    {-1, 4, -11, 37, 112, -16, 4, -1}, {-1, 3, -9, 27, 118, -13, 4, -1},  {0, 2, -6, 18, 122, -10, 3, -1},
    {0, 1, -3, 8, 126, -5, 1, 0},
};

static uint32_t drawn(uint32_t state) { return state * 1664525u + 1013904223u; }

static inline uint8_t rounded(int sum) {
    sum = (sum + 64) >> 7;
    return sum < 0 ? 0 : sum > MOST ? MOST : sum;
}

/* values at places `step` apart, from rows of `stride` samples */
PASS filter(uint8_t *restrict out, int rows, int n, const uint8_t *restrict from, int stride, int step, const int16_t *restrict t) {
    for (int i = 0; i < rows; i++)
        for (int j = 0; j < n; j++) {
            int sum = 0;
            for (int k = 0; k < 8; k++) sum += t[k] * from[i * stride + k * step + j];
            out[i * n + j] = rounded(sum);
        }
}

/* any step, each value by itself */
PASS scale(uint8_t *restrict out, const uint8_t *restrict from, int n, int step, int across, int down) {
    uint8_t lines[134 * 64];
    int count = (down + step * (n - 1)) / 16 + 8;
    for (int i = 0; i < count; i++)
        for (int j = 0; j < n; j++) {
            int at = across + step * j, sum = 0;
            for (int k = 0; k < 8; k++) sum += taps[at & 15][k] * from[i * SIDE + (at >> 4) + k];
            lines[i * n + j] = rounded(sum);
        }
    for (int i = 0; i < n; i++) {
        int at = down + step * i;
        filter(out + i * n, 1, n, lines + (at >> 4) * n, n, n, taps[at & 15]);
    }
}

PASS predict(uint8_t *restrict out, const uint8_t *restrict from, int n, int step, int across, int down) {
    uint8_t lines[71 * 64];
    if (step != 16)
        scale(out, from, n, step, across, down);
    else if (across && down) {
        filter(lines, n + 7, n, from, SIDE, 1, taps[across]);
        filter(out, n, n, lines, n, n, taps[down]);
    } else if (across)
        filter(out, n, n, from + 3 * SIDE, SIDE, 1, taps[across]);
    else if (down)
        filter(out, n, n, from + 3, SIDE, SIDE, taps[down]);
    else
        for (int i = 0; i < n; i++) memcpy(out + i * n, from + (i + 3) * SIDE + 3, n * sizeof *out);
}

static __attribute__((noinline)) void predict_sized(uint8_t *out, const uint8_t *from, int n, int step, int across, int down) {
    switch (n) {
        case 4: predict(out, from, 4, step, across, down); break;
        case 8: predict(out, from, 8, step, across, down); break;
        case 16: predict(out, from, 16, step, across, down); break;
        case 32: predict(out, from, 32, step, across, down); break;
        default: predict(out, from, 64, step, across, down);
    }
}

int main(void) {
    static uint8_t samples[SIDE * SIDE], out[4096];
    char kind[16];
    int size;
    uint64_t count;
    while (scanf("%15s %d %" SCNu64, kind, &size, &count) == 3) {
        uint32_t state = SEED;
        for (size_t k = 0; k < SIDE * SIDE; k++) {
            state = drawn(state);
            samples[k] = state >> 24;
        }
        memset(out, 0, sizeof out);
        int across = strcmp(kind, "whole") && strcmp(kind, "down") ? 8 : 0;
        int down = strcmp(kind, "whole") && strcmp(kind, "across") ? 13 : 0;
        int step = strcmp(kind, "scaled") ? 16 : 26;
        uint64_t sum = 0;
        size_t at = 0;
        for (uint64_t k = 0; k < count; k++) {
            size_t x = 64 + 24 * (k % 10), y = 64 + 8 * (k % 30);
            predict_sized(out, samples + (y - 3) * SIDE + (x - 3), size, step, across, down);
            sum = sum * 31 + out[at];
            at = (at + 5) % 16;
        }
        for (size_t k = 0; k < 4096; k++) sum = sum * 31 + out[k];
        printf("%s %d %" PRIu64 ": %" PRIu64 "\n", kind, size, count, sum);
    }
    return 0;
}
