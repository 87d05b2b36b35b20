/* The blocks of bench/inter/blocks.c by libvpx's own functions, linked statically, where they can be called: `sse2`, `ssse3`
   and `avx2` of 8-bit samples, `high_sse2` and `high_avx2` of samples in 16 bits, `c` of the C that it has for each. One
   argument names them. It reads the lines that blocks.c reads, and prints the same checksums. */
#include <inttypes.h>
#include <stddef.h>
#include <stdint.h>
#include <stdio.h>
#include <string.h>

#define SIDE 512
#define SEED 4u

typedef int16_t Kernel[8];
#define ARGS(type) const type *, ptrdiff_t, type *, ptrdiff_t, const Kernel *, int, int, int, int, int, int
#define EIGHT(set) void vpx_convolve8_##set(ARGS(uint8_t)); void vpx_convolve8_horiz_##set(ARGS(uint8_t)); void vpx_convolve8_vert_##set(ARGS(uint8_t));
#define HIGH(set) void vpx_highbd_convolve8_##set(ARGS(uint16_t), int); void vpx_highbd_convolve8_horiz_##set(ARGS(uint16_t), int); \
    void vpx_highbd_convolve8_vert_##set(ARGS(uint16_t), int); void vpx_highbd_convolve_copy_##set(ARGS(uint16_t), int);
EIGHT(c) EIGHT(sse2) EIGHT(ssse3) EIGHT(avx2)
HIGH(c) HIGH(sse2) HIGH(avx2)
void vpx_convolve_copy_c(ARGS(uint8_t));
void vpx_convolve_copy_sse2(ARGS(uint8_t));
void vpx_scaled_2d_c(ARGS(uint8_t));
void vpx_scaled_2d_ssse3(ARGS(uint8_t));

static const Kernel taps[16] __attribute__((aligned(256))) = {
    {0, 0, 0, 128, 0, 0, 0, 0},        {0, 1, -5, 126, 8, -3, 1, 0},      {-1, 3, -10, 122, 18, -6, 2, 0},
    {-1, 4, -13, 118, 27, -9, 3, -1},  {-1, 4, -16, 112, 37, -11, 4, -1}, {-1, 5, -18, 105, 48, -14, 4, -1},
    {-1, 5, -19, 97, 58, -16, 5, -1},  {-1, 6, -19, 88, 68, -18, 5, -1},  {-1, 6, -19, 78, 78, -19, 6, -1},
    {-1, 5, -18, 68, 88, -19, 6, -1},  {-1, 5, -16, 58, 97, -19, 5, -1},  {-1, 4, -14, 48, 105, -18, 5, -1},
    {-1, 4, -11, 37, 112, -16, 4, -1}, {-1, 3, -9, 27, 118, -13, 4, -1},  {0, 2, -6, 18, 122, -10, 3, -1},
    {0, 1, -3, 8, 126, -5, 1, 0},
};

typedef void Eight(ARGS(uint8_t));
typedef void High(ARGS(uint16_t), int);

/* both passes, along rows, down columns, neither; any step */
static Eight *const eights[][5] = {
    {vpx_convolve8_c, vpx_convolve8_horiz_c, vpx_convolve8_vert_c, vpx_convolve_copy_c, vpx_scaled_2d_c},
    {vpx_convolve8_sse2, vpx_convolve8_horiz_sse2, vpx_convolve8_vert_sse2, vpx_convolve_copy_sse2, vpx_scaled_2d_c},
    {vpx_convolve8_ssse3, vpx_convolve8_horiz_ssse3, vpx_convolve8_vert_ssse3, vpx_convolve_copy_sse2, vpx_scaled_2d_ssse3},
    {vpx_convolve8_avx2, vpx_convolve8_horiz_avx2, vpx_convolve8_vert_avx2, vpx_convolve_copy_sse2, vpx_scaled_2d_ssse3},
};
static High *const highs[][5] = {
    {vpx_highbd_convolve8_c, vpx_highbd_convolve8_horiz_c, vpx_highbd_convolve8_vert_c, vpx_highbd_convolve_copy_c, vpx_highbd_convolve8_c},
    {vpx_highbd_convolve8_sse2, vpx_highbd_convolve8_horiz_sse2, vpx_highbd_convolve8_vert_sse2, vpx_highbd_convolve_copy_sse2, vpx_highbd_convolve8_c},
    {vpx_highbd_convolve8_avx2, vpx_highbd_convolve8_horiz_avx2, vpx_highbd_convolve8_vert_avx2, vpx_highbd_convolve_copy_avx2, vpx_highbd_convolve8_c},
};

static uint8_t narrow[SIDE * SIDE], narrow_out[4096];
static uint16_t wide[SIDE * SIDE], wide_out[4096];

static int place_of(const char *name, const char *const *names, int count) {
    for (int k = 0; k < count; k++)
        if (!strcmp(name, names[k])) return k;
    return 0;
}

int main(int argc, char **argv) {
    static const char *const sets[] = {"c", "sse2", "ssse3", "avx2", "high_c", "high_sse2", "high_avx2"};
    static const char *const kinds[] = {"both", "across", "down", "whole", "scaled"};
    int set = place_of(argc > 1 ? argv[1] : "c", sets, 7);
    char name[16];
    int size;
    uint64_t count;
    while (scanf("%15s %d %" SCNu64, name, &size, &count) == 3) {
        int kind = place_of(name, kinds, 5);
        uint32_t state = SEED;
        for (size_t k = 0; k < SIDE * SIDE; k++) {
            state = state * 1664525u + 1013904223u;
            narrow[k] = wide[k] = state >> 24;
        }
        memset(narrow_out, 0, sizeof narrow_out);
        memset(wide_out, 0, sizeof wide_out);
        int across = kind == 2 || kind == 3 ? 0 : 8, down = kind == 1 || kind == 3 ? 0 : 13, step = kind == 4 ? 26 : 16;
        uint64_t sum = 0;
        size_t at = 0;
        for (uint64_t k = 0; k < count; k++) {
            size_t from = (64 + 8 * (k % 30)) * SIDE + 64 + 24 * (k % 10);
            if (set < 4)
                eights[set][kind](narrow + from, SIDE, narrow_out, size, taps, across, step, down, step, size, size);
            else
                highs[set - 4][kind](wide + from, SIDE, wide_out, size, taps, across, step, down, step, size, size, 8);
            sum = sum * 31 + (set < 4 ? narrow_out[at] : wide_out[at]);
            at = (at + 5) % 16;
        }
        for (size_t k = 0; k < 4096; k++) sum = sum * 31 + (set < 4 ? narrow_out[k] : wide_out[k]);
        printf("%s %d %" PRIu64 ": %" PRIu64 "\n", name, size, count, sum);
    }
    return 0;
}
