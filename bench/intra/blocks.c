/* The intra predictor of crates/intra_predict in C: edges, a block buffer, and the block put into the plane, each loop
   compiled for each size. It predicts what crates/bench predicts, and prints the same checksums. */
#include <inttypes.h>
#include <stdint.h>
#include <stdio.h>
#include <stdlib.h>
#include <string.h>

#define WIDTH 1920
#define HEIGHT 1080
#define SEED 4u
#define BLOCK static inline __attribute__((always_inline)) void

typedef struct {
    uint16_t above[64], left[32], corner;
    int has_above, has_left;
} edges;

typedef struct {
    size_t row, column, tile_from, block_end;
} place;

enum mode { DC, V, H, D45, TM };

static uint32_t drawn(uint32_t state) { return state * 1664525u + 1013904223u; }

static inline size_t least(size_t a, size_t b) { return a < b ? a : b; }

BLOCK read_edges(edges *e, const uint16_t *samples, const place *p, size_t size) {
    e->has_above = p->row > 0;
    e->has_left = p->column > p->tile_from;
    if (e->has_above) {
        const uint16_t *row = samples + (p->row - 1) * WIDTH + p->column;
        size_t wanted = size == 4 && p->column + 4 < p->block_end ? 8 : size;
        size_t count = least(wanted, WIDTH - p->column);
        memcpy(e->above, row, count * sizeof *row);
        for (size_t k = count; k < 2 * size; k++) e->above[k] = row[count - 1];
    } else {
        for (size_t k = 0; k < 2 * size; k++) e->above[k] = 127;
    }
    if (e->has_left) {
        for (size_t k = 0; k < size; k++) e->left[k] = samples[least(p->row + k, HEIGHT - 1) * WIDTH + p->column - 1];
    } else {
        for (size_t k = 0; k < size; k++) e->left[k] = 129;
    }
    e->corner = !e->has_above ? 127 : !e->has_left ? 129 : samples[(p->row - 1) * WIDTH + p->column - 1];
}

BLOCK predict_dc(uint16_t *block, const edges *e, size_t size) {
    uint32_t sum = 0, value = 128;
    if (e->has_above)
        for (size_t k = 0; k < size; k++) sum += e->above[k];
    if (e->has_left)
        for (size_t k = 0; k < size; k++) sum += e->left[k];
    uint32_t n = size * (e->has_above + e->has_left);
    if (e->has_above && e->has_left)
        value = (sum + size) / (2 * size);
    else if (n)
        value = (sum + size / 2) / size;
    for (size_t k = 0; k < size * size; k++) block[k] = value;
}

BLOCK predict_v(uint16_t *block, const edges *e, size_t size) {
    for (size_t i = 0; i < size; i++) memcpy(block + i * size, e->above, size * sizeof *block);
}

BLOCK predict_h(uint16_t *block, const edges *e, size_t size) {
    for (size_t i = 0; i < size; i++)
        for (size_t j = 0; j < size; j++) block[i * size + j] = e->left[i];
}

BLOCK predict_d45(uint16_t *block, const edges *e, size_t size) {
    uint16_t line[64];
    for (size_t k = 0; k < 2 * size - 2; k++) line[k] = (e->above[k] + 2 * e->above[k + 1] + e->above[k + 2] + 2) >> 2;
    line[2 * size - 2] = e->above[2 * size - 1];
    for (size_t i = 0; i < size; i++) memcpy(block + i * size, line + i, size * sizeof *block);
}

BLOCK predict_tm(uint16_t *block, const edges *e, size_t size) {
    for (size_t i = 0; i < size; i++)
        for (size_t j = 0; j < size; j++) {
            int value = e->left[i] + e->above[j] - e->corner;
            block[i * size + j] = value < 0 ? 0 : value > 255 ? 255 : value;
        }
}

BLOCK put(uint16_t *samples, const uint16_t *block, const place *p, size_t size) {
    size_t rows = least(size, HEIGHT - p->row), columns = WIDTH - p->column;
    uint16_t *at = samples + p->row * WIDTH + p->column;
    if (size <= columns)
        for (size_t i = 0; i < rows; i++) memcpy(at + i * WIDTH, block + i * size, size * sizeof *block);
    else
        for (size_t i = 0; i < rows; i++) memcpy(at + i * WIDTH, block + i * size, columns * sizeof *block);
}

BLOCK put_predicted(uint16_t *samples, const place *p, enum mode mode, size_t size) {
    edges e;
    uint16_t block[1024];
    read_edges(&e, samples, p, size);
    switch (mode) {
        case V: predict_v(block, &e, size); break;
        case H: predict_h(block, &e, size); break;
        case D45: predict_d45(block, &e, size); break;
        case TM: predict_tm(block, &e, size); break;
        default: predict_dc(block, &e, size);
    }
    put(samples, block, p, size);
}

static __attribute__((noinline)) void put_sized(uint16_t *samples, const place *p, enum mode mode, size_t size) {
    switch (size) {
        case 4: put_predicted(samples, p, mode, 4); break;
        case 8: put_predicted(samples, p, mode, 8); break;
        case 16: put_predicted(samples, p, mode, 16); break;
        default: put_predicted(samples, p, mode, 32);
    }
}

static void predict_blocks(uint16_t *samples, enum mode mode, size_t size, uint64_t count) {
    size_t row = size, column = 0;
    for (uint64_t k = 0; k < count; k++) {
        place p = {row, column, 0, column + size};
        put_sized(samples, &p, mode, size);
        column += size;
        if (column >= WIDTH) {
            column = 0;
            row += size;
        }
        if (row >= HEIGHT) row = size;
    }
}

static enum mode mode_of(const char *name) {
    const char *names[] = {"dc", "v", "h", "d45", "tm"};
    for (int k = 0; k < 5; k++)
        if (strcmp(name, names[k]) == 0) return k;
    exit(1);
}

int main(void) {
    uint16_t *samples = malloc(WIDTH * HEIGHT * sizeof *samples);
    if (!samples) return 1;
    char kind[16];
    size_t size;
    uint64_t count;
    while (scanf("%15s %zu %" SCNu64, kind, &size, &count) == 3) {
        uint32_t state = SEED;
        for (size_t k = 0; k < WIDTH * HEIGHT; k++) {
            state = drawn(state);
            samples[k] = state >> 24;
        }
        predict_blocks(samples, mode_of(kind), size, count);
        uint64_t sum = 0;
        for (size_t k = 0; k < WIDTH * HEIGHT; k++) sum = sum * 31 + samples[k];
        printf("%s %zu %" PRIu64 ": %" PRIu64 "\n", kind, size, count, sum);
    }
    free(samples);
    return 0;
}
