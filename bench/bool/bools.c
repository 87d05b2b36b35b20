/* The bool decoder of crates/bool_decoder in C: a 64-bit window that is refilled by whole bytes. It reads what
   crates/bench reads, and prints the same checksums. */
#include <inttypes.h>
#include <stdint.h>
#include <stdio.h>
#include <stdlib.h>
#include <string.h>

#define SIZE ((size_t)8 << 20)
#define SEED 4u
#define FIXED 160

typedef struct {
    uint64_t window;
    uint32_t count, range;
    const uint8_t *rest, *end;
} decoder;

static uint32_t drawn(uint32_t state) { return state * 1664525u + 1013904223u; }

static __attribute__((noinline, cold)) void fill(decoder *d) {
    uint64_t six = 0;
    if (d->end - d->rest >= 8) {
        uint64_t eight;
        memcpy(&eight, d->rest, 8);
        six = __builtin_bswap64(eight) >> 16;
        d->rest += 6;
    } else {
        for (int k = 0; k < 6; k++)
            six = six << 8 | (d->rest < d->end ? *d->rest++ : 0);
    }
    d->window |= six << (16 - d->count);
    d->count += 48;
}

static inline __attribute__((always_inline)) int bit(decoder *d, uint32_t p) {
    if (__builtin_expect(d->count < 15, 0)) fill(d);
    uint32_t split = 1 + (((d->range - 1) * p) >> 8);
    uint64_t border = (uint64_t)split << 56;
    uint32_t range = split;
    uint64_t window = d->window;
    int one = 0;
    if (window >= border) {
        window -= border;
        range = d->range - split;
        one = 1;
    }
    uint32_t shift = __builtin_clz(range) - 24;
    d->window = window << shift;
    d->range = range << shift;
    d->count -= shift;
    return one;
}

static int start(decoder *d, const uint8_t *bytes, size_t size) {
    *d = (decoder){0, 0, 255, bytes, bytes + size};
    fill(d);
    return bit(d, 128);
}

static uint64_t fixed(decoder d, uint64_t count) {
    uint64_t sum = 0;
    for (uint64_t k = 0; k < count; k++) sum = sum * 3 + bit(&d, FIXED);
    return sum;
}

static uint64_t varied(decoder d, uint64_t count) {
    uint8_t probs[256];
    uint32_t state = SEED + 1;
    for (int k = 0; k < 256; k++) {
        state = drawn(state);
        probs[k] = (state >> 24) % 255 + 1;
    }
    uint64_t sum = 0;
    for (uint64_t k = 0; k < count; k++) sum = sum * 3 + bit(&d, probs[k % 256]);
    return sum;
}

int main(void) {
    uint8_t *bytes = malloc(SIZE);
    if (!bytes) return 1;
    uint32_t state = SEED;
    for (size_t k = 0; k < SIZE; k++) {
        state = drawn(state);
        bytes[k] = state >> 24;
    }
    char kind[16];
    uint64_t count;
    while (scanf("%15s %" SCNu64, kind, &count) == 2) {
        decoder d;
        if (start(&d, bytes, SIZE)) return 1;
        uint64_t sum = strcmp(kind, "fixed") == 0 ? fixed(d, count) : varied(d, count);
        printf("%s %" PRIu64 ": %" PRIu64 "\n", kind, count, sum);
    }
    free(bytes);
    return 0;
}
