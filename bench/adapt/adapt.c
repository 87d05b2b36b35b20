/* Adaptation of all probabilities of an inter frame in C, as crates/bench has it adapted. It prints the same checksums. Counters
   are of 32 bits and sums of 64, as in deployed decoders. */
#include <inttypes.h>
#include <stdint.h>
#include <stdio.h>
#include <string.h>

#include "tables.h"

#define NODES 1895
#define COEFS 12
#define SKIPS 1596

static uint32_t drawn(uint32_t state) { return state * 1664525u + 1013904223u; }

static uint8_t merged(uint8_t before, uint32_t zeros, uint32_t ones, uint32_t sat, uint32_t most) {
    uint32_t all = zeros + ones;
    uint32_t share = 128;
    if (all != 0) {
        share = (uint32_t)((256 * (uint64_t)zeros + (all >> 1)) / all);
        share = share < 1 ? 1 : share > 255 ? 255 : share;
    }
    uint32_t count = all < sat ? all : sat;
    uint32_t factor = most * count / sat;
    return (uint8_t)((before * (256 - factor) + share * factor + 128) >> 8);
}

static __attribute__((noinline)) void adapt(const uint8_t *saved, const uint32_t (*counts)[2], uint8_t *probs) {
    for (int k = 0; k < COEFS; k++) probs[k] = merged(saved[k], counts[k][0], counts[k][1], 20, 128);
    for (int k = COEFS; k < SKIPS; k++) probs[k] = merged(saved[k], counts[k][0], counts[k][1], 24, 128);
    for (int k = SKIPS; k < NODES; k++) probs[k] = merged(saved[k], counts[k][0], counts[k][1], 20, 128);
}

int main(void) {
    static uint32_t counts[NODES][2];
    static uint8_t saved[NODES], probs[NODES];
    uint32_t state = 1;
    for (int k = 0; k < NODES; k++) {
        for (int one = 0; one < 2; one++) {
            state = drawn(state);
            counts[k][one] = state >> 24;
        }
    }
    uint64_t rounds;
    while (scanf("%" SCNu64, &rounds) == 1) {
        memcpy(saved, DEFAULTS, NODES);
        for (uint64_t round = 0; round < rounds; round++) {
            memcpy(probs, DEFAULTS, NODES);
            adapt(saved, (const uint32_t (*)[2])counts, probs);
            memcpy(saved, probs, NODES);
        }
        uint64_t sum = 7;
        for (int k = 0; k < NODES; k++) sum = sum * 31 + saved[k];
        printf("%" PRIu64 ": %" PRIu64 "\n", rounds, sum);
    }
    return 0;
}
