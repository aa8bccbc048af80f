// The library: one proved call, both ends, in a working table that is lent and handed back clear.
#include "bench.h"
#include "boards.h"

// The version whose unit the cases have.
#ifndef VERSION
#define VERSION 1
#endif

enum { CELLS = 7800 };

uint64_t foambeetle_figures(uint64_t version, uint64_t kind, uint64_t first, uint64_t second, uint64_t a, uint64_t b, const uint32_t *survival,
                            size_t n, const uint16_t *weights, size_t weighed, const uint64_t *more, size_t further, const uint8_t *boards,
                            size_t placed, const uint32_t *switchboards, size_t g, uint64_t *table, size_t cells);

static struct asked asked;
static uint64_t table[CELLS], packed;

void prepare(const struct asked *a) {
    asked = *a;
}

struct ends rate(void) {
    packed = foambeetle_figures(VERSION, asked.kind, asked.first, asked.second, 1, asked.n, asked.survival, asked.n, asked.weights, asked.n,
                                asked.more, asked.further, boards, asked.n, switchboards, BOARDS, table, CELLS);
    return (struct ends){0, 0};
}

struct ends told(struct ends e) {
    return (struct ends){packed >> 32, (uint32_t)packed};
}
