// The library's count table: one proved call, in a working table that is lent and handed back clear.
#include "room.h"

enum { CELLS = 7800 };

uint64_t foambeetle_counts(uint64_t kind, uint64_t first, uint64_t second, uint64_t n, const uint16_t *weights, size_t weighed, uint64_t *table,
                           size_t cells, uint64_t *room, size_t slots);

static uint64_t table[CELLS];

struct ends rate(void) {
    foambeetle_counts(asked.kind, asked.first, asked.second, asked.n, asked.weights, asked.n, table, CELLS, room, MOST + 1);
    return (struct ends){0, 0};
}
