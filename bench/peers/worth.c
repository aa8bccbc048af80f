// The worth of the middle fan: one proved call, both ends, in a working table that is lent and handed back clear.
#include "bench.h"
#include "boards.h"

// The version whose unit the cases have.
enum { CELLS = 7800, VERSION = 1 };

uint64_t foambeetle_worth_of(uint64_t version, uint64_t kind, uint64_t first, uint64_t second, uint64_t a, uint64_t b, uint64_t fan,
                             const uint32_t *survival, size_t n, const uint16_t *weights, size_t weighed, const uint64_t *more, size_t further,
                             const uint8_t *boards, size_t placed, const uint32_t *switchboards, size_t g, uint64_t *table, size_t cells,
                             int64_t *ends);

static struct asked asked;
static uint64_t table[CELLS], refused;
static int64_t ends[2];

void prepare(const struct asked *a) {
    asked = *a;
}

struct ends rate(void) {
    refused = foambeetle_worth_of(VERSION, asked.kind, asked.first, asked.second, 1, asked.n, asked.n / 2, asked.survival, asked.n, asked.weights,
                                  asked.n, asked.more, asked.further, boards, asked.n, switchboards, BOARDS, table, CELLS, ends);
    return (struct ends){0, 0};
}

// A refusal is told as ends that no worth has.
struct ends told(struct ends e) {
    return refused ? (struct ends){UNIT, -UNIT} : (struct ends){ends[0], ends[1]};
}
