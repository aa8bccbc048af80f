// What both ways of counting share: the case, the room for its n + 1 counts, and what is told of them.
#include "bench.h"

static struct asked asked;
static uint64_t room[MOST + 1];

void prepare(const struct asked *a) {
    asked = *a;
}

// The counts, each times an odd number of its own, added up: both halves of the sum.
struct ends told(struct ends e) {
    uint64_t sum = 0;
    for (int j = 0; j <= asked.n; j++) sum += room[j] * (2 * j + 1);
    return (struct ends){sum >> 32, (uint32_t)sum};
}
