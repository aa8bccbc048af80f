// (c') Exact, without fractions: with i components left every value is a whole number over 2^(30 i), in 64-bit limbs. The memory table.
#include <stdint.h>
#include <string.h>

enum { LIMBS = 31 };

typedef struct {
    uint64_t limb[LIMBS];
} number;

static uint64_t P[65], Q[65];

static inline int limbs(int i) {
    return 30 * i / 64 + 1;
}

static inline void set(number *to, int works) {
    memset(to, 0, sizeof *to);
    to->limb[0] = works;
}

static inline void copy(number *to, const number *from) {
    *to = *from;
}

static inline void mix(number *to, int i, const number *works, const number *fails) {
    unsigned __int128 sum = 0;
    for (int j = 0; j < limbs(i); j++) {
        sum += (unsigned __int128)P[i] * works->limb[j] + (unsigned __int128)Q[i] * fails->limb[j];
        to->limb[j] = (uint64_t)sum;
        sum >>= 64;
    }
}

static inline void keep(number *to, int i, const number *works) {
    unsigned __int128 sum = 0;
    for (int j = 0; j < limbs(i); j++) {
        sum += (unsigned __int128)P[i] * works->limb[j];
        to->limb[j] = (uint64_t)sum;
        sum >>= 64;
    }
}

#include "table.h"

void prepare(const struct asked *a) {
    take(a);
    for (int i = 1; i <= n; i++) {
        P[i] = a->survival[i - 1];
        Q[i] = UNIT - P[i];
    }
}

static const number *answer;

struct ends rate(void) {
    answer = value();
    return (struct ends){0, 0};
}

static uint64_t bit(const number *x, int at) {
    return x->limb[at / 64] >> at % 64 & 1;
}

// The whole units below and above the answer: it stands over 2^(30 n), and a unit is 2^30 of one.
struct ends told(struct ends e) {
    int places = 30 * (n - 1);
    uint64_t units = 0, rest = 0;
    for (int at = 30; at >= 0; at--) units = units * 2 + bit(answer, places + at);
    for (int at = 0; at < places; at++) rest |= bit(answer, at);
    e.low = units;
    e.high = units + rest;
    return e;
}
