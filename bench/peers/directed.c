// (b) Doubles with directed rounding: the memory table once rounded down, once up.
#include <xmmintrin.h>

typedef double number;

static double P[65], Q[65];

static inline void set(number *to, int works) {
    *to = works;
}

static inline void copy(number *to, const number *from) {
    *to = *from;
}

static inline void mix(number *to, int i, const number *works, const number *fails) {
    *to = P[i] * *works + Q[i] * *fails;
}

static inline void keep(number *to, int i, const number *works) {
    *to = P[i] * *works;
}

#include "table.h"

// P, and Q = 1 - P, are exact in a double.
void prepare(const struct asked *a) {
    take(a);
    for (int i = 1; i <= n; i++) {
        P[i] = (double)a->survival[i - 1] / UNIT;
        Q[i] = 1 - P[i];
    }
}

struct ends rate(void) {
    struct ends e;
    _MM_SET_ROUNDING_MODE(_MM_ROUND_DOWN);
    e.low = *value();
    _MM_SET_ROUNDING_MODE(_MM_ROUND_UP);
    e.high = *value();
    _MM_SET_ROUNDING_MODE(_MM_ROUND_NEAREST);
    return e;
}

struct ends told(struct ends e) {
    return (struct ends){e.low * UNIT, e.high * UNIT};
}
