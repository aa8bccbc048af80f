// Kind 8 in plain doubles, one figure: what its two ways share. A pattern is the states of the last components as bits, the last one read lowest, a
// one where it has failed; the longest window less one of them are kept. With i left and n - i read, only patterns below 2^(n - i) can have come.
#include "bench.h"

enum { LONGEST = 10, PATTERNS = 1 << (LONGEST - 1), PAIRS = 1 + MOST_MORE / 2 };

static int n, kept, pairs, k[PAIRS], r[PAIRS];
static double P[MOST + 1], Q[MOST + 1], rows[2][PATTERNS];
static char ones[2 * PATTERNS], lives[PATTERNS], dies[PATTERNS];

void prepare(const struct asked *a) {
    n = a->n, kept = 0, pairs = 1 + a->further / 2;
    for (int p = 0; p < pairs; p++) {
        k[p] = p ? (int)a->more[2 * p - 2] : a->first;
        r[p] = p ? (int)a->more[2 * p - 1] : a->second;
        if (kept < r[p] - 1) kept = r[p] - 1;
    }
    for (int i = 1; i <= n; i++) {
        P[i] = (double)a->survival[i - 1] / UNIT;
        Q[i] = 1 - P[i];
    }
}

// Do fewer than k of the last r work, for some pair?
static inline int too_few(int states) {
    for (int p = 0; p < pairs; p++)
        if (r[p] - ones[states & ((1 << r[p]) - 1)] < k[p]) return 1;
    return 0;
}

// Which patterns live, and after which of them a failed component is the end, made anew for each rating. A working one is never the end.
static inline void look(void) {
    for (int m = 1; m < 2 << kept; m++) ones[m] = ones[m / 2] + m % 2;
    lives[0] = 1;
    for (int m = 0; m < 1 << kept; m++) {
        dies[m] = too_few(2 * m + 1);
        if (2 * m < 1 << kept) lives[2 * m] = lives[m], lives[2 * m + 1] = lives[m] && !dies[m];
    }
}

// How many patterns can have come with i left.
static inline int come(int i) {
    return n - i < kept ? 1 << (n - i) : 1 << kept;
}

// A pattern's value with i left, from those with one fewer.
static inline double value(int m, int i, const double *fewer) {
    int next = 2 * m & ((1 << kept) - 1);
    return dies[m] ? P[i] * fewer[next] : P[i] * fewer[next] + Q[i] * fewer[next + 1];
}

struct ends told(struct ends e) {
    return (struct ends){e.low * UNIT, e.high * UNIT};
}
