// Document 01's memory table, worked from no components left up to all n, over numbers that the including file defines: `number`, with
//   set(to, works)            the value of an end, 1 or 0
//   copy(to, from)
//   mix(to, i, works, fails)  P of i times the value where it works, plus Q of i times the value where it fails
//   keep(to, i, works)        the same where the failed memory is dead
// Only memories that can be reached are worked; of kind 2 all. A row holds the values of one lead.
#include "bench.h"

static int kind, first, second, n;
static int weight[MOST + 1];
static number row[HEAVIEST + 1], opened, saved;

static void take(const struct asked *a) {
    kind = a->kind, first = a->first, second = a->second, n = a->n;
    for (int i = 1; i <= n; i++) weight[i] = a->weights[i - 1];
}

static inline int lesser(int a, int b) {
    return a < b ? a : b;
}

static inline int greater(int a, int b) {
    return a > b ? a : b;
}

// The first `works` memories work at the end, those behind them up to `dead` do not.
static inline void begin(int works, int dead) {
    for (int m = 0; m <= dead; m++) set(&row[m], m < works);
}

static inline void count_failed(int k) {
    begin(k, k);
    for (int i = 1; i <= n; i++)
        for (int m = 0; m <= lesser(k - 1, n - i); m++) mix(&row[m], i, &row[m], &row[m + 1]);
}

static inline void add_weights(int k) {
    begin(k, k);
    for (int i = 1; i <= n; i++) {
        int m = 0, w = weight[i];
        for (; m < k - w; m++) mix(&row[m], i, &row[m], &row[m + w]);
        for (; m < k; m++) keep(&row[m], i, &row[m]);
    }
}

static inline void between(int l, int h) {
    for (int m = 0; m <= n; m++) set(&row[m], m < l || h < m);
    for (int i = 1; i <= n; i++)
        for (int m = 0; m <= n - i; m++) mix(&row[m], i, &row[m], &row[m + 1]);
}

// Up to `upto` left, after which memory 0 is asked for.
static inline void in_a_row(int k, int upto) {
    for (int i = 1; i <= upto; i++) {
        copy(&saved, &row[0]);
        for (int m = 0; m <= lesser(k - 1, upto - i); m++) mix(&row[m], i, &saved, &row[m + 1]);
    }
}

static inline void in_a_row_ring(int k) {
    set(&opened, 0);
    for (int t = k - 1; t >= 0; t--) {
        begin(k - t, k);
        in_a_row(k, n - t - 1);
        mix(&opened, n - t, &row[0], &opened);
    }
}

// Up to `upto` left, after which g = 0 is asked for; a failed component sets g to r - 1, and it runs down while they work.
static inline void apart(int r, int upto, int i) {
    copy(&saved, &row[r - 1]);
    for (int g = r - 1; g >= greater(1, r - (upto - i)); g--) keep(&row[g], i, &row[g - 1]);
    mix(&row[0], i, &row[0], &saved);
}

static inline void two_in_r(int r) {
    begin(r, r);
    for (int i = 1; i <= n; i++) apart(r, n, i);
}

// The value after the first failed component, of clean x with `left` left behind it: the next r - 1 must work.
static inline void entered(int r, int x, int left) {
    int upto = greater(left - (r - 1), 0);
    begin(x + 1, r);
    for (int i = 1; i <= upto; i++) apart(r, upto, i);
    copy(&saved, &row[greater(r - 1 - left, 0)]);
    for (int i = upto + 1; i <= left; i++) keep(&saved, i, &saved);
}

// With n - r + 1 left or fewer clean x is r - 1, and one sweep serves; above that every x has its own.
static inline void two_in_r_ring(int r) {
    set(&opened, 1);
    begin(r, r);
    for (int i = 1; i <= n - r + 1; i++) {
        mix(&opened, i, &opened, &row[r - 1]);
        apart(r, n - r + 1, i);
    }
    for (int i = n - r + 2; i <= n; i++) {
        entered(r, n - i, i - 1);
        mix(&opened, i, &opened, &saved);
    }
}

// Never moved into its callers, which set how it rounds.
static __attribute__((noinline)) const number *value(void) {
    switch (kind) {
    case 1: count_failed(first); return &row[0];
    case 2: add_weights(first); return &row[0];
    case 3: between(first, second); return &row[0];
    case 4: begin(first, first); in_a_row(first, n); return &row[0];
    case 5: in_a_row_ring(first); return &opened;
    case 6: two_in_r(second); return &row[0];
    default: two_in_r_ring(second); return &opened;
    }
}
